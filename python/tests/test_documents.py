"""Tests that the documents show what Python prints, that one version number is everywhere, and that
each public name has a docstring and uses the words of the project."""

import ast
import doctest
import inspect
import re
import unittest
from pathlib import Path
from typing import Iterator, List, Tuple

import semver_parser
from semver_parser import _library

TOP = Path(__file__).resolve().parents[2]


def named(body: List[ast.stmt]) -> Iterator[Tuple[str, ast.stmt, ast.stmt]]:
    """Yields what has a name among some statements: the name, its statement, and the one after
    that."""
    for it, after in zip(body, [*body[1:], ast.Pass()]):
        if isinstance(it, (ast.ClassDef, ast.FunctionDef)):
            if "overload" not in map(ast.unparse, it.decorator_list):
                yield it.name, it, after
        elif isinstance(it, ast.Assign) and isinstance(it.targets[0], ast.Name):
            yield it.targets[0].id, it, after
        elif isinstance(it, ast.AnnAssign) and isinstance(it.target, ast.Name):
            yield it.target.id, it, after


def is_described(name: str, it: ast.stmt, after: ast.stmt, around: str) -> bool:
    """Returns whether something has a docstring, or a string after it, or is named in the docstring
    around."""
    if isinstance(it, (ast.ClassDef, ast.FunctionDef)):
        return ast.get_docstring(it) is not None
    is_text = isinstance(after, ast.Expr) and isinstance(after.value, ast.Constant)
    return is_text or f"`{name}`" in around


class Documents(unittest.TestCase):
    def test_examples(self) -> None:
        finder, runner = doctest.DocTestFinder(), doctest.DocTestRunner()
        public = [("semver_parser", semver_parser)]
        public += [(name, getattr(semver_parser, name)) for name in semver_parser.__all__]
        for name, it in public:
            for test in finder.find(it, name, module=False, globs=vars(semver_parser).copy()):
                runner.run(test)
        self.assertEqual(runner.summarize(), (0, runner.tries))
        self.assertGreater(runner.tries, 25)
        document = TOP / "python" / "README.md"
        failed, tried = doctest.testfile(str(document), module_relative=False)
        self.assertEqual((failed, tried > 0), (0, True), document)

    def test_links(self) -> None:
        """README is shown where the package is published, so its links may not lead to other
        files."""
        readme = (TOP / "python" / "README.md").read_text()
        for target in re.findall(r"\]\(([^)\s]+)\)", readme):
            self.assertRegex(target, "^(https://|#)")

    def test_docstrings(self) -> None:
        found = []
        for file in (TOP / "python" / "semver_parser").glob("*.py"):
            module = ast.parse(file.read_text())
            self.assertTrue(ast.get_docstring(module), file)
            for name, it, after in named(module.body):
                if name in semver_parser.__all__:
                    found.append(name)
                    self.assertTrue(is_described(name, it, after, ""), name)
                    self.check_members(it)
        self.assertEqual(sorted(found), sorted(semver_parser.__all__))

    def check_members(self, of: ast.stmt) -> None:
        if isinstance(of, ast.ClassDef):
            around = ast.get_docstring(of) or ""
            for name, it, after in named(of.body):
                if not name.startswith("_"):
                    self.assertTrue(is_described(name, it, after, around), (of.name, name))

    def test_words(self) -> None:
        """No public name contains a word that the project doesn't use for it."""
        names = set(semver_parser.__all__)
        for name in semver_parser.__all__:
            it = getattr(semver_parser, name)
            if inspect.isclass(it):
                names |= {f"{name}.{member}" for member in dir(it) if not member.startswith("_")}
            if inspect.isfunction(it):
                names |= {f"{name}({parameter})" for parameter in inspect.signature(it).parameters}
        other = "meets?|means?|has|takes|greatest|least|told|asked|text|room|place|kept"
        other += "|reading|stated|pass_over|which|name|build_|address|folder|front|ending"
        for name in names:
            self.assertIsNone(re.search(rf"(?i)(\b|_)({other})(\b|_)", name), name)

    def test_version(self) -> None:
        version = (TOP / "VERSION").read_text().strip()
        self.assertEqual(semver_parser.__version__, version)
        major, minor, _ = map(int, version.split("."))
        fitting = (major, minor) if major == 0 else (major,)
        self.assertEqual(_library.FITTING, fitting)

    def test_name_of_the_library(self) -> None:
        python = TOP / "python"
        package = python / "semver_parser" / "__init__.py"
        for file in (python / "README.md", package, TOP / ".gitignore"):
            named = re.findall(r"libsemver_parser\.so[.0-9]*[0-9]", file.read_text())
            self.assertEqual(set(named), {_library.NAME}, file)
