"""Tests of where the shared library is looked for, and of the error if it is missing or doesn't
fit.

Each test imports a copy of the package in its own process. It tests the library that
SEMVER_PARSER_LIBRARY names.
"""

import os
import shutil
import subprocess
import sys
import tempfile
import unittest
from pathlib import Path

import semver_parser

PACKAGE = Path(__file__).resolve().parents[1] / "semver_parser"
VARIABLE = "SEMVER_PARSER_LIBRARY"
NAMES = {"win32": "semver_parser.dll", "darwin": "libsemver_parser.dylib"}
NAME = NAMES.get(sys.platform, "libsemver_parser.so.1")


@unittest.skipUnless(os.environ.get(VARIABLE), f"{VARIABLE} names no library")
class Loading(unittest.TestCase):
    def setUp(self) -> None:
        folder = tempfile.TemporaryDirectory()
        self.addCleanup(folder.cleanup)
        self.folder = Path(folder.name)
        self.package = self.folder / "semver_parser"
        self.library = os.environ[VARIABLE]
        ignored = shutil.ignore_patterns("*.so*", "__pycache__")
        shutil.copytree(PACKAGE, self.package, ignore=ignored)

    def run_python(self, code: str, **variables: str) -> "subprocess.CompletedProcess[str]":
        kept = {name: value for name, value in os.environ.items() if name != VARIABLE}
        return subprocess.run(
            [sys.executable, "-c", code],
            cwd=self.folder,
            env={**kept, "LD_LIBRARY_PATH": "", "PYTHONPATH": "", **variables},
            capture_output=True,
            text=True,
        )

    def imports(self, **variables: str) -> None:
        code = "import semver_parser as it; print(it.satisfies('1.2.3', '^1', dialect='npm'))"
        ended = self.run_python(code, **variables)
        self.assertEqual((ended.stdout, ended.stderr, ended.returncode), ("True\n", "", 0))

    def refused(self, **variables: str) -> str:
        code = "try: from semver_parser import Range\nexcept ImportError as error: print(error)"
        ended = self.run_python(code, **variables)
        self.assertEqual((ended.stderr, ended.returncode), ("", 0))
        return ended.stdout

    def make_library(self, name: str, source: str) -> str:
        compiler = os.environ.get("CC", "cc").split()
        path = str(self.folder / name)
        subprocess.run(
            [*compiler, "-shared", "-fPIC", "-o", path, "-x", "c", "-"],
            input=source,
            text=True,
            check=True,
        )
        return path

    def test_names(self) -> None:
        """`dir` shows the public names once, before and after the library is loaded."""
        names = "before = dir(it); it.Range; print(before == dir(it), *dir(it))"
        ended = self.run_python(f"import semver_parser as it; {names}", **{VARIABLE: self.library})
        shown = ["True", *sorted(["__version__", *semver_parser.__all__])]
        self.assertEqual((ended.stdout.split(), ended.stderr), (shown, ""))

    def test_variable(self) -> None:
        self.imports(SEMVER_PARSER_LIBRARY=self.library)
        shutil.copy(self.library, self.folder / "another name")
        self.imports(SEMVER_PARSER_LIBRARY="another name")

    def test_beside_the_package(self) -> None:
        (self.package / NAME).symlink_to(self.library)
        self.imports()
        self.imports(SEMVER_PARSER_LIBRARY="")

    def test_where_the_system_looks(self) -> None:
        (self.folder / "libraries").mkdir()
        shutil.copy(self.library, self.folder / "libraries" / NAME)
        self.imports(LD_LIBRARY_PATH=str(self.folder / "libraries"))

    def test_what_cannot_be_loaded_is_skipped(self) -> None:
        (self.package / NAME).write_text("no library")
        (self.folder / "libraries").mkdir()
        shutil.copy(self.library, self.folder / "libraries" / NAME)
        self.imports(LD_LIBRARY_PATH=str(self.folder / "libraries"))

    def test_nowhere(self) -> None:
        said = self.refused()
        if not said:
            self.skipTest("the system has a library of that name")
        self.assertIn("found none that can be loaded", said)
        self.assertIn(f"{self.package / NAME}, beside the package", said)
        self.assertIn(f"{NAME}, where the system looks for libraries", said)
        self.assertIn(VARIABLE, said)

    def test_variable_alone_decides(self) -> None:
        (self.package / NAME).symlink_to(self.library)
        said = self.refused(SEMVER_PARSER_LIBRARY="/nowhere/lib.so")
        self.assertIn(f"/nowhere/lib.so, which {VARIABLE} names", said)
        self.assertNotIn("beside", said)

    def test_another_version(self) -> None:
        source = 'const char *semver_parser_library_version(void) { return "%s"; }'
        for version in ("0.1.0", "0.7.0", "2.0.0", "10.0.0", "0.1.1", ""):
            path = self.make_library(f"lib{version}.so", source % version)
            said = self.refused(SEMVER_PARSER_LIBRARY=path)
            self.assertEqual(
                said, f"{path} has version {version}, and semver_parser needs version 1 of it\n"
            )
        path = self.make_library("lacking.so", source % "1.7.7")
        said = self.refused(SEMVER_PARSER_LIBRARY=path)
        self.assertEqual(said, f"{path} lacks the function semver_parser_satisfies\n")

    def test_another_library(self) -> None:
        path = self.make_library("other.so", "int other;")
        said = self.refused(SEMVER_PARSER_LIBRARY=path)
        self.assertTrue(said.startswith(f"{path} doesn't report its version"), said)

    def test_names_by_platform(self) -> None:
        """The file name that cargo gives the library on each platform, and on Linux the soname."""
        names = {
            "linux": "libsemver_parser.so.1",
            "freebsd14": "libsemver_parser.so.1",
            "darwin": "libsemver_parser.dylib",
            "win32": "semver_parser.dll",
        }
        for platform, name in names.items():
            code = f"import ctypes, sys; sys.platform = {platform!r}\n"
            code += "from semver_parser import _library; print(_library.NAME)"
            ended = self.run_python(code, SEMVER_PARSER_LIBRARY=self.library)
            self.assertEqual((ended.stdout, ended.stderr), (f"{name}\n", ""))

    def numbers(self, *names: str) -> str:
        """Returns the numbers of the dialects with a library that has these names for them."""
        code = (
            "import semver_parser._library as library\n"
            f"names = [*(it.encode() for it in {names!r}), None]\n"
            "library.LIBRARY.semver_parser_dialect_name = names.__getitem__\n"
            "try: from semver_parser import Dialect\n"
            "except ImportError as error: print(error)\n"
            "else: print([Dialect(it.decode())._number for it in names[:-2]])\n"
        )
        ended = self.run_python(code, SEMVER_PARSER_LIBRARY=self.library)
        self.assertEqual(ended.stderr, "")
        return ended.stdout

    def test_numbers_by_name(self) -> None:
        """For a library with more dialects, in any order, and for one that lacks a dialect."""
        numbers = self.numbers("npm", "crate-npm", "cargo", "crate-cargo", "another")
        self.assertEqual(numbers, "[0, 1, 2, 3]\n")
        said = "the library of semver_parser has no Dialect 'crate-npm'\n"
        self.assertEqual(self.numbers("cargo", "npm", "crate-cargo", "another"), said)

    def test_without_a_library(self) -> None:
        """The package itself can be imported, so that the programs can print their help. Using its
        names raises an error each time."""
        code = (
            "import semver_parser as it\n"
            "print(it.__version__, 'Range' in dir(it), hasattr(it, 'other'))\n"
            "for _ in range(2):\n"
            "    try: it.Range\n"
            "    except ImportError as error: print(str(error).split(',')[0])\n"
        )
        ended = self.run_python(code, SEMVER_PARSER_LIBRARY="/nowhere/lib.so")
        said = 2 * "semver_parser needs its shared library\n"
        version = (PACKAGE.parents[1] / "VERSION").read_text().strip()
        self.assertEqual((ended.stdout, ended.stderr), (f"{version} True False\n{said}", ""))
