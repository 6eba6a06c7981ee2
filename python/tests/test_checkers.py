"""Tests of the modules of the checkers: the judge, findings, what tools share, and the small
functions of each tool."""

import json
import os
import re
import tempfile
import unittest
from typing import List, Optional
from unittest.mock import patch

from semver_parser import Dialect
from semver_parser.checks import judge, repository, tools
from semver_parser.checks.cargo.demands import is_reached
from semver_parser.checks.cargo.sources import GIT, Source, is_other_commit
from semver_parser.checks.cargo.validity import is_target, refuse_invalid
from semver_parser.checks.causes import REPAIRED, advise, untried
from semver_parser.checks.files import WrongShape, toml_object
from semver_parser.checks.findings import (
    CLASSES,
    NotChecked,
    Overridden,
    Unreached,
    Unsatisfied,
)
from semver_parser.checks.judge import Scheme, Verdict
from semver_parser.checks.locating import (
    DEPENDENCIES,
    json_offsets,
    lines_at,
    toml_offsets,
    yaml_offsets,
)
from semver_parser.checks.model import (
    NOT_REACHED,
    Locked,
    LockFile,
    Node,
    Package,
    Requirement,
    Requirer,
    Scope,
)
from semver_parser.checks.node.package_json import refuse_twice
from semver_parser.checks.node.patterns import alternatives
from semver_parser.checks.node.specifiers import NodeScheme, reason_of
from semver_parser.checks.node.workspaces import directories_of, is_workspace, patterns_of
from semver_parser.checks.npm.lock import folders, name_by_place
from semver_parser.checks.npm.overrides import have_in_common
from semver_parser.checks.output.pieces import filled, lines_of
from semver_parser.checks.paths import Paths
from semver_parser.checks.tool import Input
from semver_parser.checks.yarn.lock import tree_of

PROJECT = Requirer("the project", "", "", ("top",))


def required(specifier: str, version: Optional[str], **more: object) -> Requirement:
    """Returns a requirement of `part`, which is there in a version, or missing."""
    found = None if version is None else Package("part", version, "", ("part",))
    return Requirement(PROJECT, "part", specifier, found)._replace(**more)


def sentences(*requirements: Requirement, scheme: Optional[Scheme] = None) -> List[str]:
    """Returns the judge's sentences for requirements."""
    lock = LockFile([Node(None, requirements)])
    return [it.sentence() for it in judge.judge(lock, scheme or NodeScheme()).findings]


class Judge(unittest.TestCase):
    """The judge turns the model into findings."""

    def test_a_version_is_held_against_a_range(self) -> None:
        self.assertEqual(sentences(required("^1.0.0", "1.2.0")), [])
        wrong = ["part 2.0.0 does not satisfy ^1.0.0, required by the project"]
        self.assertEqual(sentences(required("^1.0.0", "2.0.0")), wrong)

    def test_the_scheme_is_a_parameter(self) -> None:
        cargo = Scheme()
        cargo.dialect = Dialect.CARGO
        self.assertEqual(sentences(required("1.0", "1.9.0"), scheme=cargo), [])
        self.assertEqual(len(sentences(required("1.0 || 2", "1.9.0"), scheme=cargo)), 1)
        self.assertEqual(len(sentences(required("1.0", "1.9.0"))), 1)

    def test_what_is_missing_may_have_an_excuse(self) -> None:
        lock = LockFile([Node(None, [required("1", None, excuse="peer"), required("2", None)])])
        found = judge.judge(lock, NodeScheme())
        self.assertEqual([it.excuse for it in found.findings], ["peer", ""])
        self.assertEqual(found.requirements, 2)
        self.assertEqual(sentences(required("1", None, must_exist=False)), [])

    def test_what_replaces_a_requirement_counts_if_that_is_wrong(self) -> None:
        self.assertEqual(sentences(required("^1.0.0", "2.0.0", replaced_by=("^2.0.0",))), [])
        self.assertEqual(sentences(required("^1.0.0", "1.0.0", replaced_by=("^2.0.0",))), [])
        wrong = "part 3.0.0 does not satisfy the override ^2.0.0, required by the project"
        self.assertEqual(sentences(required("^1.0.0", "3.0.0", replaced_by=("^2.0.0",))), [wrong])

    def test_a_manifest_is_held_against_the_lock_file(self) -> None:
        same = Locked("dependencies", "^1.0.0", "dependencies", ("^1.0.0",), "^1.0.0")
        self.assertEqual(sentences(required("^1.0.0", "1.0.0", locked=same)), [])
        other = same._replace(same=("^1.0.1",), stated="^1.0.1")
        wrong = "part is ^1.0.1 in package.json, and ^1.0.0 in the lock file"
        found = sentences(required("^1.0.1", "1.0.1", locked=other))
        self.assertEqual(found, [f"{wrong}, required by the project"])
        gone = same._replace(stated_kind=None, same=())
        wrong = "part 1.0.0 is listed as a dependency of the project, which does not require it"
        self.assertEqual(sentences(required("^1.0.0", "1.0.0", locked=gone)), [wrong])

    def test_what_only_counts_if_all_else_is_right(self) -> None:
        for version, excuses in (("1.0.0", [""]), ("3.0.0", ["", NOT_REACHED])):
            extra = Unreached(Package("other", "1.0.0"))
            lock = LockFile([Node(None, [required("^1.0.0", version)])], if_right=lambda: [extra])
            found = judge.judge(lock, NodeScheme()).findings
            self.assertEqual([it.excuse for it in found], excuses)
            self.assertIs(found[-1], extra)

    def test_what_is_not_reached_is_said(self) -> None:
        lock = LockFile([], unreached=[Package("other", "1.0.0")])
        [found] = judge.judge(lock, NodeScheme()).findings
        self.assertEqual(found.sentence(), "other 1.0.0 is there, but nothing requires it")
        self.assertEqual(found.excuse, NOT_REACHED)

    def test_the_scope_leaves_requirements_out(self) -> None:
        lock = LockFile([])
        kept = lock.scoped([required("1", None, kind="devDependencies")], Scope(True, False))
        self.assertEqual((kept, lock.left_out), ([], 1))

    def test_an_override_is_named(self) -> None:
        it = required("^1.0.0", "2.0.0", is_override=True)
        self.assertEqual(judge.best_of(it, NodeScheme()), ("^1.0.0", Verdict(Overridden)))
        git = required("github:user/part", "2.0.0")
        self.assertEqual(judge.best_of(git, NodeScheme())[1], Verdict(NotChecked, "git"))


class Findings(unittest.TestCase):
    """Each kind of finding has a word, a title and a sentence."""

    def test_each_kind_is_there_once(self) -> None:
        kinds = [it.kind for it in CLASSES]
        self.assertEqual(len(kinds), len(set(kinds)))
        self.assertTrue(all(it.title and it.text for it in CLASSES))

    def test_braces_in_a_name_are_plain(self) -> None:
        it = Requirement(Requirer("{who}"), "{part}", "{1}", Package("{part}", "{2}"))
        finding = Unsatisfied(it, it.found, "{1}")
        self.assertEqual(finding.sentence(), "{part} {2} does not satisfy {1}, required by {who}")

    def test_a_finding_leads_to_its_package_or_to_the_requirer(self) -> None:
        it = required("1", "2.0.0")
        self.assertEqual(Unsatisfied(it, it.found, "1").at, ("part",))
        self.assertEqual(Unsatisfied(it, None, "1").at, ("top",))


class Locating(unittest.TestCase):
    """Locating never rejects a file."""

    def test_json(self) -> None:
        text = b'{"a": {"x": 1},\n"b": {"x": 2}}'
        wanted = {("b", "x"), ("a",)}
        found = lines_at(text, json_offsets(text, wanted), wanted)
        self.assertEqual(found, {("b", "x"): 2, ("a",): 1})

    def test_what_is_broken_has_no_lines(self) -> None:
        for text in (b"", b"{", b'{"a"', b'{"a": \xff, "x": 1, "x": ', b'{"x": {"x":' * 5000):
            for offsets in (json_offsets, yaml_offsets):
                wanted = {("x", "x"), ("x",)}
                self.assertIsInstance(lines_at(text, offsets(text, wanted), wanted), dict)
        for tool in tools.TOOLS:
            for text in (b"\xff\n<<<<<<< a\n", b'a@1:\n  "\\', b'[[package]]\nname = "<<<<<<< "\n'):
                wanted = {("package", "a", "b")}
                self.assertIsInstance(lines_at(text, tool.offsets(text, wanted), wanted), dict)

    def test_toml(self) -> None:
        text = b'[package]\nname = "a"\n[dependencies]\na = "1"\n[target.x.dependencies.b]\n'
        wanted = {("a",), ("b",)}
        found = lines_at(text, toml_offsets(text, wanted, DEPENDENCIES), wanted)
        self.assertEqual(found, {("a",): 4, ("b",): 5})


class Pieces(unittest.TestCase):
    """JSON piece by piece has the bytes that `json.dumps` returns for the whole."""

    def test_lines(self) -> None:
        for value in ({}, [], "\u00e9\n", None, {"a": [], "b": {"c": [1, {"d": True}], "e": {}}}):
            whole = json.dumps(value, indent=2, ensure_ascii=False)
            self.assertEqual("\n".join(lines_of(value)), whole)
        self.assertEqual(lines_of("\u2028"), ['"\\u2028"'])

    def test_filled(self) -> None:
        for items in ([], [{"a": 1}], [{"a": 1, "b": []}, {"c": "["}]):
            for after in ({}, {"after": []}):
                value = {"before": [], "within": [{"items": [], **after}]}
                whole = {"before": [], "within": [{"items": items, **after}]}
                lines = filled(value, "items", map(lines_of, items))
                self.assertEqual("\n".join(lines), json.dumps(whole, indent=2))


TOP = os.path.dirname(os.path.dirname(os.path.dirname(os.path.abspath(__file__))))


def text_at(*path: str) -> str:
    """Returns the text of a file of the repository."""
    with open(os.path.join(TOP, *path), encoding="utf-8") as file:
        return file.read()


class Differences(unittest.TestCase):
    """The page of differences has each case on which a tool and the checker disagree, and no other."""

    def test_the_table(self) -> None:
        lines = text_at("python", "cases", "judged", "table").splitlines()
        cases = [it.split() for it in lines if it and not it.startswith("#")]
        right = {"accepts": ("0",), "rejects": ("1", "2"), "not-run": ("0", "1", "2")}
        wrong = [name for name, verdict, status in cases if status not in right[verdict]]
        rows = text_at("python", "semver_parser", "checks", "DIFFERENCES.md")
        self.assertEqual(sorted(wrong), sorted(re.findall(r"judged/([\w-]+)\)", rows)))
        there = os.listdir(os.path.join(TOP, "python", "cases", "judged"))
        self.assertEqual(sorted(name for name, _, _ in cases), sorted({*there} - {"table"}))


class Repairs(unittest.TestCase):
    """A command is named only for what it has repaired."""

    def test_the_record(self) -> None:
        lines = text_at("tools", "comparisons", "managers", "repaired").splitlines()
        table = [f"{tool} {it.__name__}" for tool, each in REPAIRED.items() for it in each]
        self.assertEqual(sorted(table), sorted(lines))

    def test_what_was_not_tried(self) -> None:
        for tool, is_named in ((tools.NPM, True), (tools.PNPM, False), (tools.METADATA, True)):
            finding = Unsatisfied(required("1", "2.0.0"), None, "1")
            advise(finding, tool)
            self.assertEqual(finding.advice, "" if is_named else untried(tool))


class Commits(unittest.TestCase):
    """A `rev` that is a commit has to be the one in the lock file."""

    def test_commits(self) -> None:
        locked = "git+https://example.org/b?rev=x#1870181ee2313a7e5883693afa878d21a582e854"
        for reference, is_other in (
            ("rev=1870181e", False),
            ("rev=1870181e" + "0" * 32, True),
            ("rev=d4c24e9", True),
            ("rev=20260101", False),
            ("rev=main", False),
            ("tag=d4c24e9", False),
        ):
            source = Source(GIT, "https://example.org/b", reference)
            self.assertEqual(is_other_commit(source, locked), is_other, reference)
        self.assertFalse(is_other_commit(source, "git+https://example.org/b"))


class Shared(unittest.TestCase):
    """The modules that several tools use."""

    def test_specifiers(self) -> None:
        for text, reason in (("latest", "tag"), ("user/part", "git"), ("file:../a", "path")):
            self.assertEqual(reason_of(text), reason)

    def test_workspaces(self) -> None:
        with tempfile.TemporaryDirectory() as top:
            for name in ("a", "b", "node_modules"):
                os.makedirs(os.path.join(top, "packages", name))
            found = directories_of(["packages/*", "!packages/b"], top)
        self.assertEqual(found, ["packages/a"])
        patterns = patterns_of(["packages/*", "!packages/b"])
        self.assertTrue(is_workspace(patterns, "packages/a"))
        self.assertFalse(is_workspace(patterns, "packages/b"))
        self.assertRaises(WrongShape, refuse_twice, [("a", "one"), ("a", "two")])

    def test_sequences(self) -> None:
        """What brace-expansion 2.0.1 of npm 10.8.2 returns."""
        for pattern, expected in (
            ("p{1..3}/*", ["p1/*", "p2/*", "p3/*"]),
            ("{01..10..3}", ["01", "04", "07", "10"]),
            ("{-02..1}", ["-02", "-01", "000", "001"]),
            ("{3..1}", ["3", "2", "1"]),
            ("{a..e..2}", ["a", "c", "e"]),
            ("{1..a}", ["{1..a}"]),
        ):
            self.assertEqual(alternatives(pattern), expected)
        for pattern in ("{1..1001}", "{1..2..0}", "{1..99999999999999999999}"):
            self.assertRaises(WrongShape, alternatives, pattern)

    def test_paths(self) -> None:
        paths = Paths({"the project": ["a 1.0.0"], "a 1.0.0": ["b 1.0.0"]})
        it = Requirement(Requirer("b", "1.0.0"), "c", "1", None)
        found = paths.path_to(Unsatisfied(it, None, "1"))
        self.assertEqual(found, ["the project", "a 1.0.0", "b 1.0.0", "c"])

    def test_paths_of_the_repository(self) -> None:
        with tempfile.TemporaryDirectory() as top, patch.dict(os.environ, GITHUB_WORKSPACE=top):
            forget_paths()
            path = os.path.join(top, "package.json")
            open(path, "w").close()
            self.assertEqual(repository.in_repository(path), "package.json")
            self.assertEqual(repository.in_repository("/"), "/")
        forget_paths()


def forget_paths() -> None:
    """Makes the root of the repository be looked for again."""
    repository.roots.cache_clear()
    repository.in_repository.cache_clear()


class Tools(unittest.TestCase):
    """Each tool recognizes its own files, and has what the list of tools needs."""

    def test_each_file_has_one_tool(self) -> None:
        texts = {
            b'{"lockfileVersion": 3}': "npm",
            b'{"resolve": null}': "cargo metadata",
            b'{"lockfileVersion": 1, "workspaces": {': "Bun",
            b'{"version": "5", "npm": {}}': "Deno",
            b"# yarn lockfile v1\n": "yarn",
            b"lockfileVersion: '9.0'\n": "pnpm",
            b"version = 4\n": "Cargo",
        }
        for text, name in texts.items():
            self.assertEqual(tools.tool_for(Input("lock", text, None, Scope())).name, name)

    def test_npm(self) -> None:
        around = list(folders("a/node_modules/b"))
        self.assertEqual(around, ["a/node_modules/b", "a", ""])
        self.assertEqual(name_by_place("node_modules/a/node_modules/@of/b"), "@of/b")

    def test_overrides_of_npm(self) -> None:
        pairs = {
            ("1.2.0-rc.1", "1.x"): False,
            ("=1.2.0-rc.1", "^1.2.0-alpha"): False,
            ("1.2.0-rc.1", ">=1.2.0-alpha"): True,
            (">=1.2.0-rc.1", "1.x"): True,
            ("1.2.0", "1.x"): True,
            ("^2", "2.0.0-alpha.1"): False,
        }
        self.assertEqual({it: have_in_common(*it) for it in pairs}, pairs)

    def test_yarn(self) -> None:
        self.assertEqual(tree_of(b'a@1:\n  version "1.0.0"\n'), {"a@1": {"version": "1.0.0"}})

    def test_cargo(self) -> None:
        self.assertTrue(is_reached("a", {"a": ["b"], "b": ["a"]}))
        self.assertFalse(is_reached("a", {"a": ["b"], "b": ["b"]}))
        for line in ('edition = "2099"', 'name = "1a"', 'version = "1"', 'links = "z"'):
            package = toml_object(line.encode())
            self.assertRaises(WrongShape, refuse_invalid, {}, package, {}, "/nowhere")
        refuse_invalid({}, {"name": "a", "edition": "2024"}, {}, "/nowhere")

    def test_targets_of_cargo(self) -> None:
        for text in (
            "", "x86_64-unknown-linux-gnu", "cfg(unix)", "cfg( all() )", "cfg(any(a, not(b),))",
            'cfg(all(a = "all(b)", r#all, not_a = ")"))', "cfg(all (not(not(a))))",
        ):  # fmt: skip
            self.assertTrue(is_target(text), text)
        for text in (
            "cfg(", "cfg(foo", "cfg()", "cfg(not())", "cfg(not(a, b))", "cfg(all(a b))", "cfg(,)",
            "cfg(all)", 'cfg("a")', "cfg(a = b)", 'cfg(all() = "b")', "cfg(all()a)", "foo(a)",
            'cfg(a = "b)', "cfg(r#)", "cfg(9a)", "cfg(a-b)", "cfg(a))", "cfg (a)", "a b",
        ):  # fmt: skip
            self.assertFalse(is_target(text), text)
