"""Tests that the library returns what the tables of the manual, rust/docs/RANGES.md, say."""

import re
import unittest
from pathlib import Path
from typing import List

from semver_parser import Dialect, PreReleases, Range, RangeError, Version, VersionError

MANUAL = Path(__file__).resolve().parents[2] / "rust" / "docs" / "RANGES.md"
DIALECTS = (Dialect.CARGO, Dialect.NPM, Dialect.CRATE_CARGO, Dialect.CRATE_NPM)
RULES = (PreReleases.BY_DIALECT, PreReleases.INCLUDED)


def table(head: str) -> List[List[str]]:
    """Returns the rows of the table in the manual that begins with the cells `head`."""
    found = re.search(rf"^\| {re.escape(head)} \|.*\n.*\n((?:\|.*\n)*)", MANUAL.read_text(), re.M)
    assert found, head
    rows = [re.split(r" (?<!\\)\| ", line[2:-2]) for line in found[1].splitlines()]
    return [[re.sub(r"\\(.)|`", r"\1", cell) for cell in row] for row in rows]


def releases(string: str, dialect: Dialect) -> str:
    """Returns the releases in a range, in the words of the manual."""
    try:
        printed = Range(string, dialect=dialect).printed_releases
    except RangeError:
        return "invalid"
    return "every release" if printed == "*" else printed


def expected(cells: List[str], string: str) -> List[str]:
    """Returns what a row says about a range, for each dialect."""
    cargo, npm, crate = cells
    spelled = {
        "one or the other": ">=1.0.0 <2.0.0 || >=3.0.0 <4.0.0",
        "as without the v": releases(string.replace("v", ""), Dialect.NPM),
    }
    npm = spelled.get(npm, npm)
    if crate == "by its mode":
        return [cargo, npm, cargo, npm]
    crate = npm if crate == "same" else crate
    return [cargo, npm, crate, crate]


def is_read(string: str, dialect: Dialect) -> str:
    """Returns whether a string is a version in a dialect, in the words of the manual."""
    try:
        Version.parse(string, dialect=dialect)
    except VersionError:
        return "invalid"
    return "valid"


class Manual(unittest.TestCase):
    def test_ranges(self) -> None:
        rows = table("range")
        self.assertGreater(len(rows), 20)
        for first, *cells in rows:
            strings = [first] if first.startswith(">=1.2.3") else first.split(", ")
            for string in ("" if it == "(empty)" else it for it in strings):
                found = [releases(string, dialect) for dialect in DIALECTS]
                self.assertEqual(found, expected(cells, string), string)

    def test_pre_releases(self) -> None:
        rows = table("range | version")
        self.assertGreater(len(rows), 4)
        for string, version, *wanted in rows:
            for dialect in DIALECTS:
                found = [
                    "yes" if version in Range(string, dialect=dialect, pre_releases=rule) else "no"
                    for rule in RULES
                ]
                self.assertEqual(found, wanted, (string, version, dialect))

    def test_versions(self) -> None:
        rows = [row for row in table("version") if set(row[1:]) <= {"valid", "invalid"}]
        self.assertEqual(len(rows), 4)
        for first, *wanted in rows:
            for string in first.split(", "):
                found = [is_read(string, dialect) for dialect in DIALECTS[:3]]
                self.assertEqual(found, wanted, string)
