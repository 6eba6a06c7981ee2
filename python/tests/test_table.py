"""Tests with the rows of the table: versions, ranges in each dialect, printing, exact bounds, which
versions satisfy a range, and sets."""

import re
import unittest
from collections import Counter
from typing import Counter as Counts
from typing import List, Tuple

from semver_parser import (
    Dialect,
    PreReleases,
    Range,
    RangeError,
    UpgradeError,
    Version,
    VersionError,
    precedence,
    satisfies,
    upgrade,
)
from tests.table import answer, checksum, fields_of_version, is_too_large, rows, rows_of_tools

_SUM = "sum-of-"
_VERSION = "version"
_REFUSED = "refused"
_NO_RANGE = "refused-range"
_UPGRADED = "upgraded"
_REQUIREMENT = "requirement"
_DIALECTS_OF_TOOLS = {"cargo": Dialect.CARGO, "npm": Dialect.NPM}
_DIALECTS_OF_CRATE = {"crate-cargo": Dialect.CRATE_CARGO, "crate-npm": Dialect.CRATE_NPM}
_DIALECTS_OF_REFUSED = {**_DIALECTS_OF_TOOLS, "crate": Dialect.CRATE_CARGO}
_DIALECTS_OF_RANGES = {**_DIALECTS_OF_REFUSED, **_DIALECTS_OF_CRATE}
# Which pre-releases a row includes.
_RULES_OF_MEANT = {"meant": PreReleases.BY_DIALECT, "meant-with-all": PreReleases.INCLUDED}
# The names of the errors of ranges in the table.
_NAMES = {False: "not-a-range", True: "number-too-large"}


def fits_npm(version: str) -> bool:
    """Returns whether the numbers of a version fit npm's limit."""
    return all(int(it) < 2**53 for it in re.split("[-+]", version)[0].split("."))


class Table(unittest.TestCase):
    def test_rows(self) -> None:
        counts: Counts[str] = Counter()
        for row in rows():
            is_sum = row.call.startswith(_SUM)
            call = row.call[len(_SUM) :] if is_sum else row.call
            answered = answer(call, row.text, row.steps)
            if answered is None or (is_sum and answered == "no version"):
                counts["not checked"] += 1
                continue
            shown = checksum(answered) if is_sum else answered
            self.assertEqual(shown, row.wanted, (row.call, row.text[:200]))
            counts[call] += 1
        self.assertGreater(sum(counts.values()) - counts["not checked"], 5500, counts)
        self.assertGreater(min(counts[call] for call in ("version", "cargo", "npm")), 50)
        self.assertGreater(min(counts[call] for call in ("cargo-exact", "npm-exact")), 90)
        self.assertGreater(min(counts[call] for call in ("mean-cargo", "mean-npm")), 90)
        for rule in ("releases", "stated", "mean"):
            for what, count in (("set", 80), ("pair", 150), ("whole", 100), ("whole-pair", 50)):
                self.assertGreater(counts[f"{what}-{rule}-npm"], count)


class Tools(unittest.TestCase):
    """The rows that were made with Cargo's `semver` and with node-semver, in their dialects."""

    def test_rows(self) -> None:
        counts: Counts[Tuple[str, str]] = Counter()
        for function, tool, row in rows_of_tools():
            function = function.removeprefix(_SUM)
            with self.subTest(call=row.call, text=row.text[:200], steps=row.steps):
                dialect = _DIALECTS_OF_RANGES[tool]
                if function == _NO_RANGE:
                    self.check_no_range(row.text, dialect, row.wanted)
                elif function == _REFUSED:
                    self.check_refusal(row.text, dialect, row.wanted)
                elif function == _VERSION:
                    self.check_version(row.call, row.text, dialect, row.wanted)
                elif function in _RULES_OF_MEANT:
                    rule = _RULES_OF_MEANT[function]
                    self.check_meaning(row.text, dialect, rule, row.steps.split(" "), row.wanted)
                elif function == _UPGRADED:
                    self.check_upgrade(row.text, dialect, row.steps, row.wanted)
                elif function == _REQUIREMENT:
                    self.check_requirement(row.text, dialect, row.steps, row.wanted)
                else:
                    self.check_rewriting(row.text, dialect, row.wanted)
            counts[tool, function] += 1
        for tool in _DIALECTS_OF_TOOLS:
            self.assertGreater(counts[tool, "rewritten"], 80)
            self.assertGreaterEqual(counts[tool, "meant"], 50)
            self.assertGreater(counts[tool, "meant-with-all"], 50)
            self.assertGreater(counts[tool, _VERSION], 50)
        for tool in _DIALECTS_OF_REFUSED:
            self.assertGreaterEqual(counts[tool, _REFUSED], 15)
        for tool in (*_DIALECTS_OF_TOOLS, *_DIALECTS_OF_CRATE):
            self.assertGreaterEqual(counts[tool, _NO_RANGE], 69)
        self.assertGreaterEqual(counts["cargo", _UPGRADED], 4)
        self.assertGreaterEqual(counts["npm", _UPGRADED], 14)
        self.assertGreaterEqual(counts["cargo", _REQUIREMENT], 12)
        self.assertGreaterEqual(counts["npm", _REQUIREMENT], 15)

    def check_refusal(self, text: str, dialect: Dialect, wanted: str) -> None:
        """Checks where and why a version is invalid; the table has the offset in bytes."""
        try:
            Version.parse(text, dialect=dialect)
            answered = "a version"
        except VersionError as error:
            answered = f"{len(text[: error.offset].encode())}: {error.reason}"
        self.assertEqual(answered, wanted)

    def check_no_range(self, text: str, dialect: Dialect, wanted: str) -> None:
        """Checks where and why a string is an invalid range."""
        try:
            Range(text, dialect=dialect)
            answered = "a range"
        except RangeError as error:
            offset = len(text[: error.offset].encode())
            name = _NAMES[is_too_large(error)].replace("-", " ")
            answered = f"{offset}: {name}, {error.reason}"
        self.assertEqual(answered, wanted)

    def check_upgrade(self, text: str, dialect: Dialect, version: str, wanted: str) -> None:
        """Checks a range that is raised to a version, in quotes, or why it isn't."""
        try:
            raised = upgrade(text, version, dialect=dialect)
            answered = "nothing to do" if raised is None else f'"{raised}"'
        except VersionError:
            answered = "invalid version"
        except RangeError as error:
            name = _NAMES[is_too_large(error)].replace("-", " ")
            answered = f"invalid range: {name}"
        except UpgradeError as error:
            answered = str(error).partition(": ")[0]
        self.assertEqual(answered, wanted)

    def check_requirement(self, text: str, dialect: Dialect, rule: str, wanted: str) -> None:
        """Checks the requirement of a range, in quotes, `none`, or the error of the range."""
        try:
            requirement = Range(text, dialect=dialect, pre_releases=rule).to_requirement()
            answered = "none" if requirement is None else f'"{requirement}"'
        except RangeError as error:
            answered = _NAMES[is_too_large(error)].replace("-", " ")
        self.assertEqual(answered, wanted)

    def check_version(self, call: str, text: str, dialect: Dialect, wanted: str) -> None:
        """Checks the fields of a version, or `none`; a long result by its checksum."""
        try:
            answered = fields_of_version(Version.parse(text, dialect=dialect))
        except VersionError:
            answered = "none"
        self.assertEqual(checksum(answered) if call.startswith(_SUM) else answered, wanted)

    def check_rewriting(self, text: str, dialect: Dialect, wanted: str) -> None:
        """Checks the comparators of a range, with exact bounds."""
        try:
            self.assertEqual(str(Range(text, dialect=dialect).comparators), wanted)
        except RangeError as error:
            self.assertEqual(_NAMES[is_too_large(error)], wanted)

    def check_meaning(
        self, text: str, dialect: Dialect, rule: PreReleases, versions: List[str], wanted: str
    ) -> None:
        """Checks which versions satisfy a range by a rule, and the releases among them. Versions
        whose numbers are too large for npm are left out."""
        try:
            chosen = Range(text, dialect=dialect, pre_releases=rule)
            releases = Range(text, dialect=dialect, pre_releases="excluded")
        except RangeError as error:
            self.assertEqual(_NAMES[is_too_large(error)], wanted)
            return
        means, *meant = wanted.split(" ")
        self.assertEqual(means, "means")
        if dialect is Dialect.NPM:
            versions, meant = ([it for it in them if fits_npm(it)] for them in (versions, meant))
        self.assertEqual(chosen.filter(versions), meant)
        if rule is PreReleases.BY_DIALECT:
            self.assertEqual(Range(text, dialect=dialect).filter(versions), meant)
        without = [it for it in meant if not Version.parse(it, dialect=dialect).pre]
        self.assertEqual(releases.filter(versions), without)
        for version in versions:
            is_meant = version in meant
            self.assertIs(version in chosen, is_meant)
            self.assertIs(satisfies(version, text, dialect=dialect, pre_releases=rule), is_meant)
        highest = chosen.highest(versions)
        self.assertIn(highest, meant or [None])
        if highest is not None:
            keys = [precedence(it, dialect=dialect) for it in meant]
            self.assertEqual(precedence(highest, dialect=dialect), max(keys))
