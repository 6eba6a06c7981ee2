"""Tests of the lowest version of a range, and of how two ranges compare, in each dialect and by
each rule."""

import pickle
import unittest
from typing import Optional, Tuple

from semver_parser import (
    Dialect,
    PreReleases,
    Range,
    RangeError,
    Version,
    compare_ranges,
)

OF_CRATE = (PreReleases.EXCLUDED, PreReleases.BY_DIALECT, PreReleases.INCLUDED)
CRATE = (Dialect.CRATE_CARGO, Dialect.CRATE_NPM)

# A range in the crate's npm mode, and its lowest version by each rule: without pre-releases, by
# default, and with all of them.
LOWEST = [
    ("^1.2.3", ("1.2.3", "1.2.3", "1.2.3")),
    ("", ("0.0.0", "0.0.0", "0.0.0")),
    ("3.x || ^1.2 || >=2", ("1.2.0", "1.2.0", "1.2.0")),
    ("<2.0.0", ("0.0.0", "0.0.0", "0.0.0-0")),
    (">1.0.0-rc.1", ("1.0.0", "1.0.0-rc.1.0", "1.0.0-rc.1.0")),
    (">1.2.3", ("1.2.4", "1.2.4", "1.2.4-0")),
    ("=1.9.9-a || >=2.0.0", ("2.0.0", "1.9.9-a", "1.9.9-a")),
    ("=1.2.3-01", (None, "1.2.3-1", "1.2.3-1")),
    ("=1.2.3-18446744073709551616+b", (None, *2 * ("1.2.3-18446744073709551616",))),
    ("<0.0.0", (None, None, "0.0.0-0")),
    (">2.0.0 <1.0.0", (None, None, None)),
    (">=1.2.3-" + 1000 * "a" + " <1.2.3", (None, *2 * ("1.2.3-" + 1000 * "a",))),
    ("=1.2.3--a.-", (None, "1.2.3--a.-", "1.2.3--a.-")),
    (">1.2.3-a--b <1.2.3", (None, *2 * ("1.2.3-a--b.0",))),
]


MOST = str(2**64 - 1)
LAST = ".".join([MOST] * 3)

# A range, and its lowest version without pre-releases and by default. They follow from what
# rust/docs/MEANING.md says about each dialect.
LOWEST_BY_DIALECT = [
    (Dialect.CARGO, "1.2", ("1.2.0", "1.2.0")),
    (Dialect.CARGO, ">1.2", ("1.3.0", "1.3.0")),
    (Dialect.CARGO, "^1.2.3-beta", ("1.2.3", "1.2.3-beta")),
    (Dialect.CARGO, "^1.2, >=1.2.0-a", ("1.2.0", "1.2.0-a")),
    (Dialect.CARGO, "=1.2, >=1.2.0-a", ("1.2.0", "1.2.0")),
    (Dialect.CARGO, ">=1, >=2.0.0-a", ("2.0.0", "2.0.0-a")),
    (Dialect.NPM, ">1.2", ("1.3.0", "1.3.0")),
    (Dialect.NPM, "v1.2.3", ("1.2.3", "1.2.3")),
    (Dialect.NPM, "=1.2 >=1.2.3-a", ("1.2.3", "1.2.3-a")),
    (Dialect.NPM, "<1.0 >=1.0.0-a", (None, None)),
    (Dialect.NPM, ">=0 >=0.0.0-a", ("0.0.0", "0.0.0-a")),
    (Dialect.NPM, "* || =1.0.0-a", ("0.0.0", "0.0.0")),
    (Dialect.CARGO, "^6.2.0--canary.1", ("6.2.0", "6.2.0--canary.1")),
    (Dialect.NPM, "^6.2.0--canary.1", ("6.2.0", "6.2.0--canary.1")),
    (Dialect.CRATE_CARGO, ">1.2", ("1.2.1", "1.2.1")),
    (Dialect.CRATE_NPM, ">1.2", ("1.2.1", "1.2.1")),
    (Dialect.CRATE_NPM, "<1.0 >=1.0.0-a", (None, "1.0.0-a")),
]

Three = Tuple[Optional[str], Optional[str], Optional[str]]

# Two ranges, and the lowest versions of what is lost, gained and shared, by the same two rules.
COMPARED_BY_DIALECT = [
    (Dialect.CARGO, "1.2", "^1.2", 2 * ((None, None, "1.2.0"),)),
    (Dialect.NPM, "1.2", "^1.2", 2 * ((None, "1.3.0", "1.2.0"),)),
    (Dialect.CRATE_CARGO, "1.2", "^1.2", 2 * ((None, "1.3.0", "1.2.0"),)),
    (Dialect.CRATE_NPM, "1.2", "^1.2", 2 * ((None, "1.3.0", "1.2.0"),)),
    (Dialect.CARGO, ">1.2", ">=1.3.0", 2 * ((None, None, "1.3.0"),)),
    (Dialect.NPM, ">1.2", ">=1.3.0", 2 * ((None, None, "1.3.0"),)),
    (Dialect.CRATE_CARGO, ">1.2", ">=1.3.0", 2 * (("1.2.1", None, "1.3.0"),)),
    (Dialect.CRATE_NPM, ">1.2", ">=1.3.0", 2 * (("1.2.1", None, "1.3.0"),)),
    (Dialect.NPM, "* || =1.0.0-a", "*", 2 * ((None, None, "0.0.0"),)),
    (
        Dialect.CRATE_NPM,
        "* || =1.0.0-a",
        "*",
        ((None, None, "0.0.0"), ("1.0.0-a", None, "0.0.0")),
    ),
    (Dialect.NPM, "<1.0 >=1.0.0-a", "<*", 2 * ((None, None, None),)),
    (
        Dialect.CARGO,
        "^1.2, >=1.2.0-a",
        "=1.2, >=1.2.0-a",
        (("1.3.0", None, "1.2.0"), ("1.2.0-a", None, "1.2.0")),
    ),
    (Dialect.CARGO, "*", ">=0.0.0-a", ((None, None, "0.0.0"), (None, "0.0.0-a", "0.0.0"))),
]

# Two ranges, and the same by any rule and in either mode of the crate.
ALIKE = [
    ("^1.2.3", "^1.2.3", (None, None, "1.2.3")),
    ("3.x || ^1.2", "^1.2 || 3.x", (None, None, "1.2.0")),
    ("", "*", (None, None, "0.0.0")),
    ("=1.2.3+a", "=1.2.3+b", (None, None, "1.2.3")),
    (">2 <1", ">3 <2", (None, None, None)),
    ("^1", ">2 <1", ("1.0.0", None, None)),
    ("^1", "^2", ("1.0.0", "2.0.0", None)),
    ("=1.2.3", "=1.2.4", ("1.2.3", "1.2.4", None)),
    (f">={LAST}", f">{LAST}", (LAST, None, None)),
]

# The same by each rule: without pre-releases, by default, and with all of them.
BY_RULE = [
    ("^1.2.0", ">=1.4.0", (*2 * (("1.2.0", "2.0.0", "1.4.0"),), ("1.2.0", "2.0.0-0", "1.4.0"))),
    ("~1.2.0", "^1.2.0", (*2 * ((None, "1.3.0", "1.2.0"),), (None, "1.3.0-0", "1.2.0"))),
    ("<2.0.0", "<2.0.0-0", (*2 * ((None, None, "0.0.0"),), ("2.0.0-0", None, "0.0.0-0"))),
    (
        ">1.0.0-rc.1",
        ">=1.0.0-rc.1",
        ((None, None, "1.0.0"), *2 * ((None, "1.0.0-rc.1", "1.0.0-rc.1.0"),)),
    ),
    ("^1.2.3", "^1.2.3-beta", ((None, None, "1.2.3"), *2 * ((None, "1.2.3-beta", "1.2.3"),))),
    (
        "=2.0.1-a || >=2.0.0",
        ">=2.0.0",
        ((None, None, "2.0.0"), ("2.0.1-a", None, "2.0.0"), (None, None, "2.0.0")),
    ),
    ("=1.2.3-a", "=1.2.3-b", ((None, None, None), *2 * (("1.2.3-a", "1.2.3-b", None),))),
    ("=1.2.3--a", "=1.2.3-a-", ((None, None, None), *2 * (("1.2.3--a", "1.2.3-a-", None),))),
    (
        ">=1.0.0-2 <1.0.0",
        ">=1.0.0-10 <1.0.0",
        ((None, None, None), *2 * (("1.0.0-2", None, "1.0.0-10"),)),
    ),
    ("=1.2.3-01", "=1.2.3-1", ((None, None, None), *2 * ((None, None, "1.2.3-1"),))),
]


class Comparing(unittest.TestCase):
    def compares(
        self, old: str, new: str, dialect: Dialect, rule: PreReleases, wanted: Three
    ) -> None:
        """What is lost in one direction is gained in the other."""
        lost, gained, shared = wanted
        for one, other, parts in ((old, new, wanted), (new, old, (gained, lost, shared))):
            with self.subTest(old=one, new=other, dialect=dialect, rule=rule):
                compared = compare_ranges(one, other, dialect=dialect, pre_releases=rule)
                ranges = (compared.lost, compared.gained, compared.shared)
                lowest = [it.lowest_version for it in ranges]
                self.assertEqual(tuple(it and str(it) for it in lowest), parts)
                self.assertIs(compared.overlaps, shared is not None)
                self.assertIs(compared.is_subset, parts[0] is None)
                self.assertIs(compared.is_equal, lost is None and gained is None)

    def test_rules(self) -> None:
        for dialect in CRATE:
            for old, new, wanted in ALIKE:
                for rule in OF_CRATE:
                    self.compares(old, new, dialect, rule, wanted)
            for old, new, by_rule in BY_RULE:
                for rule, wanted in zip(OF_CRATE, by_rule):
                    self.compares(old, new, dialect, rule, wanted)

    def test_dialects(self) -> None:
        for dialect, old, new, (alone, default) in COMPARED_BY_DIALECT:
            self.compares(old, new, dialect, PreReleases.EXCLUDED, alone)
            self.compares(old, new, dialect, PreReleases.BY_DIALECT, default)

    def test_defaults(self) -> None:
        cargo = compare_ranges("1.2.3", b"^1.2.3", dialect="cargo")
        self.assertEqual((bool(cargo.lost), bool(cargo.gained)), (False, False))
        self.assertEqual(cargo.shared, Range("1.2.3", dialect="cargo"))
        npm = compare_ranges("1.2.3", "^1.2.3", dialect="npm")
        self.assertEqual(str(npm.gained), ">=1.2.4 <2.0.0")
        self.assertEqual((bool(npm.lost), str(npm.shared)), (False, "=1.2.3"))
        self.assertFalse(compare_ranges("1.2", "^1.2", dialect="cargo").gained)
        self.assertFalse(compare_ranges("<2.0.0", "<2.0.0-0", dialect="cargo").lost)

    def test_is_a_value(self) -> None:
        compared = compare_ranges("^1.2", ">=1.4", dialect="npm")
        again = pickle.loads(pickle.dumps(compared))
        self.assertEqual((again, hash(again)), (compared, hash(compared)))
        self.assertEqual(compare_ranges("^1.2.0", ">=1.4.0", dialect="npm"), compared)

    def test_sizes(self) -> None:
        for length in (50, 170, 200, 100_000):
            strings = ["1.2.3-" + letter * length for letter in "ab"]
            compared = compare_ranges(f"={strings[0]}", f"={strings[1]}", dialect="cargo")
            lowest = [str(it.lowest_version) for it in (compared.lost, compared.gained)]
            self.assertEqual(lowest, strings)
        many = [f"={number}.0.0" for number in range(2000)]
        compared = compare_ranges("||".join(many), "||".join(many[1998::-1]), dialect="npm")
        self.assertEqual((str(compared.lost), bool(compared.gained)), ("=1999.0.0", False))
        self.assertEqual(str(compared.shared), " || ".join(many[:1999]))

    def test_errors(self) -> None:
        raised_bound = f"<={MOST}"
        for old, new, index, reasons in [
            ("^", "^1", 0, ("number-expected",)),
            ("^1", "^", 1, ("number-expected",)),
            ("^", "|", 0, ("number-expected",)),
            (b"\xff", "^1", 0, ("not-utf8",)),
            ("^1", "\ud800", 1, ("not-utf8",)),
            (raised_bound, b"\xff", 0, ("bound-too-large", "npm-too-large")),
            ("*", raised_bound, 1, ("bound-too-large", "npm-too-large")),
        ]:
            for dialect in Dialect:
                with self.assertRaises(RangeError) as raised:
                    compare_ranges(old, new, dialect=dialect)
                error = raised.exception
                self.assertEqual((error.index, error.string), (index, (old, new)[index]))
                self.assertIn(error.reason, reasons)
                again = pickle.loads(pickle.dumps(error))
                self.assertEqual((again.index, str(again)), (index, str(error)))
        message = r"^invalid range, index 1: 'v1' \(offset 0: Cargo doesn't accept a leading v; npm does\)$"
        with self.assertRaisesRegex(RangeError, message):
            compare_ranges("^1", "v1", dialect="cargo")
        with self.assertRaises(RangeError) as alone:
            Range("v1", dialect="cargo")
        self.assertIsNone(alone.exception.index)

    def test_types(self) -> None:
        for old, new in ((1, "1"), ("1", None), ("^", None), (None, "^")):
            with self.assertRaises(TypeError):
                compare_ranges(old, new, dialect="npm")
        with self.assertRaises(TypeError):
            compare_ranges("1", "1", "npm")


class LowestVersion(unittest.TestCase):
    def test_rules(self) -> None:
        for string, wanted in LOWEST:
            for rule, lowest in zip(OF_CRATE, wanted):
                self.has_lowest(string, Dialect.CRATE_NPM, rule, lowest)

    def has_lowest(
        self, string: str, dialect: Dialect, rule: PreReleases, wanted: Optional[str]
    ) -> None:
        with self.subTest(range=string, dialect=dialect, rule=rule):
            lowest = Range(string, dialect=dialect, pre_releases=rule).lowest_version
            self.assertEqual(None if lowest is None else str(lowest), wanted)

    def test_dialects(self) -> None:
        for dialect, string, (alone, default) in LOWEST_BY_DIALECT:
            self.has_lowest(string, dialect, PreReleases.EXCLUDED, alone)
            self.has_lowest(string, dialect, PreReleases.BY_DIALECT, default)

    def test_is_a_version(self) -> None:
        one = Range(b"^1.2.3-rc", dialect="cargo")
        self.assertEqual(one.lowest_version, Version(1, 2, 3, ("rc",)))
        self.assertEqual(Range("<2.0.0", dialect="cargo").lowest_version, Version(0, 0, 0))

    def test_limits(self) -> None:
        for dialect, reason in (
            (Dialect.CARGO, "bound-too-large"),
            (Dialect.CRATE_CARGO, "bound-too-large"),
            (Dialect.NPM, "npm-too-large"),
        ):
            with self.assertRaises(RangeError) as raised:
                Range("0.0.18446744073709551615", dialect=dialect)
            self.assertEqual((raised.exception.reason, raised.exception.offset), (reason, 4))
        crate = Range("0.0.18446744073709551615", dialect="crate-npm")
        self.assertEqual(crate.lowest_version, Version(0, 0, 2**64 - 1))
        npm = Range("0.0.9007199254740991", dialect="npm")
        self.assertEqual(npm.lowest_version, Version(0, 0, 2**53 - 1))


if __name__ == "__main__":
    unittest.main()
