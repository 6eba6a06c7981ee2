"""Tests of which versions satisfy a range, in each dialect and by each rule for pre-releases, in
order and with repeats, and of the highest and lowest of them."""

import ctypes
import operator
import random
import re
import threading
import unittest
from functools import partial
from typing import List, Optional, Tuple

from semver_parser import (
    Dialect,
    PreReleases,
    Range,
    RangeError,
    Version,
    VersionError,
    compare_ranges,
    crate_comparators,
    precedence,
    satisfies,
)
from semver_parser._interface import OK, COptions, CString
from semver_parser._library import LIBRARY
from semver_parser._options import c_options
from semver_parser._strings import c_string
from tests.table import rows

# The versions in section 11 of the standard, from the lowest to the highest.
ORDERED = [
    "1.0.0-alpha",
    "1.0.0-alpha.1",
    "1.0.0-alpha.beta",
    "1.0.0-beta",
    "1.0.0-beta.2",
    "1.0.0-beta.11",
    "1.0.0-rc.1",
    "1.0.0",
    "2.0.0",
    "2.1.0",
    "2.1.1",
]

# In the order of the columns in the tables below.
DIALECTS = (Dialect.CARGO, Dialect.NPM, Dialect.CRATE_CARGO, Dialect.CRATE_NPM)
RULES = (PreReleases.EXCLUDED, PreReleases.BY_DIALECT, PreReleases.INCLUDED)

# From rust/docs/RANGES.md and rust/docs/MEANING.md: a range, a version, and whether it satisfies
# the range in each dialect, in the order above, by the default rule. None if the string isn't a
# range.
BY_DIALECT = [
    ("1.2.3", "1.9.0", (True, False, True, False)),
    ("1.2", "1.9.0", (True, False, False, False)),
    (">1.2", "1.2.9", (False, False, True, True)),
    (">=1.2.3, <2", "1.9.0", (True, None, None, None)),
    ("1.2 || 3", "3.9.0", (None, True, True, True)),
    ("v1.2.3", "1.2.3", (None, True, None, None)),
    ("^v1", "1.9.0", (None, True, None, None)),
    ("1.2.3\n", "1.2.3", (None, True, None, None)),
    ("* || =1.0.0-a", "1.0.0-a", (None, False, True, True)),
    ("=1.2 >=1.2.3-a", "1.2.3-b", (None, True, True, True)),
    ("=1.2, >=1.2.3-a", "1.2.3-b", (False, None, None, None)),
    ("<1.0 >=1.0.0-a", "1.0.0-b", (None, False, True, True)),
    ("<1.0, >=1.0.0-a", "1.0.0-b", (False, None, None, None)),
    ("^1.2, >=1.2.0-a", "1.2.0-b", (True, None, None, None)),
    ("^1.2.3-beta", "1.2.3-rc", (True, True, True, True)),
    ("^1.2.3-beta", "1.3.0-rc", (False, False, False, False)),
]

# From rust/docs/RANGES.md and rust/docs/MEANING.md ("Pre-releases"): a range, a version, and by
# which rules it satisfies the range.
THREE_RULES = [
    ("^1.2.3-beta.4", "1.9.0", (True, True, True)),
    ("^1.2.3-beta.4", "1.2.3-rc", (False, True, True)),
    ("^1.2.3-beta.4", "1.3.0-rc", (False, False, True)),
    (">=1.2.3 <1.2.4-rc", "1.2.4-a", (False, True, True)),
    ("=2.0.1-a || >=2.0.0", "2.0.1-b", (False, False, True)),
    ("1.2.3-a - 2", "1.2.3-b", (False, True, True)),
    ("1.2.3-a - 2", "2.0.0-b", (False, False, True)),
    ("~1.2.*-a", "1.2.1-b", (False, False, True)),
    ("<2.0.0", "2.0.0-alpha", (False, False, True)),
]


class Satisfying(unittest.TestCase):
    def test_rules(self) -> None:
        for string, version, wanted in THREE_RULES:
            for rule, is_wanted in zip(RULES, wanted):
                for dialect in (Dialect.CRATE_NPM, Dialect.CRATE_CARGO):
                    with self.subTest(range=string, version=version, rule=rule):
                        by = {"dialect": dialect, "pre_releases": rule}
                        self.assertIs(satisfies(version, string, **by), is_wanted)
                        chosen = Range(string, **by)
                        parsed = Version.parse(version, dialect=dialect)
                        for one in (version, version.encode(), parsed):
                            self.assertIs(one in chosen, is_wanted)
                            self.assertEqual(chosen.filter([one]), [one] if is_wanted else [])

    def check_dialect(
        self, string: str, version: str, dialect: Dialect, wanted: Optional[bool]
    ) -> None:
        """Checks whether a version satisfies a range by default, and without pre-releases."""
        if wanted is None:
            for rule in PreReleases:
                with self.assertRaises(RangeError):
                    Range(string, dialect=dialect, pre_releases=rule)
                with self.assertRaises(RangeError):
                    satisfies(version, string, dialect=dialect, pre_releases=rule)
            return
        self.assertIs(satisfies(version, string, dialect=dialect), wanted)
        for chosen in (
            Range(string, dialect=dialect),
            Range(string, dialect=dialect, pre_releases=PreReleases.BY_DIALECT),
            Range(string, dialect=dialect.value, pre_releases="by-dialect"),
        ):
            self.assertIs(version in chosen, wanted)
            self.assertEqual(chosen.filter([version, version]), 2 * [version] if wanted else [])
            self.assertEqual(chosen.highest([version]), version if wanted else None)
            self.assertEqual(chosen.lowest([version]), version if wanted else None)
        alone = wanted and "-" not in version
        self.assertIs(satisfies(version, string, dialect=dialect, pre_releases="excluded"), alone)

    def test_dialects(self) -> None:
        for string, version, wanted in BY_DIALECT:
            for dialect, is_wanted in zip(DIALECTS, wanted):
                with self.subTest(range=string, version=version, dialect=dialect):
                    self.check_dialect(string, version, dialect, is_wanted)

    def test_releases_satisfy_the_comparators(self) -> None:
        """A release satisfies a range if it satisfies its comparators, in each dialect."""
        for string, version, wanted in BY_DIALECT:
            for dialect, is_wanted in zip(DIALECTS, wanted):
                if is_wanted is not None and "-" not in version:
                    rewritten = [Range(string, dialect=dialect).comparators]
                    if dialect in (Dialect.CRATE_CARGO, Dialect.CRATE_NPM):
                        rewritten.append(crate_comparators(string, dialect=dialect))
                    for printed in map(str, rewritten):
                        self.assertIs(satisfies(version, printed, dialect="crate-npm"), is_wanted)

    def test_errors(self) -> None:
        """An invalid version is reported first."""
        for call in (
            lambda version, string: satisfies(version, string, dialect="cargo"),
            lambda version, string: version in Range(string, dialect="cargo"),
        ):
            with self.assertRaises(RangeError) as of_range:
                call("1.0.0", "v1")
            self.assertEqual(of_range.exception.string, "v1")
            self.assertIs(of_range.exception.dialect, Dialect.CARGO)
            with self.assertRaises(VersionError) as of_version:
                call(b"1.2.3\xff", "^1")
            self.assertEqual(of_version.exception.string, b"1.2.3\xff")
        with self.assertRaises(VersionError):
            satisfies("v1", "v1", dialect="cargo")

    def test_versions_made_by_hand(self) -> None:
        self.assertTrue(satisfies(Version(1, 2, 3, (5,)), "=1.2.3-5", dialect="cargo"))
        made = Version(1, 2, 3, (), ("05", "b-c"))
        self.assertTrue(satisfies(made, "=1.2.3", dialect="cargo"))

    def test_other_types(self) -> None:
        for version, string in ((1, "1"), ("1.2.3", None), (None, "1"), ("1.2.3", b"1"[0])):
            with self.assertRaises(TypeError):
                satisfies(version, string, dialect="npm")
        with self.assertRaises(TypeError):
            satisfies("1.2.3", Range("1", dialect="npm"), dialect="npm")
        with self.assertRaises(TypeError):
            1 in Range("^1", dialect="npm")


class Options(unittest.TestCase):
    """Each function that takes options takes the same ones, and no others."""

    CALLS = (
        partial(satisfies, "1.2.3", "^1"),
        partial(Range, "^1"),
        partial(compare_ranges, "^1", "^1.2"),
    )
    OF_DIALECT = (partial(Version.parse, "1.2.3"), *CALLS)

    def test_each(self) -> None:
        for dialect in Dialect:
            for call in self.OF_DIALECT:
                self.assertEqual(call(dialect=dialect), call(dialect=dialect.value))
            for rule in PreReleases:
                for call in self.CALLS:
                    one = call(dialect=dialect, pre_releases=rule)
                    self.assertEqual(one, call(dialect=dialect.value, pre_releases=rule.value))
        values = ["cargo", "npm", "crate-cargo", "crate-npm"]
        self.assertEqual([it.value for it in Dialect], values)
        self.assertEqual([it.value for it in PreReleases], ["by-dialect", "included", "excluded"])

    def test_default(self) -> None:
        for dialect in Dialect:
            one = Range("1", dialect=dialect)
            self.assertIs(one.dialect, dialect)
            self.assertIs(one.pre_releases, PreReleases.BY_DIALECT)
            self.assertEqual(one, Range("1", dialect=dialect, pre_releases="by-dialect"))
        self.assertTrue(satisfies("1.2.3-rc", "^1.2.3-beta", dialect="cargo"))
        self.assertFalse(satisfies("1.3.0-rc", "^1.2.3-beta", dialect="cargo"))

    def test_dialect_is_required_by_name(self) -> None:
        for call in self.OF_DIALECT:
            with self.assertRaisesRegex(TypeError, "dialect"):
                call()
            with self.assertRaises(TypeError):
                call("npm")

    def test_other_dialects(self) -> None:
        for call in self.OF_DIALECT:
            for wrong in (1, True, None, b"npm", ["npm"], PreReleases.BY_DIALECT):
                with self.assertRaisesRegex(TypeError, "^dialect is a Dialect or one of 'cargo', "):
                    call(dialect=wrong)
            for wrong in ("", "NPM", "yarn", "cargo "):
                with self.assertRaisesRegex(ValueError, "^dialect is one of 'cargo', 'npm', "):
                    call(dialect=wrong)

    def test_other_rules(self) -> None:
        for call in self.CALLS:
            for wrong in (1, True, None, b"by-dialect", [], Dialect.NPM):
                with self.assertRaisesRegex(TypeError, "^pre_releases is a PreReleases or one of "):
                    call(dialect="npm", pre_releases=wrong)
            for wrong in ("", "stated", "Default"):
                with self.assertRaisesRegex(ValueError, "^pre_releases is one of 'by-dialect', "):
                    call(dialect="npm", pre_releases=wrong)

    def test_numbers_of_the_library(self) -> None:
        """Each number belongs to an option, and there are no others."""
        for dialect in Dialect:
            for rule in PreReleases:
                self.assertEqual(self.status(c_options(dialect, rule)), OK)
            for number in (-1, len(PreReleases)):
                self.assertNotEqual(self.status(COptions(dialect._number, number)), OK)
        for number in (-1, len(Dialect)):
            self.assertNotEqual(self.status(COptions(number, 0)), OK)
        self.assertNotEqual(self.status(COptions(0, 0, (0, 0, 0, 0, 0, 1))), OK)

    def status(self, options: COptions) -> int:
        """Returns the status that the library returns."""
        flag = LIBRARY.semver_parser_satisfies.argtypes[3]._type_()
        strings = (c_string("1.0.0"), c_string("1"))
        status: int = LIBRARY.semver_parser_satisfies(*strings, options, flag, None)
        return status


class Filtered(unittest.TestCase):
    def test_order_and_repeats(self) -> None:
        chosen = Range("^1.2", dialect="cargo")
        given = ["1.5.0", b"1.2.0", Version(1, 3, 0), "2.0.0", "1.5.0", "1.5.0+b"]
        wanted = ["1.5.0", b"1.2.0", Version(1, 3, 0), "1.5.0", "1.5.0+b"]
        filtered = chosen.filter(given)
        self.assertEqual(filtered, wanted)
        self.assertIs(filtered[2], given[2])
        self.assertEqual(chosen.filter([]), [])
        self.assertEqual(chosen.filter(iter(given)), wanted)
        self.assertIsNone(chosen.highest([]))

    def test_errors(self) -> None:
        given = ["1.2.0", "1.2", "\ud800", "1.2.3/", "1.4.0"]
        for dialect in Dialect:
            chosen = Range("^1.2", dialect=dialect)
            for call in (chosen.filter, chosen.highest, chosen.lowest):
                with self.assertRaises(VersionError) as caught:
                    call(given)
                error = caught.exception
                self.assertEqual((error.string, error.index), ("1.2", 1))
                self.assertIs(error.dialect, dialect)
            self.assertEqual(chosen.highest(given, invalid="skip"), "1.4.0")
            self.assertEqual(chosen.lowest(given, invalid="skip"), "1.2.0")
        chosen = Range("~1.2", dialect="cargo")
        self.assertEqual(chosen.filter(given, invalid="skip"), ["1.2.0"])
        with self.assertRaises(VersionError) as alone:
            "1.2" in chosen
        self.assertIsNone(alone.exception.index)

    def test_other_values(self) -> None:
        chosen = Range("^1", dialect="cargo")
        for call in (chosen.filter, chosen.highest, chosen.lowest):
            for invalid in ("raise", "skip"):
                with self.assertRaisesRegex(TypeError, "NoneType, at index 2$"):
                    call(["1.2.3", "x", None], invalid=invalid)
                for one in ("1.2.3", b"1.2.3"):
                    with self.assertRaises(TypeError):
                        call(one, invalid=invalid)
            for wrong in ("", "ignore", None, True):
                with self.assertRaisesRegex(ValueError, "^invalid is 'raise' or 'skip', not "):
                    call([], invalid=wrong)
            with self.assertRaises(TypeError):
                call([], "skip")

    def test_dialects(self) -> None:
        """Versions are parsed in the dialect of the range, by rust/docs/GRAMMAR.md."""
        of_crate = (Dialect.CRATE_CARGO, Dialect.CRATE_NPM)
        for string, has in (
            ("1.0.0--a", (Dialect.CARGO, Dialect.NPM)),
            ("1.0.0-01", of_crate),
            ("v1.2.3", (Dialect.NPM,)),
            (" 1.2.3 ", (Dialect.NPM, *of_crate)),
            ("\u00a01.2.3", (Dialect.NPM,)),
            ("9007199254740992.0.0", (Dialect.CARGO, *of_crate)),
        ):
            for dialect in Dialect:
                with self.subTest(string=string, dialect=dialect):
                    chosen = Range(">=1.0.0-0", dialect=dialect)
                    if dialect in has:
                        self.assertIn(string, chosen)
                        self.assertTrue(satisfies(string, ">=1.0.0-0", dialect=dialect))
                        self.assertEqual(chosen.filter(["0.1.0", string]), [string])
                        self.assertEqual(chosen.highest(["0.1.0", string]), string)
                        continue
                    for call in (
                        chosen.__contains__,
                        lambda it, by=dialect: satisfies(it, ">=1.0.0-0", dialect=by),
                    ):
                        with self.assertRaises(VersionError):
                            call(string)
                    for call in (chosen.filter, chosen.highest, chosen.lowest):
                        with self.assertRaises(VersionError) as caught:
                            call(["0.1.0", string])
                        self.assertEqual(caught.exception.index, 1)
                    self.assertEqual(chosen.filter([string, "1.2.3"], invalid="skip"), ["1.2.3"])

    def test_canaries(self) -> None:
        """Versions whose pre-release begins with a hyphen, in npm's and Cargo's dialects."""
        canary = "6.2.0--canary.14175.ab12.0"
        given = ["6.2.0--canary.9.0", canary, "6.2.0--canary.14175.ab12", "6.2.1--canary.1"]
        given.append("5.0.0")
        for dialect in (Dialect.CARGO, Dialect.NPM):
            chosen = Range("^6.2.0--canary.10", dialect=dialect)
            self.assertEqual(chosen.filter(given), [canary, given[2]])
            self.assertEqual(chosen.highest(given), canary)
            self.assertEqual(chosen.lowest(given), given[2])
            made = [Version.parse(it, dialect=dialect) for it in given]
            self.assertEqual(chosen.highest(made), made[1])
            self.assertEqual(chosen.highest([*given, "6.2.0"]), "6.2.0")
            self.assertEqual(Range("^6.2.0", dialect=dialect).filter(given), [])
            self.assertEqual(Range("=" + canary, dialect=dialect).highest(given), canary)
        for dialect in (Dialect.CRATE_CARGO, Dialect.CRATE_NPM):
            chosen = Range("^6.2.0--canary.10", dialect=dialect)
            with self.assertRaises(VersionError) as caught:
                chosen.highest(given)
            self.assertEqual(caught.exception.reason, "empty-identifier")
            self.assertEqual(caught.exception.index, 0)
            self.assertEqual(chosen.filter([*given, "6.2.0"], invalid="skip"), ["6.2.0"])

    def test_many(self) -> None:
        given = [f"1.{minor}.0" for minor in range(100_000)]
        self.assertEqual(Range("^1.50000", dialect="cargo").filter(given), given[50_000:])
        self.assertEqual(Range("1.x", dialect="cargo").highest(given), given[-1])
        self.assertEqual(Range("1.x", dialect="cargo").lowest(given), given[0])


class Highest(unittest.TestCase):
    def test_highest_and_lowest(self) -> None:
        def both(string: str, versions: List[str], dialect: Dialect = Dialect.CARGO) -> object:
            chosen = Range(string, dialect=dialect)
            return chosen.highest(versions), chosen.lowest(versions)

        self.assertEqual(both("*", ORDERED[::-1]), ("2.1.1", "1.0.0"))
        self.assertEqual(both("^1", ORDERED), ("1.0.0", "1.0.0"))
        self.assertEqual(both("<1.0.0-rc.1", ORDERED), ("1.0.0-beta.11", "1.0.0-alpha"))
        self.assertEqual(both("^3", ORDERED), (None, None))
        self.assertEqual(both("^3", []), (None, None))
        given = ["1.9.0", "1.10.0", "1.2.0"]
        self.assertEqual(both("1", given, Dialect.NPM), ("1.10.0", "1.2.0"))

    def test_order_of_the_standard(self) -> None:
        """The order of section 11, as the library has it."""
        every = Range("*", dialect="cargo", pre_releases="included")
        for at, lower in enumerate(ORDERED):
            for higher in ORDERED[at + 1 :]:
                for both in ([lower, higher], [higher, lower]):
                    self.assertEqual(every.highest(both), higher)
                    self.assertEqual(every.lowest(both), lower)

    def test_first_of_equal_ones(self) -> None:
        given: List[object] = ["1.2.0+a", b"1.2.0+b", Version(1, 2, 0)]
        chosen = Range("^1", dialect="cargo")
        self.assertEqual(chosen.highest(["1.0.0", *given]), "1.2.0+a")
        self.assertEqual(chosen.lowest(["1.3.0", *given]), "1.2.0+a")
        given.reverse()
        self.assertIs(chosen.highest(given), given[0])
        self.assertIs(chosen.lowest(given), given[0])


class Precedence(unittest.TestCase):
    def test_precedence(self) -> None:
        versions = [Version.parse(it, dialect="cargo") for it in ORDERED]
        self.assertEqual(sorted(reversed(versions), key=precedence), versions)
        for lower, higher in zip(versions, versions[1:]):
            self.assertLess(precedence(lower), precedence(higher))

    def goes_as_comparators(self, ends: List[str], dialects: Tuple[Dialect, ...]) -> None:
        """The keys have the same order as the comparators."""
        versions = [f"1.2.3{end}" for end in ends]
        for dialect in dialects:
            keys = {it: precedence(Version.parse(it, dialect=dialect)) for it in versions}
            for one in versions:
                for other in versions:
                    if "-01" in other or "+" in other:
                        continue  # in a range this is another identifier, or is dropped
                    below = Range(f"<{other}", dialect=dialect, pre_releases="included")
                    self.assertIs(keys[one] < keys[other], one in below, (one, other, dialect))

    def test_precedence_is_the_library_s(self) -> None:
        """Checks identifiers of all kinds."""
        ends = ["", "-0", "-1", "-10", "-2", "-a", "-A", "-a-b", "-a.0", "-a.a", "-a.0.0", "-a+b"]
        largest = f"-{2**64 - 1}"
        hyphens = ["--", "--a", "--1", "-a-", "-a--b", "-a.-", "---"]
        of_crate = (Dialect.CRATE_CARGO, Dialect.CRATE_NPM)
        self.goes_as_comparators([*ends, largest, "-01"], of_crate)
        self.goes_as_comparators([*ends, largest, *hyphens], (Dialect.CARGO, Dialect.NPM))

    def test_precedence_is_the_one_of_comparing(self) -> None:
        """The versions of the table are ordered as the library compares them: each with its
        neighbours by the key, and with random others. In the crate's dialects, identifiers of more
        than 64 bits are strings to the library."""
        found = {row.text for row in rows() if row.call.startswith("version")}
        for dialect in Dialect:
            of_tool = dialect in (Dialect.CARGO, Dialect.NPM)
            texts = (it for it in sorted(found) if of_tool or not re.search(r"[-.]\d{20}", it))
            keys = {it: self.key_of(it, dialect) for it in texts}
            valid = sorted((it for it in keys if keys[it]), key=lambda it: keys[it])
            self.assertGreater(len(valid), 60)
            shuffled = random.Random(1).sample(valid, len(valid))
            for one, other in (*zip(valid, valid[1:]), *zip(valid, shuffled)):
                wanted = (keys[one] > keys[other]) - (keys[one] < keys[other])
                self.assertEqual(self.compared(one, other, dialect), wanted, (one, other))

    def key_of(self, version: str, dialect: Dialect) -> object:
        """Returns the key of a version, or None."""
        try:
            return precedence(version, dialect=dialect)
        except VersionError:
            return None

    def compared(self, one: str, other: str, dialect: Dialect) -> int:
        """Returns how the library compares two versions."""
        compare, order = LIBRARY.semver_parser_compare_versions, ctypes.c_int32(7)
        compare.argtypes = [CString, CString, ctypes.c_int32, *2 * (ctypes.c_void_p,)]
        strings = (c_string(one), c_string(other))
        self.assertEqual(compare(*strings, dialect._number, ctypes.byref(order), None), OK)
        return order.value

    def test_numbers_of_any_size(self) -> None:
        """Identifiers of digits are numbers, and are below others, as section 11 says."""
        numbers = ["9", str(2**64 - 1), str(2**64), "9" * 20, "1" + "0" * 20, "1" + "0" * 5000]
        strings = [f"1.2.3-{it}" for it in (*numbers, "0a", "a")]
        versions = [Version.parse(it, dialect="cargo") for it in strings]
        self.assertEqual(sorted(reversed(versions)), versions)

    def test_key_is_made_once(self) -> None:
        for version in (Version(1, 2, 3, ("a",), ("b",)), Version.parse("1.2.3", dialect="npm")):
            key = version._key()
            self.assertEqual((precedence(version), version < version), (key[:5], False))
            self.assertIs(version._key(), key)

    def test_strings(self) -> None:
        for string in ("v1.2.3-rc.1", b"1.2.3-rc.1+b"):
            key = precedence(string, dialect="npm")
            self.assertEqual(key, precedence(Version(1, 2, 3, ("rc", 1))))
        self.assertEqual(sorted(reversed(ORDERED), key=partial(precedence, dialect="npm")), ORDERED)
        mixed = [Version(2, 0, 0), "1.0.0", b"3.0.0"]
        mixed.sort(key=partial(precedence, dialect="cargo"))
        self.assertEqual(mixed, ["1.0.0", Version(2, 0, 0), b"3.0.0"])
        with self.assertRaises(VersionError) as caught:
            precedence("v1.2.3", dialect="cargo")
        self.assertEqual(caught.exception.string, "v1.2.3")

    def test_other_types(self) -> None:
        for value in ("1.2.3", b"1.2.3", (1, 2, 3), 1, None):
            with self.assertRaisesRegex(TypeError, "^precedence takes a Version, or a string "):
                precedence(value)
            with self.assertRaises(TypeError):
                sorted([Version(1, 2, 3), value], key=precedence)
        for value in ((1, 2, 3), 1, None):
            with self.assertRaises(TypeError):
                precedence(value, dialect="npm")

    def test_build_metadata_ends_the_order(self) -> None:
        """It is ignored by precedence. By `<`, two versions are equal only if all their fields
        are."""
        builds = [(), (1,), (2,), (2, 0), (10,), (2**64 - 1,), ("05",), ("1a",), ("B",), ("a",)]
        builds += [("a", 1), ("a", "b"), ("ab",)]
        versions = [Version(1, 0, 0, ("a",), build) for build in builds]
        for at, one in enumerate(versions):
            self.assertEqual(precedence(one), precedence(versions[0]))
            for after, other in enumerate(versions):
                self.assertIs(one < other, at < after, (one, other))
                self.assertIs(one <= other, at <= after)
                self.assertIs(one > other, at > after)
                self.assertIs(one >= other, at >= after)
                self.assertIs(one == other, at == after)
        self.assertEqual(sorted(reversed(versions)), versions)
        lower, higher = Version(1, 0, 0, ("0",)[:0]), Version(1, 0, 0, (), ("a",))
        self.assertTrue(versions[-1] < lower < higher < Version(1, 0, 1, ("a",)))

    def test_order(self) -> None:
        versions = [Version.parse(it, dialect="npm") for it in ORDERED]
        self.assertEqual(sorted(reversed(versions)), versions)
        self.assertEqual((min(versions), max(versions)), (versions[0], versions[-1]))
        for at, one in enumerate(versions):
            for after, other in enumerate(versions):
                self.assertIs(one < other, at < after)
                self.assertIs(one <= other, at <= after)
                self.assertIs(one > other, at > after)
                self.assertIs(one >= other, at >= after)

    def test_order_of_other_types(self) -> None:
        version = Version(1, 2, 3)
        for value in ("1.2.3", (1, 2, 3), 1, None):
            for compare in (operator.lt, operator.le, operator.gt, operator.ge):
                with self.assertRaises(TypeError):
                    compare(version, value)
                with self.assertRaises(TypeError):
                    compare(value, version)
            self.assertNotEqual(version, value)


class Threads(unittest.TestCase):
    def run_all(self, threads: List[threading.Thread]) -> None:
        for thread in threads:
            thread.start()
        for thread in threads:
            thread.join()

    def test_ranges_of_each(self) -> None:
        """Calls from several threads each return their own result."""
        wrong: List[object] = []

        def call(number: int) -> None:
            mine = [f"{number}.{minor}.0-rc.{minor}" for minor in range(50)]
            for _ in range(40):
                string = f"^{number}.10.0-rc"
                chosen = Range(string, dialect="crate-npm", pre_releases="included")
                if chosen.filter(mine) != mine[10:] or chosen.highest(mine) != mine[-1]:
                    wrong.append(number)
                if [str(Version.parse(it, dialect="crate-npm")) for it in mine] != mine:
                    wrong.append(number)

        self.run_all([threading.Thread(target=call, args=(number,)) for number in range(1, 9)])
        self.assertEqual(wrong, [])

    def test_one_range(self) -> None:
        """One range is used by several threads, which combine it and drop the results."""
        wrong: List[object] = []
        given = [f"1.{minor}.0" for minor in range(50)]
        shared = Range("^1.10", dialect="npm")

        def call(number: int) -> None:
            for _ in range(200):
                upper = shared & Range(f">=1.{10 + number}", dialect="npm")
                if upper.filter(given) != given[10 + number :] or "1.5.0" in shared:
                    wrong.append(number)
                if hash(shared | upper) != hash(shared) or str(shared.lowest_version) != "1.10.0":
                    wrong.append(number)

        self.run_all([threading.Thread(target=call, args=(number,)) for number in range(8)])
        self.assertEqual(wrong, [])
