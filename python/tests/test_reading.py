"""Tests of versions and comparators as plain data, and of the errors of strings."""

import copy
import dataclasses
import pickle
import re
import unittest
from functools import partial
from pathlib import Path
from typing import Iterable, List, Optional, Tuple, get_args
from unittest.mock import patch

from semver_parser import (
    Comparator,
    Comparators,
    Dialect,
    Op,
    Range,
    RangeError,
    Reason,
    SemverError,
    String,
    Version,
    VersionError,
    _errors,
    _interface,
    compare_ranges,
    crate_comparators,
    satisfies,
)
from semver_parser._library import LIBRARY, check

MOST = 2**64 - 1

# The highest number in a version in npm's dialect.
MOST_OF_NPM = 2**53 - 1

CRATE = (Dialect.CRATE_CARGO, Dialect.CRATE_NPM)

# A string, and what rust/docs/GRAMMAR.md says about it under "Versions of Cargo and npm" and under
# "Version texts": the version in Cargo's dialect, in npm's, and in the crate's two, or None if it
# is invalid.
VERSIONS: List[Tuple[String, Tuple[Optional[Version], Optional[Version], Optional[Version]]]] = [
    ("1.2.3", 3 * (Version(1, 2, 3),)),
    (b"1.2.3-rc.1+b5.05", 3 * (Version(1, 2, 3, ("rc", 1), ("b5", "05")),)),
    ("1.2.3-x-y.0a", 3 * (Version(1, 2, 3, ("x-y", "0a")),)),
    ("1.0.0--a", (*2 * (Version(1, 0, 0, ("-a",)),), None)),
    ("1.0.0-a--b", (*2 * (Version(1, 0, 0, ("a--b",)),), None)),
    ("1.0.0--", (*2 * (Version(1, 0, 0, ("-",)),), None)),
    ("1.0.0-alpha-", (*2 * (Version(1, 0, 0, ("alpha-",)),), None)),
    ("1.0.0--01", (*2 * (Version(1, 0, 0, ("-01",)),), None)),
    ("1.0.0+--", (*2 * (Version(1, 0, 0, (), ("--",)),), None)),
    (
        "6.2.0--canary.14175.ab12.0",
        (*2 * (Version(6, 2, 0, ("-canary", 14175, "ab12", 0)),), None),
    ),
    ("1.2.3-01", (None, None, Version(1, 2, 3, ("01",)))),
    ("1.2.3-a.00", (None, None, Version(1, 2, 3, ("a", "00")))),
    ("1.2.3+01", 3 * (Version(1, 2, 3, (), ("01",)),)),
    ("v1.2.3", (None, Version(1, 2, 3), None)),
    (" v1.2.3--a ", (None, Version(1, 2, 3, ("-a",)), None)),
    ("vv1.2.3", 3 * (None,)),
    ("v 1.2.3", 3 * (None,)),
    ("=1.2.3", 3 * (None,)),
    (" 1.2.3 ", (None, *2 * (Version(1, 2, 3),))),
    (b"\t1.2.3-a\r\n", (None, *2 * (Version(1, 2, 3, ("a",)),))),
    ("\u00a01.2.3", (None, Version(1, 2, 3), None)),
    (b"1.2.3+a\xc2\xa0", (None, Version(1, 2, 3, (), ("a",)), None)),
    (f"{MOST_OF_NPM}.0.0", 3 * (Version(MOST_OF_NPM, 0, 0),)),
    ("9007199254740992.0.0", (Version(2**53, 0, 0), None, Version(2**53, 0, 0))),
    (f"0.0.{MOST}", (Version(0, 0, MOST), None, Version(0, 0, MOST))),
    (f"0.0.{MOST + 1}", 3 * (None,)),
    (f"1.0.0-{'a' * 250}", 3 * (Version(1, 0, 0, ("a" * 250,)),)),
    (f"1.0.0-{'a' * 251}", (Version(1, 0, 0, ("a" * 251,)), None, Version(1, 0, 0, ("a" * 251,)))),
    ("1.2.3-", 3 * (None,)),
    ("1.2.3-a..b", 3 * (None,)),
    ("01.2.3", 3 * (None,)),
    ("1.2", 3 * (None,)),
    ("latest", 3 * (None,)),
    ("", 3 * (None,)),
]


class ByDialect(unittest.TestCase):
    """Versions in each dialect."""

    def test_dialects(self) -> None:
        for text, (by_cargo, by_npm, by_crate) in VERSIONS:
            for dialect, wanted in zip(Dialect, (by_cargo, by_npm, by_crate, by_crate)):
                with self.subTest(text=text, dialect=dialect):
                    if wanted is not None:
                        self.assertEqual(Version.parse(text, dialect=dialect), wanted)
                        self.assertEqual(Version.parse(str(wanted), dialect=dialect), wanted)
                        continue
                    with self.assertRaises(VersionError) as caught:
                        Version.parse(text, dialect=dialect)
                    self.assertEqual(caught.exception.string, text)
                    self.assertIs(caught.exception.dialect, dialect)

    def test_offsets(self) -> None:
        """Where and why a string is invalid."""
        for text, dialect, offset, reason in (
            ("", Dialect.CARGO, 0, "empty"),
            ("1.2", Dialect.CARGO, 3, "not-three-numbers"),
            ("1.2.03", Dialect.CARGO, 5, "leading-zero"),
            ("1.2.3-a..b", Dialect.NPM, 8, "empty-identifier"),
            ("1.2.x", Dialect.CARGO, 4, "unexpected-character"),
            ("1.2.", Dialect.CARGO, 4, "number-expected"),
            ("1-2-3", Dialect.CARGO, 1, "not-three-numbers"),
            ("1.2.3_", Dialect.CARGO, 5, "unexpected-character"),
            (f"{MOST + 1}.0.0", Dialect.CARGO, 19, "too-large"),
            ("9007199254740992.0.0", Dialect.NPM, 15, "npm-too-large"),
            ("1.0.0-" + 251 * "a", Dialect.NPM, 256, "too-long"),
            ("\u30001.2.3\u3000x", Dialect.NPM, 7, "text-after"),
            ("\u30001.2.3\u3000x".encode(), Dialect.NPM, 11, "text-after"),
            (b"1.2.3-\xff", Dialect.CARGO, 6, "unexpected-character"),
            ("1.2.3-\udc80", Dialect.CARGO, 6, "unexpected-character"),
            ("1.2.3--1", Dialect.CRATE_CARGO, 6, "empty-identifier"),
        ):
            with self.subTest(text=text), self.assertRaises(VersionError) as caught:
                Version.parse(text, dialect=dialect)
            self.assertEqual((caught.exception.offset, caught.exception.reason), (offset, reason))
            self.assertIn(caught.exception.sentence, str(caught.exception))

    def test_read_once(self) -> None:
        """Where and why a string is invalid is determined only once, and isn't pickled."""
        with self.assertRaises(VersionError) as caught:
            Version.parse("1.2", dialect="cargo")
        error = caught.exception
        explain = VersionError._explain
        with patch.object(VersionError, "_explain", autospec=True, side_effect=explain) as read:
            self.assertEqual((error.offset, error.reason), (3, "not-three-numbers"))
            self.assertIn(error.sentence, str(error))
        self.assertEqual(read.call_count, 1)
        self.assertNotIn(b"_Explanation", pickle.dumps(error))

    def test_sizes(self) -> None:
        many = ".".join(["a", "1"] * 50_000)
        read = Version.parse(f"1.2.3-{many}+{many}", dialect="cargo")
        self.assertEqual((read.pre, read.build), (("a", 1) * 50_000, ("a", 1) * 50_000))
        hyphens = "-" * 100_000
        self.assertEqual(Version.parse(f"1.2.3-{hyphens}", dialect="cargo").pre, (hyphens,))
        spaces = " " * 251
        self.assertEqual(Version.parse(f"{spaces}1.2.3", dialect="npm"), Version(1, 2, 3))
        with self.assertRaises(VersionError):
            Version.parse(f"{spaces}1.2.30", dialect="npm")


class Versions(unittest.TestCase):
    """Versions in the crate's grammar."""

    def test_fields(self) -> None:
        for dialect in CRATE:
            self.assertEqual(Version.parse("1.2.3", dialect=dialect), Version(1, 2, 3, (), ()))
            self.assertEqual(
                Version.parse("1.2.3-rc.1.07+b5.5", dialect=dialect),
                Version(1, 2, 3, ("rc", 1, "07"), ("b5", 5)),
            )
            read = Version.parse(f"{MOST}.{MOST}.{MOST}", dialect=dialect)
            self.assertEqual(read, Version(MOST, MOST, MOST))

    def test_kinds_of_identifiers(self) -> None:
        read = Version.parse(f"0.0.0-0.00.{MOST}.{MOST + 1}.1a.1-2", dialect=Dialect.CRATE_CARGO)
        self.assertEqual(read.pre, (0, "00", MOST, str(MOST + 1), "1a", "1-2"))

    def test_white_space_and_bytes(self) -> None:
        wanted = Version(1, 2, 3, ("a",), ("b",))
        for text in (" \t\r\n1.2.3-a+b \n", b"1.2.3-a+b", b"  1.2.3-a+b"):
            self.assertEqual(Version.parse(text, dialect=Dialect.CRATE_CARGO), wanted)

    def test_printed(self) -> None:
        for text in ("1.2.3", "1.2.3-rc.1.07+b5.5", "0.0.0-0", "1.2.3+a-b.0"):
            self.assertEqual(str(Version.parse(f" {text} ", dialect=Dialect.CRATE_NPM)), text)

    def refuses_parts(self, kind: type, part: object) -> None:
        """Checks a part as a pre-release and as build metadata."""
        for parts in ((part, ()), ((), part)):
            with self.assertRaises(kind):
                Version(1, 2, 3, *parts)

    def test_made_by_hand(self) -> None:
        """A printed version is parsed to the same version in each dialect that accepts it."""
        of_all = (0, MOST, "a", "1-2", "a-b-3", str(MOST + 1), "9" * 100)
        of_tools = ("-", "--", "-a", "a-", "a--b", "-1", "-01", "0-")
        for number in (0, 7, MOST_OF_NPM):
            for identifier in (*of_all, *of_tools):
                for made in (
                    Version(number, 0, number, (identifier,)),
                    Version(0, number, 1, (), (identifier, "b")),
                ):
                    for dialect in Dialect:
                        if identifier in of_tools and dialect in CRATE:
                            with self.assertRaises(VersionError):
                                Version.parse(str(made), dialect=dialect)
                        else:
                            self.assertEqual(Version.parse(str(made), dialect=dialect), made)
        for made in (Version(MOST, 0, MOST, ("a",)), Version(1, 2, 3, ("a", "00"), ("00",))):
            for dialect in CRATE:
                self.assertEqual(Version.parse(str(made), dialect=dialect), made)

    def test_no_version(self) -> None:
        for wrong in (-1, MOST + 1):
            for numbers in ((wrong, 0, 0), (0, wrong, 0), (0, 0, wrong)):
                with self.assertRaises(ValueError):
                    Version(*numbers)
        for wrong in ("1", 1.0, True, None, b"1"):
            for numbers in ((wrong, 0, 0), (0, wrong, 0), (0, 0, wrong)):
                with self.assertRaises(TypeError):
                    Version(*numbers)
        words = ("", "a.b", "a b", "a+b", "é", "١", "a\n", "\n", "a_b", "-\n", " -")
        for wrong in (*words, "7", "0", str(MOST), -1, MOST + 1):
            self.refuses_parts(ValueError, ("a", wrong))
        for wrong in (b"a", True, 1.0, None, ("a",)):
            self.refuses_parts(TypeError, (wrong,))
        for wrong in (["a"], "a", None, 1):
            self.refuses_parts(TypeError, wrong)

    def test_plain_data(self) -> None:
        version = Version.parse("1.2.3-rc+b", dialect="cargo")
        self.assertEqual(hash(version), hash(Version(1, 2, 3, ("rc",), ("b",))))
        self.assertNotEqual(version, Version.parse("1.2.3-rc+c", dialect="cargo"))
        for name in ("major", "minor", "patch", "pre", "build", "is_prerelease", "another"):
            with self.assertRaises(AttributeError):
                setattr(version, name, 2)
        version.__init__(2, 0, 0)
        self.assertEqual(str(version), "1.2.3-rc+b")
        for protocol in range(pickle.HIGHEST_PROTOCOL + 1):
            again = pickle.loads(pickle.dumps(version, protocol))
            self.assertEqual((again, hash(again)), (version, hash(version)))
        self.assertEqual(copy.deepcopy(version), version)
        self.assertEqual(eval(repr(version)), version)
        self.assertEqual(
            repr(version), "Version(major=1, minor=2, patch=3, pre=('rc',), build=('b',))"
        )
        fields = (1, 2, 3, ("rc",), ("b",))
        self.assertEqual(tuple(getattr(version, it) for it in Version.__match_args__), fields)

    def test_prereleases(self) -> None:
        for text, wanted in (("1.2.3", False), ("1.2.3-0", True), ("1.2.3+a-b", False)):
            self.assertIs(Version.parse(text, dialect="npm").is_prerelease, wanted)

    def test_formats(self) -> None:
        version = Version.parse("v1.2.3-rc", dialect="npm")
        wanted = "    1.2.3-rc|1.2.3-rc    |1.2.3-rc"
        self.assertEqual(f"{version:>12}|{version:<12}|{version}", wanted)
        with self.assertRaises(ValueError):
            format(version, "d")

    def test_sizes(self) -> None:
        many = ".".join(["a", "1"] * 50_000)
        read = Version.parse(f"1.2.3-{many}+{many}", dialect=Dialect.CRATE_NPM)
        self.assertEqual(read.pre, ("a", 1) * 50_000)
        self.assertEqual(read.build, read.pre)
        nines = "9" * 100_000
        self.assertEqual(Version.parse(f"1.2.3-{nines}", dialect=Dialect.CRATE_CARGO).pre, (nines,))


class Ranges(unittest.TestCase):
    def test_fields(self) -> None:
        both = (Comparator(Op.GTE, 1, 2, 0), Comparator(Op.LT, 2, 0, 0, (0,)))
        wanted = (both, (Comparator(Op.EQ, 1, 2, 3, ("b", 7)),))
        for string, dialect in (("1.2.3-b.007+c", "crate-npm"), ("1.2.3-b.7+c", "npm")):
            comparators = Range(f"^1.2 || {string}", dialect=dialect).comparators
            self.assertEqual(comparators, wanted)
            self.assertEqual(str(comparators), ">=1.2.0 <2.0.0-0 || =1.2.3-b.7")
            self.assertIs(type(comparators), Comparators)

    def test_dialects(self) -> None:
        """What rust/docs/RANGES.md says about each range, with exact bounds."""
        for text, wanted in DIALECTS:
            for dialect, set_text in zip(Dialect, wanted):
                with self.subTest(text=text, dialect=dialect):
                    if set_text is None:
                        with self.assertRaises(RangeError) as caught:
                            Range(text, dialect=dialect)
                        self.assertNotIn("too-large", caught.exception.reason)
                    else:
                        answered = Range(text, dialect=dialect).comparators
                        self.assertEqual(str(answered), set_text)

    def test_bounds(self) -> None:
        """They are exact; `crate_comparators` returns the crate's."""
        for string, exact, of_crate in (
            ("<=1.2", "<1.3.0-0", "<1.3.0"),
            ("^1.2.3", ">=1.2.3 <2.0.0-0", ">=1.2.3 <2.0.0"),
            ("<2.0.0", "<2.0.0", "<2.0.0"),
        ):
            for dialect in Dialect:
                self.assertEqual(str(Range(string, dialect=dialect).comparators), exact)
            for dialect in CRATE:
                for given in (dialect, dialect.value):
                    self.assertEqual(str(crate_comparators(string, dialect=given)), of_crate)

    def test_crate_comparators_are_the_crate_s(self) -> None:
        for dialect in (Dialect.CARGO, Dialect.NPM, "cargo", "npm"):
            with self.assertRaisesRegex(ValueError, "^dialect is 'crate-cargo' or 'crate-npm'"):
                crate_comparators("1", dialect=dialect)
        for wrong in (None, 1):
            with self.assertRaises(TypeError):
                crate_comparators("1", dialect=wrong)
            with self.assertRaises(TypeError):
                crate_comparators(wrong, dialect="crate-npm")
        with self.assertRaises(RangeError) as caught:
            crate_comparators("1, 2", dialect="crate-cargo")
        self.assertEqual((caught.exception.offset, caught.exception.reason), (1, "crate-comma"))

    def test_operators(self) -> None:
        text = "<1.0.0, <=1.0.0, >1.0.0, >=1.0.0, =1.0.0"
        (comparators,) = Range(text, dialect="cargo").comparators
        self.assertEqual([it.op for it in comparators], [Op.LT, Op.LTE, Op.GT, Op.GTE, Op.EQ])
        self.assertEqual([str(it.op) for it in comparators], ["<", "<=", ">", ">=", "="])

    def test_plain_data(self) -> None:
        answered = Range("^1.2.3-rc", dialect="cargo").comparators
        again = Range(b"^1.2.3-rc ", dialect="cargo").comparators
        self.assertEqual((answered, hash(answered)), (again, hash(again)))
        for protocol in range(pickle.HIGHEST_PROTOCOL + 1):
            for value in (answered, answered[0], answered[0][0], Op.LT):
                self.assertEqual(pickle.loads(pickle.dumps(value, protocol)), value)
        self.assertIs(type(pickle.loads(pickle.dumps(answered))), Comparators)
        with self.assertRaises(dataclasses.FrozenInstanceError):
            answered[0][0].op = Op.LT
        with self.assertRaises(ValueError):
            f"{answered:d}"

    def test_counts(self) -> None:
        """Many comparators, and long pre-releases."""
        for count in (*range(1, 40), 1000):
            text = "||".join(["^1.2.3-rc.1"] * count)
            both = (Comparator(Op.GTE, 1, 2, 3, ("rc", 1)), Comparator(Op.LT, 2, 0, 0))
            self.assertEqual(crate_comparators(text, dialect="crate-npm"), (both,) * count)
        for length in range(40, 100):
            answered = Range("=1.2.3-" + "a" * length, dialect="cargo").comparators
            self.assertEqual(answered[0][0].pre, ("a" * length,))

    def test_sizes(self) -> None:
        for dialect in (Dialect.NPM, Dialect.CRATE_CARGO, Dialect.CRATE_NPM):
            self.assertEqual(len(Range("||" * 99_999, dialect=dialect).comparators), 100_000)
            self.assertEqual(len(Range("* " * 100_000, dialect=dialect).comparators[0]), 100_000)
        most = Range(",".join(["1"] * 32), dialect="cargo").comparators
        self.assertEqual(len(most[0]), 64)
        with self.assertRaises(RangeError):
            Range(",".join(["1"] * 33), dialect="cargo")
        many = Range("=1.2.3-" + ".".join(["a", "1"] * 50_000), dialect="cargo").comparators
        self.assertEqual(many[0][0].pre, ("a", 1) * 50_000)
        string = "=1.2.3-" + ".".join(["a", "01"] * 50_000)
        many = Range(string, dialect="crate-cargo").comparators
        self.assertEqual(many[0][0].pre, ("a", 1) * 50_000)


# A string, and its comparators in each dialect, or None if it is invalid: Cargo's, npm's, and the
# crate's in Cargo mode and in npm mode.
DIALECTS = [
    ("1.2.3", (">=1.2.3 <2.0.0-0", "=1.2.3", ">=1.2.3 <2.0.0-0", "=1.2.3")),
    ("1.2", (">=1.2.0 <2.0.0-0", *3 * (">=1.2.0 <1.3.0-0",))),
    (">1.2", (*2 * (">=1.3.0",), *2 * (">1.2.0",))),
    ("<1.2", ("<1.2.0", "<1.2.0-0", *2 * ("<1.2.0",))),
    (">=1.2.3, <2", (">=1.2.3 <2.0.0", None, None, None)),
    ("1.2 || 3", (None, *3 * (">=1.2.0 <1.3.0-0 || >=3.0.0 <4.0.0-0",))),
    ("v1.2.3", (None, "=1.2.3", None, None)),
    ("^v1", (None, ">=1.0.0 <2.0.0-0", None, None)),
    ("=v1", (None, ">=1.0.0 <2.0.0-0", None, None)),
    ("1.2.3\n", (None, "=1.2.3", None, None)),
    ("\u00a01.2.3", (None, "=1.2.3", None, None)),
    ("1.2.3-01", (None, None, ">=1.2.3-1 <2.0.0-0", "=1.2.3-1")),
    ("", (None, *3 * (">=0.0.0",))),
]


class Errors(unittest.TestCase):
    def refuses_version(self, text: String, dialects: Iterable[Dialect] = Dialect) -> None:
        for dialect in dialects:
            with self.assertRaises(VersionError) as caught:
                Version.parse(text, dialect=dialect)
            self.assertEqual((caught.exception.string, caught.exception.index), (text, None))
            self.assertIs(caught.exception.dialect, dialect)

    def refuses_range(self, text: String, *reasons: str) -> None:
        """Checks each dialect. The reason has to be one of these."""
        for dialect in Dialect:
            calls = [Range, partial(satisfies, "1.0.0")]
            for call in calls if dialect not in CRATE else [*calls, crate_comparators]:
                with self.assertRaises(RangeError) as caught:
                    call(text, dialect=dialect)
                error = caught.exception
                self.assertEqual((error.string, error.index), (text, None))
                self.assertIs(error.dialect, dialect)
                self.assertIn(error.reason, reasons)
                self.assertTrue(error.sentence)

    def test_versions(self) -> None:
        for text in ("", "1.2", "1.2.3-", " ", "01.0.0", "a /", "vv1.2.3", "/", "a/", "1.2.3\0"):
            self.refuses_version(text)
        for text in ("1.2.3é", "1.2.3 a.b", "1.2.3 4"):
            self.refuses_version(text)
        for text in ("1.2.3--1", "v1.2.3"):
            self.refuses_version(text, CRATE)

    def test_ranges(self) -> None:
        others = ("cargo-commas", "npm-comma", "crate-comma", "cargo-bars", "unexpected-character")
        others += ("number-expected", "unexpected-end")
        for text in ("1.2.3 -4", ">=1.0.0, <2.0.0 || 3", "v 1.2.3", "|", "V1", "*\0"):
            self.refuses_range(text, *others, "cargo-v", "crate-v", "cargo-hyphen")
        for text in (">=1.0.0, <2.0.0", "v1.2.3", "1\n"):
            for dialect in CRATE:
                with self.assertRaises(RangeError):
                    Range(text, dialect=dialect)
        self.refuses_range(f"{MOST + 1}", "too-large", "npm-too-large")
        self.refuses_range(f"<={MOST}", "bound-too-large", "npm-too-large")
        self.refuses_range(f"<={MOST + 1}", "too-large", "npm-too-large")

    def test_offsets_of_ranges(self) -> None:
        """The offset counts characters in a `str`, and bytes in `bytes`."""
        for text, offset in (("\u3000>\u3000v\u2070", 4), ("\u3000>\u3000v\u2070".encode(), 8)):
            with self.assertRaises(RangeError) as caught:
                Range(text, dialect="npm")
            error = caught.exception
            self.assertEqual((error.offset, error.reason), (offset, "number-expected"))
        for call in (Range, partial(satisfies, "1.2.3"), partial(compare_ranges, "1")):
            with self.assertRaises(RangeError) as caught:
                call("1.2 || 3", dialect="cargo")
            self.assertEqual(caught.exception.offset, 4)
            self.assertEqual(caught.exception.reason, "cargo-bars")
            self.assertEqual(caught.exception.sentence, "Cargo doesn't accept ||; npm does")
        with self.assertRaises(RangeError) as caught:
            satisfies("1.2.3", "1 2", dialect="cargo")
        self.assertEqual(caught.exception.offset, 2)
        with self.assertRaises(RangeError) as caught:
            compare_ranges("1", "1 2", dialect="cargo")
        again = pickle.loads(pickle.dumps(caught.exception))
        self.assertEqual((again.index, again.offset, again.sentence), (1, 2, caught.exception.sentence))

    def test_not_utf8(self) -> None:
        """The span is one byte of `bytes`, and one character of a `str`."""
        for text, offset in (
            (b"1.2.3\xff", 5),
            (b"\x80", 0),
            (b"1.2.3\xe2\x82", 5),
            ("1.2.3\ud800", 5),
            ("1.2.3\ud800.\ud800", 5),
            ("\udcff", 0),
            ("\ud83d\ude00", 0),
            ("\u00a01\ud800", 2),
        ):
            self.refuses_version(text)
            self.refuses_range(text, "not-utf8")
            error = RangeError(text, "npm")
            self.assertEqual((error.offset, error.span), (offset, (offset, offset + 1)))
            self.assertIsNone(error.suggestion)

    def test_spans(self) -> None:
        """A span has the characters of the same kind around the offset, and for a leading zero it
        is the number that begins with it. The comments in the header say so."""
        versions: List[Tuple[String, str, Tuple[int, int]]] = [
            ("1.2.03", "cargo", (4, 6)),
            ("1.2.3-rc.007", "npm", (9, 12)),
            ("1.2", "cargo", (3, 3)),
            ("", "npm", (0, 0)),
            ("latest", "npm", (0, 6)),
            ("v1.2.3", "cargo", (0, 1)),
            ("1.2.x", "npm", (4, 5)),
            ("\u00a0\u00a001.2.3", "npm", (2, 4)),
            ("\u00a0\u00a001.2.3".encode(), "npm", (4, 6)),
            ("1.2.3-\u00e4\u00e4b", "npm", (6, 8)),
            ("1.2.3-\u00e4\u00e4b".encode(), "npm", (6, 10)),
            ("\U0001f600", "cargo", (0, 1)),
        ]
        for text, dialect, span in versions:
            with self.subTest(text=text):
                self.assertEqual(VersionError(text, dialect).span, span)
        ranges: List[Tuple[String, str, Tuple[int, int]]] = [
            ("1 || 2", "cargo", (2, 4)),
            ("=>1.2", "npm", (0, 2)),
            (">=1.2, <2", "npm", (5, 6)),
            (">=9007199254740992", "npm", (2, 18)),
            ("^", "npm", (1, 1)),
            ("\u3000>\u3000v\u2070", "npm", (4, 5)),
            ("\u3000>\u3000v\u2070".encode(), "npm", (8, 11)),
        ]
        for text, dialect, span in ranges:
            with self.subTest(text=text):
                self.assertEqual(RangeError(text, dialect).span, span)

    def test_carets(self) -> None:
        """With `#`, the string is in a line of its own, with carets below its span, as in Rust."""
        for error, wanted in (
            (
                RangeError("1 || 2", "cargo"),
                "invalid range: Cargo doesn't accept ||; npm does\n    1 || 2\n      ^^",
            ),
            (RangeError(">=", "npm"), "invalid range: a number is expected\n    >=\n      ^"),
            (
                RangeError("\n\té|", "npm"),
                "invalid range: unexpected character\n    \\n\\t\\u{e9}|\n        ^^^^^^",
            ),
            (
                RangeError(b"1.2 \xff", "npm"),
                "invalid range: the string isn't UTF-8\n    1.2 \\u{fffd}\n        ^^^^^^^^",
            ),
            (
                RangeError(">=9007199254740992", "npm"),
                "invalid range: npm's numbers are at most 2^53 - 1\n    >=9007199254740992\n"
                "      ^^^^^^^^^^^^^^^^",
            ),
            (
                VersionError("1.2.03", "cargo"),
                "invalid version: numbers and identifiers of digits may not have a leading zero\n"
                "    1.2.03\n        ^^",
            ),
        ):
            with self.subTest(error=repr(error)):
                self.assertEqual(f"{error:#}", wanted)
                self.assertEqual(f"{error}", str(error))
                self.assertEqual(f"{error:>120}", str(error).rjust(120))

    def test_suggestions(self) -> None:
        """A suggestion repairs slips, and is a `str` whether the string is `str` or `bytes`."""
        for string, dialect, wanted in (
            ("=>1.2", "npm", ">=1.2"),
            ("=>1.02", "cargo", ">=1.2"),
            (">=1.2, <2", "npm", ">=1.2 <2"),
            ("v1", "cargo", "1"),
            ("\u00a0=>1.2", "npm", "\u00a0>=1.2"),
            ("latest", "npm", None),
            ("", "cargo", None),
            ("1 || 2", "cargo", None),
        ):
            for text in (string, string.encode()):
                with self.subTest(text=text):
                    self.assertEqual(RangeError(text, dialect).suggestion, wanted)
        for string, dialect, wanted in (
            ("v1.2", "cargo", "1.2.0"),
            ("1.2.03", "npm", "1.2.3"),
            ("=1.2.3", "cargo", "1.2.3"),
            ("latest", "npm", None),
        ):
            error = VersionError(string, dialect)
            for _ in range(2):
                self.assertEqual(error.suggestion, wanted)

    def test_messages(self) -> None:
        for error, message in (
            (
                VersionError("1.2", "npm"),
                "invalid version: '1.2' (offset 3: there are fewer than three numbers)",
            ),
            (
                VersionError(b"x", "cargo", 7),
                "invalid version, index 7: b'x' (offset 0: unexpected character)",
            ),
            (
                RangeError(b"v1", "cargo"),
                "invalid range: b'v1' (offset 0: Cargo doesn't accept a leading v; npm does)",
            ),
            (RangeError("^", "npm"), "invalid range: '^' (offset 1: a number is expected)"),
            (
                RangeError(f"={MOST + 1}", "cargo", 1),
                f"number too large in range, index 1: '={MOST + 1}' "
                "(offset 1: numbers are at most 2^64 - 1)",
            ),
            (VersionError("1.2.3", "cargo"), "invalid version: '1.2.3'"),
            (RangeError("1.2.3", "cargo"), "invalid range: '1.2.3'"),
        ):
            self.assertEqual(str(error), message)
        message = r"^invalid range: 'v{79}\.\.\. \(length 100000\) \("
        with self.assertRaisesRegex(ValueError, message):
            Range("v" * 100_000, dialect="cargo")

    def test_errors_are_values(self) -> None:
        for error in (
            VersionError("1.2", "npm"),
            VersionError("1.2", Dialect.CRATE_NPM, 7),
            RangeError(b"\xff", Dialect.CARGO),
            RangeError("1 2", Dialect.CARGO, 1),
        ):
            for again in (pickle.loads(pickle.dumps(error)), copy.deepcopy(error)):
                self.assertIs(type(again), type(error))
                self.assertEqual(again.args, error.args)
                self.assertEqual(
                    (again.string, again.dialect, again.index),
                    (error.string, error.dialect, error.index),
                )
                self.assertEqual((again.offset, str(again)), (error.offset, str(error)))
        for fine in (VersionError("1.2.3", "npm"), RangeError("1", "npm", 0)):
            for name in ("offset", "span", "reason", "sentence", "suggestion"):
                with self.assertRaisesRegex(ValueError, "^the string is valid: '1"):
                    getattr(fine, name)

    def test_base(self) -> None:
        """Both errors have one base class, which is a `ValueError`."""
        for call in (partial(Version.parse, "1.2"), partial(Range, "v1")):
            with self.assertRaises(SemverError) as caught:
                call(dialect="cargo")
            self.assertIsInstance(caught.exception, ValueError)

    def test_reasons(self) -> None:
        """The type has the names of the library, in the same order, and no others."""
        names: List[str] = []
        while name := LIBRARY.semver_parser_reason_name(len(names) + 1):
            names.append(name.decode("ascii"))
            self.assertTrue(LIBRARY.semver_parser_reason_text(len(names)))
        self.assertEqual(tuple(names), get_args(Reason))

    def test_statuses(self) -> None:
        """Their numbers are those in the header."""
        header = Path(__file__).resolve().parents[2] / "rust/capi/include/semver_parser.h"
        numbers = dict(re.findall(r"^ *SEMVER_PARSER_(\w+) = (\d+),?$", header.read_text(), re.M))
        names = ["OK", "INVALID_RANGE", "NUMBER_TOO_LARGE", "INVALID_VERSION", "OUT_OF_MEMORY"]
        names += ["CANNOT_UPGRADE"]
        for name in names:
            self.assertEqual(getattr(_interface, name), int(numbers[name]), name)

    def test_explained_when_asked_for(self) -> None:
        """The library isn't called to find out where and why a string is invalid before that is
        needed."""
        asked = []

        class Watched:
            def __getattr__(self, name: str) -> object:
                asked.append(name.removeprefix("semver_parser_"))
                return getattr(LIBRARY, name)

        with patch.object(_errors, "LIBRARY", Watched()):
            with self.assertRaises(VersionError) as of_version:
                Range("*", dialect="npm").filter(["1.0.0", "latest"])
            with self.assertRaises(RangeError) as of_range:
                compare_ranges("1", "1 2", dialect="cargo")
            self.assertEqual(asked, [])
            self.assertEqual((of_version.exception.offset, of_range.exception.offset), (0, 2))
            of_reason = ["error_span", "reason_name", "reason_text"]
            self.assertEqual(asked, ["parse_version", *of_reason, "check_range", *of_reason])

    def test_out_of_memory(self) -> None:
        with self.assertRaises(MemoryError):
            check(_interface.OUT_OF_MEMORY)

    def test_other_types(self) -> None:
        for value in (None, 1, bytearray(b"1.2.3"), Version(1, 2, 3)):
            for call in (Version.parse, Range):
                with self.assertRaises(TypeError):
                    call(value, dialect="npm")
