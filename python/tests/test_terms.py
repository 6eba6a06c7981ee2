"""Tests of the terms of ranges: what is written, and where. The expected values are read off the
strings."""

import dataclasses
import unittest
from typing import List, Optional, Tuple

from semver_parser import (
    Component,
    Dialect,
    PartialVersion,
    Range,
    RangeError,
    String,
    Term,
    Version,
    VersionError,
    replace_version,
    terms,
)

NPM, CARGO = Dialect.NPM, Dialect.CARGO
CRATE_NPM, CRATE_CARGO = Dialect.CRATE_NPM, Dialect.CRATE_CARGO

# A range, the dialects that accept it, and for each term the index of its range, its operator, its
# string, and the strings of its versions.
WRITTEN: List[Tuple[String, List[Dialect], List[Tuple[int, str, String, List[String]]]]] = [
    (
        "\t^ v1.2  ||>=3.0.0-rc.1 <\n4\u00a0|| 1.2  -  2.x ||",
        [NPM],
        [
            (0, "^", "^ v1.2", ["v1.2"]),
            (1, ">=", ">=3.0.0-rc.1", ["3.0.0-rc.1"]),
            (1, "<", "<\n4", ["4"]),
            (2, "-", "1.2  -  2.x", ["1.2", "2.x"]),
        ],
    ),
    (
        " >= 1.2 ,<2,=1.5.*",
        [CARGO],
        [(0, ">=", ">= 1.2", ["1.2"]), (0, "<", "<2", ["2"]), (0, "=", "=1.5.*", ["1.5.*"])],
    ),
    (
        "  1.2.3+b || ~> 1.X",
        [NPM, CRATE_NPM, CRATE_CARGO],
        [(0, "", "1.2.3+b", ["1.2.3+b"]), (1, "~", "~> 1.X", ["1.X"])],
    ),
    (
        "<=1\t>2 || 1.2.3-a-b - 4.0.0+b",
        [CRATE_NPM, CRATE_CARGO],
        [
            (0, "<=", "<=1", ["1"]),
            (0, ">", ">2", ["2"]),
            (1, "-", "1.2.3-a-b - 4.0.0+b", ["1.2.3-a-b", "4.0.0+b"]),
        ],
    ),
    # White space of two and of three bytes: an offset is an index into the `str`, or into the
    # `bytes`.
    (
        "\ufeff~1.2\u00a0\u20031 ||\u30002 -\u00a03",
        [NPM],
        [(0, "~", "~1.2", ["1.2"]), (0, "", "1", ["1"]), (1, "-", "2 -\u00a03", ["2", "3"])],
    ),
    (
        "\ufeff~1.2\u00a0\u20031 ||\u30002 -\u00a03".encode(),
        [NPM],
        [
            (0, "~", b"~1.2", [b"1.2"]),
            (0, "", b"1", [b"1"]),
            (1, "-", "2 -\u00a03".encode(), [b"2", b"3"]),
        ],
    ),
    ("", [NPM, CRATE_NPM, CRATE_CARGO], []),
    (b"", [NPM, CRATE_NPM, CRATE_CARGO], []),
    (" || ", [NPM, CRATE_NPM, CRATE_CARGO], []),
    ("|| ||1", [NPM, CRATE_NPM, CRATE_CARGO], [(2, "", "1", ["1"])]),
    (" * ", list(Dialect), [(0, "", "*", ["*"])]),
    (" x", list(Dialect), [(0, "", "x", ["x"])]),
]

_Parts = Tuple[Component, Optional[Component], Optional[Component], str, str]

# A range, and the components, the pre-release and the build metadata of its first version.
PARTS: List[Tuple[str, _Parts]] = [
    ("~1", (1, None, None, "", "")),
    ("~1.2", (1, 2, None, "", "")),
    ("1.2.3", (1, 2, 3, "", "")),
    (">1.2.3-rc.1+b.5", (1, 2, 3, "rc.1", "b.5")),
    ("1.2.3+b.5", (1, 2, 3, "", "b.5")),
    ("1.2.3--a.-+-", (1, 2, 3, "-a.-", "-")),
    ("1.X.3", (1, "X", 3, "", "")),
    ("x", ("x", None, None, "", "")),
    ("*.X.x", ("*", "X", "x", "", "")),
    ("0.0.0", (0, 0, 0, "", "")),
    # A number after a wildcard is ignored. The first one is 2**64 - 1, and the second one is above.
    ("1.x.18446744073709551615", (1, "x", 2**64 - 1, "", "")),
    ("1.x.18446744073709551616", (1, "x", 2**64 - 1, "", "")),
]

# A range, and the range with the numbers of 3.1.4-rc.1+b5 instead of each of its versions.
REPLACED: List[Tuple[String, Dialect, List[str]]] = [
    ("~1", NPM, ["~3"]),
    ("v1.2 || >= 1.2.3-a+b", NPM, ["v3.1 || >= 1.2.3-a+b", "v1.2 || >= 3.1.4-rc.1"]),
    ("1.X - 2.*.x", NPM, ["3.X - 2.*.x", "1.X - 3.*.x"]),
    ("\u00a0^1.2.x-a", NPM, ["\u00a0^3.1.x"]),
    ("\u00a0^1".encode(), NPM, ["\u00a0^3"]),
    (">=1.2.0, <2", CARGO, [">=3.1.4-rc.1, <2", ">=1.2.0, <3"]),
    ("* || 1.0.0", CRATE_NPM, ["* || 1.0.0", "* || 3.1.4-rc.1"]),
]

# A range that is invalid in a dialect, with the offset and the reason.
INVALID: List[Tuple[String, Dialect, int, str]] = [
    ("1 || 2", CARGO, 2, "cargo-bars"),
    (b"1 || 2", CARGO, 2, "cargo-bars"),
    ("", CARGO, 0, "empty"),
    ("^1 || <9007199254740992", NPM, 7, "npm-too-large"),
    ("=18446744073709551616", CRATE_NPM, 1, "too-large"),
    ("\u00a0\u00a01.2.03", NPM, 7, "leading-zero"),
    ("\u00a0\u00a01.2.03".encode(), NPM, 9, "leading-zero"),
]


def strings_of_versions(string: String, term: Term) -> List[String]:
    """Returns the strings of the versions of a term."""
    versions = [term.version] if term.upper is None else [term.version, term.upper]
    return [string[it.start : it.end] for it in versions]


class Terms(unittest.TestCase):
    def test_written(self) -> None:
        for string, dialects, expected in WRITTEN:
            for dialect in dialects:
                for given in (dialect, dialect.value):
                    found = terms(string, dialect=given)
                    shown = [(it.range, it.operator, string[it.start : it.end]) for it in found]
                    self.assertEqual(shown, [it[:3] for it in expected], (string, dialect))
                    versions = [strings_of_versions(string, it) for it in found]
                    self.assertEqual(versions, [it[3] for it in expected], (string, dialect))

    def test_terms_of_a_range(self) -> None:
        for string, dialects, _ in WRITTEN:
            text = string.decode() if isinstance(string, bytes) else string
            for dialect in dialects:
                made = Range(string, dialect=dialect, pre_releases="excluded")
                self.assertEqual(made.terms, terms(text, dialect=dialect))
        one, other = Range("^1", dialect="npm"), Range("2", dialect="npm")
        for combined in (one | other, one & other, one - other):
            with self.assertRaisesRegex(ValueError, "combined of others has no string"):
                combined.terms

    def test_whole(self) -> None:
        """A term and a version with all their fields."""
        version = PartialVersion(11, 25, True, 2, 0, 0, "rc.1", "b5")
        self.assertEqual(
            terms("~1.2 || >= v2.0.0-rc.1+b5", dialect="npm"),
            [
                Term(0, "~", 0, 4, PartialVersion(1, 4, False, 1, 2, None, "", ""), None),
                Term(1, ">=", 8, 25, version, None),
            ],
        )
        lower = PartialVersion(0, 3, False, 1, 2, None, "", "")
        upper = PartialVersion(6, 10, True, 2, "*", None, "", "")
        self.assertEqual(terms("1.2 - v2.*", dialect="npm"), [Term(0, "-", 0, 10, lower, upper)])

    def test_parts(self) -> None:
        for string, parts in PARTS:
            for dialect in (NPM, CRATE_NPM, CRATE_CARGO):
                if dialect == NPM or "--" not in string:
                    it = terms(string, dialect=dialect)[0].version
                    self.assertEqual((it.major, it.minor, it.patch, it.pre, it.build), parts)
        [it] = terms("=1.2.3-rc.1+b", dialect="cargo")
        self.assertEqual((it.version.pre, it.version.build, it.version.has_v), ("rc.1", "b", False))

    def test_each_operator(self) -> None:
        signs = ["=", "<", "<=", ">", ">=", "~", "^"]
        for sign in signs:
            for dialect in Dialect:
                [term] = terms(f"{sign} 1.2", dialect=dialect)
                self.assertEqual((term.operator, term.start, term.end), (sign, 0, len(sign) + 4))
        for dialect in (NPM, CRATE_NPM, CRATE_CARGO):
            found = [it.operator for it in terms("1.2 || ~>1", dialect=dialect)]
            self.assertEqual(found, ["", "~"])

    def test_many(self) -> None:
        numbers = list(range(1000))
        found = terms(" || ".join(f"1.{minor}" for minor in numbers), dialect="npm")
        self.assertEqual([it.version.minor for it in found], numbers)
        self.assertEqual([it.range for it in found], numbers)

    def test_replacing(self) -> None:
        """With another version at the offsets of a version, the string is still a valid range."""
        for string, dialects, expected in WRITTEN:
            for dialect in dialects if isinstance(string, str) else ():
                for it in terms(string, dialect=dialect):
                    new = string[: it.version.start] + "10.11.12-rc" + string[it.version.end :]
                    again = terms(new, dialect=dialect)
                    self.assertEqual(len(again), len(expected))
                    [changed] = [each for each in again if each.version.pre == "rc"]
                    self.assertEqual((changed.range, changed.operator), (it.range, it.operator))

    def test_replace_version(self) -> None:
        """The numbers of another version, in the form of each version that is written."""
        new = "3.1.4-rc.1+b5"
        for string, dialect, replaced in REPLACED:
            found = terms(string, dialect=dialect)
            written = [it for term in found for it in (term.version, term.upper) if it is not None]
            for version in (new, new.encode(), Version.parse(new, dialect=dialect)):
                made = [replace_version(string, it, version, dialect=dialect) for it in written]
                self.assertEqual(made, replaced, string)

    def test_no_replaced_version(self) -> None:
        [term] = terms("^1.2", dialect="npm")
        with self.assertRaises(RangeError) as range_error:
            replace_version("^1.02", term.version, "2.0.0", dialect="npm")
        self.assertEqual(range_error.exception.string, "^1.02")
        with self.assertRaises(RangeError):
            replace_version("^1.02", term.version, "2.0", dialect="npm")
        with self.assertRaises(VersionError) as version_error:
            replace_version("^1.2", term.version, "2.0", dialect="npm")
        self.assertEqual(version_error.exception.string, "2.0")
        for other in ("1.2", "^2.2", "^1.2.3"):
            with self.assertRaisesRegex(ValueError, "the range doesn't have this version at index 1"):
                replace_version(other, term.version, "2.0.0", dialect="npm")
        for start in (-1, -3, 0, 2, 5, 2**64 + 1, 1.5, float("nan"), None, "1"):
            wrong_start = dataclasses.replace(term.version, start=start)  # type: ignore[arg-type]
            with self.assertRaisesRegex(ValueError, f"have this version at index {start}$"):
                replace_version("^1.2", wrong_start, "2.0.0", dialect="npm")
        with self.assertRaisesRegex(TypeError, r"not a PartialVersion of a term: Term\("):
            replace_version("^1.2", term, "2.0.0", dialect="npm")  # type: ignore[arg-type]
        largest = "9007199254740991.0.0"
        too_large = replace_version("^1.2", term.version, largest, dialect="npm")
        self.assertEqual(too_large, "^9007199254740991.0")
        with self.assertRaises(RangeError):
            terms(too_large, dialect="npm")
        for wrong in (None, 1, term.version):
            with self.assertRaises(TypeError):
                replace_version("^1.2", term.version, wrong, dialect="npm")

    def test_several_replaced_versions(self) -> None:
        """After a longer version, the others are elsewhere; before it, they stay where they are."""
        range = "1 || 2 || 3"
        found = [term.version for term in terms(range, dialect="npm")]
        longer = replace_version(range, found[0], "10.0.0", dialect="npm")
        with self.assertRaises(ValueError):
            replace_version(longer, found[2], "4.0.0", dialect="npm")
        for written in reversed(found):
            range = replace_version(range, written, "10.0.0", dialect="npm")
        self.assertEqual(range, "10 || 10 || 10")

    def test_invalid(self) -> None:
        for string, dialect, offset, reason in INVALID:
            with self.assertRaises(RangeError) as raised:
                terms(string, dialect=dialect)
            error = raised.exception
            self.assertEqual((error.string, error.dialect), (string, dialect))
            self.assertEqual((error.offset, error.reason), (offset, reason), string)
            self.assertIsNone(error.index)

    def test_other_values(self) -> None:
        for wrong in (None, 1, bytearray(b"1"), ["1"], Range("1", dialect="npm")):
            with self.assertRaises(TypeError):
                terms(wrong, dialect="npm")
        with self.assertRaises(ValueError):
            terms("1", dialect="yarn")
        with self.assertRaises(TypeError):
            terms("1")
        for wrong in ("1\ud800", b"1\xff", "1\0"):
            with self.assertRaises(RangeError):
                terms(wrong, dialect="npm")

    def test_immutable(self) -> None:
        [term] = terms("1", dialect="npm")
        for it, name in ((term, "operator"), (term.version, "major")):
            with self.assertRaises(dataclasses.FrozenInstanceError):
                setattr(it, name, 5)
        self.assertEqual(len({*terms("1", dialect="npm"), *terms("1", dialect="cargo")}), 1)
