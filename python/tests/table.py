"""The tables of cases of this repository: their rows, and how they write what a function returns.

`crates/replayed_cases` and `rust/tests/layers` have the rows in their `stdin` and the expected
results in their `stdout`; `src/text.rt` of the former says how strings are escaped. Functions that end with `-as-cargo` and `-as-npm` read
ranges and versions in the dialects of these tools, with which their rows were made. All others use
the crate's dialects.
"""

import re
import zlib
from pathlib import Path
from typing import Callable, Dict, Iterator, List, NamedTuple, Optional, Tuple

from semver_parser import (
    Comparators,
    Dialect,
    Identifier,
    PreReleases,
    Range,
    RangeError,
    Version,
    VersionError,
    compare_ranges,
    crate_comparators,
)

_TOP = Path(__file__).resolve().parents[2]
_CASES = (_TOP / "crates" / "replayed_cases", _TOP / "rust" / "tests" / "layers")

_ESCAPES = {"n": "\n", "r": "\r", "t": "\t", "\\": "\\"}

# How the table writes the errors of versions, in fields and in reports. The package has no names
# for these, so all are treated as one.
_NO_VERSION = "no version"
_VERSION_ERRORS = re.compile(
    r"\A(?:UnexpectedEnd\Z|UnexpectedToken\(.*|Lexer\(.*|MoreInput\(.*)"
    r"|(?<=\Aversion: )(?:unexpected-(?:end|token|char)|more-input)(?=;)",
    re.S,
)

# How it writes the errors of ranges: by name, as a sentence, and in reports.
_NAMES = {False: "NotARange", True: "NumberTooLarge"}
_SENTENCES = {False: "not a range", True: "number too large"}
_WORDS = {False: "not-a-range", True: "number-too-large"}

# Which pre-releases are included by the functions for which versions satisfy a range.
_RULES = {
    "releases": PreReleases.EXCLUDED,
    "stated": PreReleases.BY_DIALECT,
    "mean": PreReleases.INCLUDED,
}

# The same for the functions that return the highest version, in the crate's npm mode.
_RULES_OF_HIGHEST = {
    "greatest-release": PreReleases.EXCLUDED,
    "greatest-stated": PreReleases.BY_DIALECT,
    "greatest-of-all": PreReleases.INCLUDED,
}


class Row(NamedTuple):
    """A row of a table, and its expected result."""

    call: str
    text: str
    steps: str
    wanted: str


def _unescaped(text: str, place: Optional[int] = None) -> str:
    """Returns a string without repetitions, at an index of a list or at none."""

    def meant(found: "re.Match[str]") -> str:
        character = found.group(1)
        return str(place) if character == "#" else _ESCAPES[character]

    return re.sub(r"(?s)\\(.)", meant, text)


def expanded(escaped: str) -> str:
    """Returns the string that an escaped one of the table stands for."""

    def repeated(found: "re.Match[str]") -> str:
        count, unit, joiner = found.group(1).split(",", 2)
        return _unescaped(joiner).join(_unescaped(unit, place) for place in range(int(count)))

    pieces = re.split(r"(\\\([^)]*\))", escaped)
    return "".join(
        repeated(found) if (found := re.fullmatch(r"(?s)\\\((.*)\)", piece)) else _unescaped(piece)
        for piece in pieces
    )


def rows() -> Iterator[Row]:
    """Yields all rows of the tables."""
    for directory in _CASES:
        asked = (directory / "stdin").read_bytes().decode().split("\n")
        wanted = (directory / "stdout").read_bytes().decode().split("\n")
        assert len(asked) == len(wanted) and asked.pop() == wanted.pop() == ""
        for line, answer in zip(asked, wanted):
            name, call, text, steps = (line.split("\t") + ["", ""])[:4]
            assert answer.startswith(name + ": "), line
            wanted_here = _VERSION_ERRORS.sub(_NO_VERSION, answer[len(name) + 2 :])
            yield Row(call, expanded(text), expanded(steps), wanted_here)


def rows_of_tools() -> Iterator[Tuple[str, str, Row]]:
    """Yields the rows of the tools: the function, the dialect, and the row.

    The function is one of these:

    - `rewritten`: the comparators of a range
    - `meant`, or `meant-with-all` with all pre-releases: the versions that satisfy a range
    - `version`: the fields of a version
    - `refused`, `refused-range`: where and why a version or a range is invalid
    - `upgraded`: a range that is raised to a version
    - `requirement`: the requirement of a range by the rule for pre-releases in the steps
    """
    for row in rows():
        function, _, tool = row.call.partition("-as-")
        if tool:
            yield function, tool, row


def _dialect(npm: bool) -> Dialect:
    """Returns the crate's dialect in one of its modes."""
    return Dialect.CRATE_NPM if npm else Dialect.CRATE_CARGO


def _kinds(identifiers: Tuple[Identifier, ...]) -> str:
    kinds = ("Numeric" if isinstance(it, int) else "AlphaNumeric" for it in identifiers)
    return "[" + " ".join(f"{kind}({it})" for kind, it in zip(kinds, identifiers)) + "]"


def fields_of_version(version: Version) -> str:
    """Returns the fields of a version as the table writes them."""
    pre, build = _kinds(version.pre), _kinds(version.build)
    return f"{version.major} {version.minor} {version.patch} pre{pre} build{build}"


def _fields_of_comparators(comparators: Comparators) -> str:
    return " || ".join(
        " ".join(f"{it.op}{it.major}.{it.minor}.{it.patch}{_kinds(it.pre)}" for it in them)
        for them in comparators
    )


def is_too_large(error: RangeError) -> bool:
    """Returns whether a number in a range is too large."""
    return "too-large" in error.reason


def _of_version(text: str, show: Callable[[Version], str], no_version: str) -> str:
    try:
        return show(Version.parse(text, dialect="crate-cargo"))
    except VersionError:
        return no_version


def _of_range(
    text: str, npm: bool, exact: bool, show: Callable[[Comparators], str], errors: Dict[bool, str]
) -> str:
    dialect = _dialect(npm)
    try:
        if exact:
            return show(Range(text, dialect=dialect).comparators)
        return show(crate_comparators(text, dialect=dialect))
    except RangeError as error:
        return errors[is_too_large(error)]


def _report(text: str) -> str:
    """Returns the lines of the program. Its status is 0 if one of them has a value."""
    version = _of_version(text, str, _NO_VERSION)
    cargo = _of_range(text, False, False, str, _WORDS)
    npm = _of_range(text, True, False, str, _WORDS)
    errors = (_NO_VERSION, *_WORDS.values())
    status = int(all(value in errors for value in (version, cargo, npm)))
    return f"version: {version}; cargo: {cargo}; npm: {npm}; status {status}"


def _of_chosen(
    text: str,
    npm: bool,
    pre_releases: PreReleases,
    steps: str,
    show: Callable[[Range, List[Version]], str],
) -> str:
    dialect = _dialect(npm)
    try:
        chosen = Range(text, dialect=dialect, pre_releases=pre_releases)
    except RangeError as error:
        return _SENTENCES[is_too_large(error)]
    return show(chosen, [Version.parse(it, dialect=dialect) for it in steps.split(" ") if it])


def _filtered(chosen: Range, versions: List[Version]) -> str:
    return "".join(f"{version} " for version in chosen.filter(versions)) + "end"


def _highest(chosen: Range, versions: List[Version]) -> str:
    return str(chosen.highest(versions) or "none")


def _whole(of: Range) -> str:
    return f"{of.printed_releases}, pre-releases {of.printed_pre_releases}"


def _lowest_of(of: Range) -> str:
    return str(of.lowest_version or "none")


def _of_set(call: str, text: str, steps: str) -> str:
    """Returns what the table has for the set of a range, or for those of two; the second one is
    `steps`."""
    what, rule, mode = call.rsplit("-", 2)
    dialect, pre_releases = _dialect(mode == "npm"), _RULES[rule]
    try:
        of = Range(text, dialect=dialect, pre_releases=pre_releases)
        if what == "whole":
            return _whole(of)
        if what == "set":
            filtered = _filtered(of, [Version.parse(it, dialect=dialect) for it in steps.split()])
            release = Range(text, dialect=dialect, pre_releases="excluded")
            return (
                f"{filtered}, least {_lowest_of(of)}, least release {_lowest_of(release)}, "
                f"empty {str(not of).lower()}"
            )
        compared = compare_ranges(text, steps, dialect=dialect, pre_releases=pre_releases)
    except RangeError as error:
        return _SENTENCES[is_too_large(error)]
    parts = [("lost", compared.lost), ("gained", compared.gained), ("shared", compared.shared)]
    if what == "whole-pair":
        return "; ".join(f"{name} {_whole(it)}" for name, it in parts)
    other = Range(steps, dialect=dialect, pre_releases=pre_releases)
    said = {"within": of <= other, "overlaps": not of.isdisjoint(other), "same": of == other}
    assert list(said.values()) == [compared.is_subset, compared.overlaps, compared.is_equal]
    return ", ".join(
        [f"{name} {_lowest_of(it)}" for name, it in parts]
        + [f"{name} {str(it).lower()}" for name, it in said.items()]
    )


def answer(call: str, text: str, steps: str) -> Optional[str]:
    """Returns what the package returns for a row, as the table writes it, or None if it has no such
    function."""
    name, _, last = call.partition("-")
    npm = "npm" in call
    if call in ("version", "read"):
        return _of_version(text, fields_of_version, _NO_VERSION if call == "version" else "none")
    if call == "version-text":
        return _of_version(text, str, _NO_VERSION)
    if call in ("cargo", "npm"):
        answered = _of_range(text, npm, False, _fields_of_comparators, _NAMES)
        # The table also has the mode of the crate's range set.
        return answered if answered in _NAMES.values() else f"{call.title()} {answered}"
    if call in ("cargo-text", "npm-text", "from-str", "cargo-exact", "npm-exact"):
        return _of_range(text, npm, last == "exact", str, _SENTENCES)
    if call == "report":
        return _report(text)
    if name in _RULES and last in ("cargo", "npm"):
        return _of_chosen(text, npm, _RULES[name], steps, _filtered)
    if re.fullmatch(r"(set|pair|whole|whole-pair)-(releases|stated|mean)-(cargo|npm)", call):
        return _of_set(call, text, steps)
    if call in _RULES_OF_HIGHEST:
        return _of_chosen(text, True, _RULES_OF_HIGHEST[call], steps, _highest)
    return None


def checksum(text: str) -> str:
    """Returns what the table has instead of a long result."""
    answered = text.encode()
    return f"{len(answered)} bytes, Adler-32 {zlib.adler32(answered):08x}"
