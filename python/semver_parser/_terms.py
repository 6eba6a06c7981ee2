"""The terms of a range, as they are written."""

import ctypes
from dataclasses import dataclass
from typing import Callable, Dict, List, Literal, Optional, Union, cast

from ._errors import RangeError, VersionError
from ._interface import INVALID_RANGE, INVALID_VERSION, NUMBER_TOO_LARGE
from ._interface import CComponent, CPartialVersion, CString, CTerm
from ._library import LIBRARY, check
from ._options import AnyDialect, Dialect, dialect_of
from ._strings import String, c_string, indices_in, taken
from ._versions import Version

Component = Union[int, Literal["x", "X", "*"]]
"""A component of a version in a range: a number, or a wildcard as it is written."""

TermOperator = Literal["", "=", "<", "<=", ">", ">=", "~", "^", "-"]
"""The operator of a term: "~" also for `~>`, and "-" for a hyphen range."""

_NUMBER, _WILDCARD, _HYPHEN = 1, 2, 8
_WILDCARDS: Dict[int, Literal["x", "X", "*"]] = {ord("x"): "x", ord("X"): "X", ord("*"): "*"}


@dataclass(frozen=True)
class PartialVersion:
    """A version as it is written in a term of a range.

    - `start`, `end`: where it is in the string of the range, including its `v`.
    - `has_v`: whether it begins with `v`.
    - `major`, `minor`, `patch`: its components. A wildcard is "x", "X" or "*", as it is written, and
      a component that isn't written is None. A number above 2**64 - 1, which is possible only after
      a wildcard, is given as 2**64 - 1.
    - `pre`, `build`: the pre-release and the build metadata, without `-` and `+`. They are empty
      strings if they aren't written.
    """

    start: int
    end: int
    has_v: bool
    major: Component
    minor: Optional[Component]
    patch: Optional[Component]
    pre: str
    build: str


@dataclass(frozen=True)
class Term:
    """A term of a range, as it is written.

    - `range`: how many `||` are before it.
    - `operator`: "", "=", "<", "<=", ">", ">=", "~", "^", or "-" for a hyphen range.
    - `start`, `end`: where it is in the string of the range.
    - `version`: its version; in a hyphen range, the one before the hyphen.
    - `upper`: in a hyphen range, the version after the hyphen; otherwise None.
    """

    range: int
    operator: TermOperator
    start: int
    end: int
    version: PartialVersion
    upper: Optional[PartialVersion]


def terms(range: String, *, dialect: AnyDialect) -> List[Term]:
    """Returns the terms of a range as they are written, and where they are in its string.

    >>> found = terms("~1.2 || >=2.0.0-rc.1 <4", dialect="npm")
    >>> [(term.range, term.operator, term.version.major) for term in found]
    [(0, '~', 1), (1, '>=', 2), (1, '<', 4)]

    `replace_version` replaces the version of a term.

    Raises `RangeError` if the string isn't a range in the dialect.
    """
    return terms_of(range, dialect_of(dialect))


def terms_of(range: String, dialect: Dialect) -> List[Term]:
    """Returns the terms of a range in a dialect."""
    string, index_at = c_string(range), indices_in(range)
    return [_term(term, index_at) for term in _read(range, string, dialect)]


def _read(range: String, string: CString, dialect: Dialect) -> "ctypes.Array[CTerm]":
    """Returns the terms of a range as the library reads them. Parts of them are in `string`."""
    count = ctypes.c_size_t()
    status = LIBRARY.semver_parser_terms_of_range(string, dialect._number, None, 0, count, None)
    if status in (INVALID_RANGE, NUMBER_TOO_LARGE):
        raise RangeError(range, dialect)
    check(status)
    found = (CTerm * count.value)()
    check(
        LIBRARY.semver_parser_terms_of_range(
            string, dialect._number, found, len(found), count, None
        )
    )
    return found


def replace_version(
    range: String, written: PartialVersion, version: Union[String, Version], *, dialect: AnyDialect
) -> str:
    """Returns a range in which a version of a term has the numbers of another version.

    The form of the version in the range is kept: how many components it has, its wildcards and its
    `v`. If it has three numbers, the pre-release of the other version is written, too; the build
    metadata of the other version never is.

    >>> range = "~1.2 || ^2.x"
    >>> last = terms(range, dialect="npm")[-1]
    >>> replace_version(range, last.version, "3.1.4", dialect="npm")
    '~1.2 || ^3.x'

    Raises `RangeError` if the string isn't a range in the dialect, `VersionError` if the other
    version is invalid, `ValueError` if the range doesn't have the version `written` where that is,
    and `TypeError` if `written` isn't a version of a term. Replace several versions from the last
    one to the first, so that the others stay where they are. The result may be invalid if the
    other version is at one of the dialect's limits.
    """
    if not isinstance(written, PartialVersion):
        raise TypeError(f"not a PartialVersion of a term: {written!r}")
    dialect = dialect_of(dialect)
    other = str(version) if isinstance(version, Version) else version
    string, index_at = c_string(range), indices_in(range)
    found = (it for term in _read(range, string, dialect) for it in _versions(term))
    same = next((it for it in found if _version(it, index_at) == written), None)
    if same is None:
        raise ValueError(f"the range doesn't have this version at index {written.start}")
    replaced = ctypes.c_char_p()
    status = LIBRARY.semver_parser_replace_version(
        string, same, c_string(other), dialect._number, replaced, None
    )
    if status == INVALID_VERSION:
        raise VersionError(other, dialect)
    check(status)
    return taken(replaced) or ""


def _term(term: CTerm, index_at: Callable[[int], int]) -> Term:
    """Returns a term that the library read."""
    sign = LIBRARY.semver_parser_operator_sign(term.op)
    return Term(
        term.range,
        cast(TermOperator, sign.decode("ascii")),
        index_at(term.start),
        index_at(term.end),
        _version(term.version, index_at),
        _version(term.upper, index_at) if term.op == _HYPHEN else None,
    )


def _versions(term: CTerm) -> List[CPartialVersion]:
    """Returns the one or two versions of a term."""
    return [term.version, term.upper] if term.op == _HYPHEN else [term.version]


def _version(version: CPartialVersion, index_at: Callable[[int], int]) -> PartialVersion:
    """Returns a version that the library read."""
    major = _component(version.major)
    assert major is not None  # a version has at least one component
    return PartialVersion(
        index_at(version.start),
        index_at(version.end),
        version.has_v,
        major,
        _component(version.minor),
        _component(version.patch),
        ctypes.string_at(version.pre, version.pre_length).decode("ascii"),
        ctypes.string_at(version.build, version.build_length).decode("ascii"),
    )


def _component(component: CComponent) -> Optional[Component]:
    """The component that the library read."""
    if component.kind == _NUMBER:
        return int(component.number)
    return _WILDCARDS[component.number] if component.kind == _WILDCARD else None
