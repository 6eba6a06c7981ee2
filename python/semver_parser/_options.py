"""Whose rules apply, and which pre-releases satisfy a range."""

import enum
from typing import Callable, Dict, List, Literal, Optional, Type, TypeVar, Union

from ._interface import COptions
from ._library import LIBRARY


class Dialect(enum.Enum):
    """Whose rules apply to ranges and versions. Each `dialect=` accepts a member or its value.

    >>> Dialect("npm")
    <Dialect.NPM: 'npm'>
    """

    CARGO = "cargo"
    """Cargo: `1.2` is `>=1.2.0 <2.0.0`, and commas separate comparators. Versions are those of
    SemVer 2.0.0."""
    NPM = "npm"
    """npm: `1.2` is `>=1.2.0 <1.3.0`, and `>1.2` is `>=1.3.0`. A version may have a `v` and white
    space around it. Numbers go up to 2**53 - 1, and versions have at most 256 characters."""
    CRATE_CARGO = "crate-cargo"
    """The Rust crate `semver-parser` in its Cargo mode, which isn't Cargo's dialect: `1.2` is
    `>=1.2.0 <1.3.0`."""
    CRATE_NPM = "crate-npm"
    """The same crate in its npm mode, which isn't npm's dialect: `>1.2` is `>1.2.0`."""

    _number: int

    # Hashes the identity, since members are compared by identity. The method of `enum` is slower,
    # since it is written in Python.
    __hash__ = object.__hash__


class PreReleases(enum.Enum):
    """Which pre-releases satisfy a range. Each `pre_releases=` accepts a member or its value.

    >>> PreReleases("included")
    <PreReleases.INCLUDED: 'included'>
    """

    BY_DIALECT = "by-dialect"
    """Those that Cargo and npm match by default: `^1.2.3-rc` contains 1.2.3-rc.1, not
    1.3.0-rc."""
    INCLUDED = "included"
    """All within the bounds: `^1.2.3` contains 1.3.0-rc, not 2.0.0-rc."""
    EXCLUDED = "excluded"
    """None."""

    _number: int


AnyDialect = Union[Dialect, Literal["cargo", "npm", "crate-cargo", "crate-npm"]]
"""A dialect, or the value of one."""

AnyPreReleases = Union[PreReleases, Literal["by-dialect", "included", "excluded"]]
"""Which pre-releases satisfy a range: a member, or the value of one."""

_Option = TypeVar("_Option", Dialect, PreReleases)


def _numbered(kind: Type[_Option], name_of: Callable[[int], Optional[bytes]]) -> Dict[str, _Option]:
    """Returns the options of a kind by their values, and gives each its number. The numbers count
    from 0, and the library has a name for each."""
    names: List[str] = []
    while (name := name_of(len(names))) is not None:
        names.append(name.decode("ascii"))
    for it in kind:
        if it.value not in names:
            raise ImportError(f"the library of semver_parser has no {kind.__name__} {it.value!r}")
        it._number = names.index(it.value)
    return {it.value: it for it in kind}


_DIALECTS = _numbered(Dialect, LIBRARY.semver_parser_dialect_name)
_PRE_RELEASES = _numbered(PreReleases, LIBRARY.semver_parser_pre_releases_name)


def _refusal(kind: Type[_Option], value: object, name: str) -> Exception:
    """Returns the error for a value that isn't an option."""
    values = ", ".join(repr(it.value) for it in kind)
    if isinstance(value, str):
        return ValueError(f"{name} is one of {values}, not {value!r}")
    return TypeError(f"{name} is a {kind.__name__} or one of {values}, not {value!r}")


def dialect_of(dialect: AnyDialect) -> Dialect:
    """Returns the dialect that is given. Raises `TypeError` or `ValueError` for anything else."""
    if isinstance(dialect, Dialect):
        return dialect
    if isinstance(dialect, str) and dialect in _DIALECTS:
        return _DIALECTS[dialect]
    raise _refusal(Dialect, dialect, "dialect")


def pre_releases_of(pre_releases: AnyPreReleases) -> PreReleases:
    """Returns the rule that is given, as `dialect_of` does for a dialect."""
    if isinstance(pre_releases, PreReleases):
        return pre_releases
    if isinstance(pre_releases, str) and pre_releases in _PRE_RELEASES:
        return _PRE_RELEASES[pre_releases]
    raise _refusal(PreReleases, pre_releases, "pre_releases")


def c_options(dialect: Dialect, pre_releases: PreReleases) -> COptions:
    """Returns the options as the library takes them."""
    return COptions(dialect._number, pre_releases._number)
