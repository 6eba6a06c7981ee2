"""Versions as plain data, and their precedence."""

import ctypes
import re
import struct
from typing import Any, Optional, Tuple, Union, final, overload

from ._errors import VersionError
from ._interface import INVALID_VERSION, OK, CVersion
from ._library import LIBRARY, failure
from ._options import AnyDialect, dialect_of
from ._strings import Printed, String, c_string

Identifier = Union[int, str]
"""An identifier of a pre-release or of build metadata.

If it is a number up to 2**64 - 1 without leading zeros, such as `7`, it is an `int`. Otherwise it
is a `str`, such as `rc`, `07` and `18446744073709551616`.
"""

PrecedenceKey = Tuple[int, int, int, bool, Tuple[Tuple[Any, ...], ...]]
"""What `precedence` returns. Such keys can only be compared with each other."""

_MOST = 2**64 - 1
_LONGEST_NUMBER = len(str(_MOST))

# An identifier of a version, by SemVer 2.0.0. Some dialects accept fewer.
_IDENTIFIER = re.compile(r"[0-9A-Za-z-]+")

# The fields of a `CVersion`, all at once.
_fields_of = struct.Struct("@QQQPNPN").unpack_from


def _is_number(identifier: str) -> bool:
    """Whether an ASCII identifier is a number, of any size, without leading zeros."""
    return identifier.isdecimal() and (identifier[0] != "0" or identifier == "0")


def _identifier_of(string: str) -> Identifier:
    """The identifier of an ASCII string."""
    if len(string) > _LONGEST_NUMBER or not _is_number(string):
        return string
    number = int(string)
    return number if number <= _MOST else string


def _identifiers_of(joined: str) -> Tuple[Identifier, ...]:
    """Identifiers that are separated by dots; of an empty string none."""
    return tuple(map(_identifier_of, joined.split("."))) if joined else ()


def joined(identifiers: Tuple[Identifier, ...]) -> str:
    """Returns identifiers, separated by dots."""
    return ".".join(map(str, identifiers))


def printed_version(major: int, minor: int, patch: int, pre: str, build: str) -> str:
    """Returns the string of a version, whose identifiers are joined."""
    return f"{major}.{minor}.{patch}{pre and '-' + pre}{build and '+' + build}"


def fields_of_printed(printed: str) -> Tuple[int, int, int, Tuple[Identifier, ...]]:
    """Returns the numbers and the pre-release of a version that the library printed. It has no
    build metadata. In the crate's dialects it can have identifiers that no version has there, so
    `Version.parse` can't be used for it."""
    numbers, _, pre = printed.partition("-")
    major, minor, patch = map(int, numbers.split("."))
    return major, minor, patch, _identifiers_of(pre)


def _check_number(name: str, value: object) -> None:
    """Raises an error if a value isn't a number that fits. A `bool` isn't a number here, since it
    is printed as a word."""
    if not isinstance(value, int) or isinstance(value, bool):
        raise TypeError(f"{name} is an int, not {type(value).__name__}")
    if not 0 <= value <= _MOST:
        raise ValueError(f"{name} is a number from 0 to 2**64 - 1, not {value}")


def _check_identifiers(name: str, identifiers: object) -> None:
    """Raises an error if a value isn't a tuple of identifiers."""
    if not isinstance(identifiers, tuple):
        raise TypeError(f"{name} is a tuple, not {type(identifiers).__name__}")
    for it in identifiers:
        if not isinstance(it, str):
            _check_number(f"an identifier of {name} that isn't a str", it)
        elif not _IDENTIFIER.fullmatch(it):
            raise ValueError(f"no identifier of a version, in {name}: {it!r}")
        elif isinstance(_identifier_of(it), int):
            raise ValueError(f"an identifier of {name} is a number, so it is an int: {it!r}")


def _keys_of(joined: str) -> Tuple[Tuple[Any, ...], ...]:
    """The keys of identifiers that are joined: numbers by their length and digits, then others."""
    identifiers = joined.split(".") if joined else ()
    return tuple((0, len(it), it) if _is_number(it) else (1, it) for it in identifiers)


@final
class Version(Printed):
    """A version: the numbers `major`, `minor` and `patch`, and the identifiers of its pre-release
    (`pre`) and its build metadata (`build`).

    >>> version = Version(1, 2, 3, ("rc", 1))
    >>> str(version), version < Version(1, 2, 3), version.is_prerelease
    ('1.2.3-rc.1', True, True)

    `<`, `<=`, `>` and `>=` compare by precedence (SemVer 2.0.0, section 11), and so do `sorted`,
    `min` and `max`. Versions of equal precedence are ordered by their build metadata: a version
    without any comes first, and others are compared as pre-releases are. So two versions are equal
    only if all their fields are equal.

    Versions are immutable, and have no dialect: `Version(..)` makes one of its fields, and `parse`
    reads a string in a dialect. `Version(..)` raises

    - `TypeError` if a number isn't an `int`, if the identifiers aren't a `tuple`, or if one of them
      is neither an `int` nor a `str`;
    - `ValueError` if a number isn't from 0 to 2**64 - 1, if a `str` isn't an identifier, or if it
      is an identifier that has to be an `int`.
    """

    __slots__ = ("_major", "_minor", "_patch", "_pre", "_build", "_order", "__weakref__")
    __match_args__ = ("major", "minor", "patch", "pre", "build")

    # Identifiers are joined, and split when they are used. The key of the order is made then, too.
    _major: int
    _minor: int
    _patch: int
    _pre: str
    _build: str
    _order: Optional[Tuple[Any, ...]]

    def __new__(
        cls,
        major: int,
        minor: int,
        patch: int,
        pre: Tuple[Identifier, ...] = (),
        build: Tuple[Identifier, ...] = (),
    ) -> "Version":
        for name, number in (("major", major), ("minor", minor), ("patch", patch)):
            _check_number(name, number)
        _check_identifiers("pre", pre)
        _check_identifiers("build", build)
        made = object.__new__(cls)
        made._major, made._minor, made._patch = major, minor, patch
        made._pre, made._build, made._order = joined(pre), joined(build), None
        return made

    @classmethod
    def parse(cls, version: String, *, dialect: AnyDialect) -> "Version":
        """Returns the version that a string has in a dialect.

        >>> Version.parse("1.2.3-rc.1+b5", dialect="cargo")
        Version(major=1, minor=2, patch=3, pre=('rc', 1), build=('b5',))
        >>> str(Version.parse("v1.2.3", dialect="npm"))
        '1.2.3'

        Raises `VersionError` if the string is invalid in the dialect.
        """
        chosen, given, parsed = dialect_of(dialect), c_string(version), CVersion()
        status = LIBRARY.semver_parser_parse_version(given, chosen._number, parsed, None)
        if status != OK:
            raise VersionError(version, chosen) if status == INVALID_VERSION else failure(status)
        made = object.__new__(cls)
        made._major, made._minor, made._patch, pre, pre_length, build, build_length = _fields_of(
            parsed
        )
        made._pre = ctypes.string_at(pre, pre_length).decode("ascii") if pre_length else ""
        made._build = ctypes.string_at(build, build_length).decode("ascii") if build_length else ""
        made._order = None
        return made

    @property
    def major(self) -> int:
        """The first number."""
        return self._major

    @property
    def minor(self) -> int:
        """The second number."""
        return self._minor

    @property
    def patch(self) -> int:
        """The third number."""
        return self._patch

    @property
    def pre(self) -> Tuple[Identifier, ...]:
        """The identifiers of the pre-release."""
        return _identifiers_of(self._pre)

    @property
    def build(self) -> Tuple[Identifier, ...]:
        """The identifiers of the build metadata."""
        return _identifiers_of(self._build)

    @property
    def is_prerelease(self) -> bool:
        """Whether there is a pre-release."""
        return self._pre != ""

    def __str__(self) -> str:
        return printed_version(self._major, self._minor, self._patch, self._pre, self._build)

    def __repr__(self) -> str:
        fields = (f"{name}={getattr(self, name)!r}" for name in self.__match_args__)
        return f"Version({', '.join(fields)})"

    def _key(self) -> Tuple[Any, ...]:
        """The key of the order: that of precedence, and then that of build metadata."""
        if self._order is None:
            numbers = (self._major, self._minor, self._patch)
            key = (*numbers, not self._pre, _keys_of(self._pre))
            self._order = (*key, _keys_of(self._build)) if self._build else key
        return self._order

    def __eq__(self, other: object) -> bool:
        if not isinstance(other, Version):
            return NotImplemented
        return self._key() == other._key()

    def __hash__(self) -> int:
        return hash(self._key())

    def __lt__(self, other: "Version") -> bool:
        return self._key() < other._key() if isinstance(other, Version) else NotImplemented

    def __le__(self, other: "Version") -> bool:
        return self._key() <= other._key() if isinstance(other, Version) else NotImplemented

    def __gt__(self, other: "Version") -> bool:
        return self._key() > other._key() if isinstance(other, Version) else NotImplemented

    def __ge__(self, other: "Version") -> bool:
        return self._key() >= other._key() if isinstance(other, Version) else NotImplemented

    def __reduce__(self) -> Tuple[Any, ...]:
        return Version, (self._major, self._minor, self._patch, self.pre, self.build)


AnyVersion = Union[str, bytes, Version]
"""A version, as a string or parsed."""


@overload
def precedence(version: Version) -> PrecedenceKey: ...
@overload
def precedence(version: AnyVersion, *, dialect: AnyDialect) -> PrecedenceKey: ...
def precedence(version: AnyVersion, *, dialect: Optional[AnyDialect] = None) -> PrecedenceKey:
    """Returns a key that orders versions by precedence, which ignores build metadata. A string
    needs a dialect.

    >>> precedence(Version(1, 0, 0, (), ("a",))) == precedence("1.0.0+b", dialect="cargo")
    True
    >>> sorted(["1.10.0", "1.9.0"], key=lambda it: precedence(it, dialect="npm"))
    ['1.9.0', '1.10.0']

    Versions that differ only in build metadata have the same key, so it can also be the key of a
    `dict`, or that of `groupby`. This is Python code, which is tested and not proved.

    Raises `VersionError` if a string is invalid, and `TypeError` if it is passed without a dialect.
    """
    if not isinstance(version, Version):
        if dialect is None:
            what = type(version).__name__
            raise TypeError(f"precedence takes a Version, or a string with a dialect, not {what}")
        version = Version.parse(version, dialect=dialect)
    return version._key()[:5]  # type: ignore[return-value]


def string_of(version: AnyVersion) -> String:
    """Returns the string of a version. A `Version` is printed."""
    return str(version) if isinstance(version, Version) else version
