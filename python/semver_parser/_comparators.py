"""The plain comparators to which a range is rewritten."""

import ctypes
import enum
from dataclasses import dataclass
from typing import Literal, Tuple, final

from ._errors import RangeError
from ._interface import INVALID_RANGE, NUMBER_TOO_LARGE
from ._library import LIBRARY, check
from ._options import Dialect, dialect_of
from ._strings import Printed, String, c_string, printed
from ._versions import Identifier, fields_of_printed, joined, printed_version


class Op(enum.Enum):
    """How a comparator compares."""

    LT = "<"
    """Below."""
    LTE = "<="
    """Below or equal."""
    GT = ">"
    """Above."""
    GTE = ">="
    """Above or equal."""
    EQ = "="
    """Equal."""

    def __str__(self) -> str:
        return self.value


@dataclass(frozen=True)
class Comparator(Printed):
    """A comparator: an operator (`op`), and the version with which it compares. The version has the
    numbers `major`, `minor` and `patch`, and the identifiers of a pre-release (`pre`).

    >>> str(Comparator(Op.LT, 2, 0, 0, (0,)))
    '<2.0.0-0'

    An identifier that has only digits, with or without leading zeros, is an `int` if its value is
    at most 2**64 - 1.
    """

    op: Op
    major: int
    minor: int
    patch: int
    pre: Tuple[Identifier, ...] = ()

    def __str__(self) -> str:
        pre = joined(self.pre)
        return self.op.value + printed_version(self.major, self.minor, self.patch, pre, "")


@final
class Comparators(Tuple[Tuple[Comparator, ...], ...], Printed):
    """Tuples of comparators. A release satisfies the range if it satisfies all comparators of at
    least one tuple. For pre-releases use the `Range`.

    >>> from semver_parser import Range
    >>> comparators = Range("^1.2 || 3.x", dialect="npm").comparators
    >>> str(comparators), comparators[1][0].major
    ('>=1.2.0 <2.0.0-0 || >=3.0.0 <4.0.0-0', 3)
    """

    __slots__ = ()

    def __str__(self) -> str:
        return " || ".join(" ".join(map(str, them)) for them in self)


def comparators_of(range: String, dialect: Dialect, is_exact: bool) -> Comparators:
    """Returns the comparators of a range. Raises `RangeError` if the string isn't a range."""
    listed = ctypes.c_void_p()
    status = LIBRARY.semver_parser_comparators_of_range(
        c_string(range), dialect._number, is_exact, listed, None
    )
    if status in (INVALID_RANGE, NUMBER_TOO_LARGE):
        raise RangeError(range, dialect)
    check(status)
    try:
        text = printed(LIBRARY.semver_parser_comparators_to_string, listed)
    finally:
        LIBRARY.semver_parser_comparators_free(listed)
    return Comparators(tuple(map(_comparator, it.split(" "))) for it in text.split(" || "))


def _comparator(text: str) -> Comparator:
    """Returns a comparator that the library printed."""
    version = text.lstrip("<>=")
    return Comparator(Op(text[: -len(version)]), *fields_of_printed(version))


def crate_comparators(
    range: String,
    *,
    dialect: Literal["crate-cargo", "crate-npm", Dialect.CRATE_CARGO, Dialect.CRATE_NPM],
) -> Comparators:
    """Returns the comparators of the `RangeSet` that the Rust crate `semver-parser` makes of a
    range.

    >>> str(crate_comparators("^1.2", dialect="crate-npm"))
    '>=1.2.0 <2.0.0'

    The crate's bounds aren't exact: 2.0.0-rc satisfies these comparators, but not the range. Its
    `Range.comparators` are `>=1.2.0 <2.0.0-0`.

    Raises `RangeError` if the string isn't a range in the dialect.
    """
    chosen = dialect_of(dialect)
    if chosen not in (Dialect.CRATE_CARGO, Dialect.CRATE_NPM):
        raise ValueError(f"dialect is 'crate-cargo' or 'crate-npm', not {chosen.value!r}")
    return comparators_of(range, chosen, False)
