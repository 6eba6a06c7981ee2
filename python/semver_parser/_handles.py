"""Ranges in the memory of the library."""

import ctypes
from typing import Any, Callable, Tuple

from ._errors import RangeError
from ._interface import (
    DIFFERENT_DIALECTS,
    DIFFERENT_PRE_RELEASES,
    INVALID_RANGE,
    NUMBER_TOO_LARGE,
)
from ._library import LIBRARY, check
from ._options import Dialect, PreReleases, c_options
from ._strings import String, c_string


class Handle(int):
    """The address of a range, which is freed when nothing refers to this object any more.

    It is an `int` without fields, so the garbage collector, which finalizes the objects of a cycle
    in any order, doesn't track it. It is freed only when its reference count is zero. So whatever
    can still reach it can use it, also while the interpreter shuts down. A forked process has its
    own copy.
    """

    __slots__ = ()

    # The function is a default value, since the names of modules may be gone while the interpreter
    # shuts down.
    def __del__(self, free: Callable[[int], None] = LIBRARY.semver_parser_range_free) -> None:
        free(self)

    def __reduce__(self) -> Tuple[Any, ...]:
        raise TypeError("a range of the library can't be copied")


def parsed(range: String, dialect: Dialect, pre_releases: PreReleases) -> Handle:
    """Returns the range that a string has. Raises `RangeError` if it isn't a range."""
    made = ctypes.c_void_p()
    status = LIBRARY.semver_parser_range_parse(
        c_string(range), c_options(dialect, pre_releases), made, None
    )
    if status in (INVALID_RANGE, NUMBER_TOO_LARGE):
        raise RangeError(range, dialect)
    check(status)
    return Handle(made.value or 0)


def combined(function: Callable[..., int], one: Handle, other: Handle) -> Handle:
    """Returns the range that a function makes of two. Raises `DifferentOptions`."""
    made = ctypes.c_void_p()
    _check_both(function(one, other, made, None))
    return Handle(made.value or 0)


def holds(function: Callable[..., int], one: Handle, other: Handle) -> bool:
    """Returns what a function reports for two ranges. Raises `DifferentOptions`."""
    said = ctypes.c_bool()
    _check_both(function(one, other, said, None))
    return said.value


class DifferentOptions(Exception):
    """Two ranges have different options. The message says which. The error doesn't leave the
    package."""


def _check_both(status: int) -> None:
    """Raises the error of a status for two ranges, unless it is success."""
    if status in (DIFFERENT_DIALECTS, DIFFERENT_PRE_RELEASES):
        raise DifferentOptions(LIBRARY.semver_parser_status_text(status).decode("utf-8"))
    check(status)
