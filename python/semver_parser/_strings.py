"""The strings of versions and ranges that are passed to the library, and those that it returns."""

import ctypes
from itertools import accumulate
from typing import Any, Callable, List, Optional, Union

from ._interface import CString
from ._library import LIBRARY, check

String = Union[str, bytes]
"""A version or a range as a string; `bytes` are UTF-8."""


def encoded(string: String) -> bytes:
    """Returns the bytes of a string. If a `str` has a surrogate, the library rejects its bytes."""
    if isinstance(string, str):
        return string.encode("utf-8", "surrogatepass")
    if isinstance(string, bytes):
        return string
    raise TypeError(f"expected str or bytes, not {type(string).__name__}")


def c_string(string: String) -> CString:
    """Returns a string in the form in which the library accepts it."""
    data = encoded(string)
    return CString(data, len(data))


def c_strings(strings: List[String]) -> "ctypes.Array[CString]":
    """Returns an array of strings in the form in which the library accepts it."""
    array = (CString * len(strings))()
    for item, string in zip(array, strings):
        item.data = data = encoded(string)
        item.length = len(data)
    return array


_CONTINUATIONS = bytes(range(0x80, 0xC0))
"""The bytes of UTF-8 that don't begin a character."""


def index_of(string: String, offset: int) -> int:
    """Returns the index of the character of a string that is at a byte offset. If the offset is
    within a character, it is the index of the next one."""
    if isinstance(string, bytes):
        return offset
    return len(encoded(string)[:offset].translate(None, _CONTINUATIONS))


def indices_in(string: String) -> Callable[[int], int]:
    """Returns a function that does the same as `index_of` for one string. It scans the string only
    once, and not for each offset."""
    if isinstance(string, bytes) or string.isascii():
        return int
    begins = (byte & 0xC0 != 0x80 for byte in encoded(string))
    return list(accumulate(begins, initial=0)).__getitem__


def printed(function: Callable[..., int], *arguments: Any) -> str:
    """Returns the string that a function of the library makes; an empty string if it makes none."""
    return printed_or_none(function, *arguments) or ""


def printed_or_none(function: Callable[..., int], *arguments: Any) -> Optional[str]:
    """Returns the string that a function of the library makes; None if it makes none."""
    string = ctypes.c_char_p()
    check(function(*arguments, string))
    return taken(string)


def taken(string: ctypes.c_char_p) -> Optional[str]:
    """Returns a string that the library made, and frees it; None if it made none."""
    try:
        return None if string.value is None else string.value.decode("utf-8")
    finally:
        LIBRARY.semver_parser_free(string)


class Printed:
    """A class whose objects are formatted as their strings are: `f"{version:>12}"`."""

    __slots__ = ()

    def __format__(self, specification: str) -> str:
        return format(str(self), specification)
