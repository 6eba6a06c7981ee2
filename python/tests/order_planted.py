"""Errors that make a result depend on earlier calls, or on other threads. Each is planted in the
modules of the package by a function, and `order` has to find it."""

import ctypes
import sys
from typing import Any, Callable, Dict, List, Tuple

from semver_parser import _handles, _interface, _strings, _versions


def _replace(name: str, value: Any) -> None:
    """Replaces a function in each module of the package that has it."""
    for module in [it for name, it in sys.modules.items() if name.startswith("semver_parser.")]:
        if hasattr(module, name):
            setattr(module, name, value)


def _last_string_by_length() -> None:
    last: List[Any] = []
    c_string = _strings.c_string

    def kept(string: Any) -> Any:
        made = c_string(string)
        if not last or last[0].length != made.length:
            last[:] = [made]
        return last[0]

    _replace("c_string", kept)


def _range_by_string() -> None:
    made: Dict[Any, Any] = {}
    parsed = _handles.parsed

    def kept(string: Any, dialect: Any, pre_releases: Any) -> Any:
        if string not in made:
            made[string] = parsed(string, dialect, pre_releases)
        return made[string]

    _handles.parsed = kept


def _printed_by_address() -> None:
    made: Dict[Any, str] = {}
    printed = _strings.printed

    def kept(function: Any, *arguments: Any) -> str:
        key = (id(function), *(getattr(it, "value", it) for it in arguments))
        if key not in made:
            made[key] = printed(function, *arguments)
        return made[key]

    _replace("printed", kept)


def _shared_version() -> None:
    shared = _interface.CVersion()
    _versions.CVersion = lambda: shared  # type: ignore[misc,assignment]


def _shared_flag() -> None:
    said = ctypes.c_bool()

    def holds(function: Any, one: Any, other: Any) -> bool:
        function(one, other, said)
        return said.value

    _handles.holds = holds


PLANTED: List[Tuple[str, Callable[[], None]]] = [
    ("a string counts as the last one if it has its length", _last_string_by_length),
    ("a range is kept by its string, whatever the options", _range_by_string),
    ("what was printed is kept by the address of a range", _printed_by_address),
    ("threads share the version that is read", _shared_version),
    ("threads share the output of a comparison", _shared_flag),
]
