"""The shared library: where it is looked for, whether it is compatible, and which errors its
statuses raise."""

import ctypes
import os
import sys
from typing import List, Tuple

from ._interface import OK, OUT_OF_MEMORY, declare

FITTING = (1,)
"""The beginning of the versions that are compatible: the major version."""

_NAMES = {"win32": "semver_parser.dll", "darwin": "libsemver_parser.dylib"}

NAME = _NAMES.get(sys.platform, "libsemver_parser.so." + ".".join(map(str, FITTING)))
"""The file name of the library, for the system and next to the package's modules."""

VARIABLE = "SEMVER_PARSER_LIBRARY"
"""The environment variable with the path of a library, which is used instead of any other."""


def _places() -> List[Tuple[str, str]]:
    """Returns the paths that are tried in turn, each with a description."""
    named = os.environ.get(VARIABLE)
    if named:
        return [(os.path.abspath(named), f"which {VARIABLE} names")]
    beside = os.path.join(os.path.dirname(os.path.abspath(__file__)), NAME)
    return [(beside, "beside the package"), (NAME, "where the system looks for libraries")]


def load() -> ctypes.CDLL:
    """Returns the first library that can be loaded. Raises `ImportError` if it isn't compatible, or
    if none can be loaded."""
    refusals = []
    for path, where in _places():
        try:
            library = ctypes.CDLL(path)
        except OSError as error:
            refusals.append(f"  {path}, {where}: {str(error).removeprefix(path + ': ')}")
            continue
        _refuse_another_version(library, path)
        declare(library, path)
        return library
    raise ImportError(
        "semver_parser needs its shared library, and found none that can be loaded. It looked for\n"
        + "\n".join(refusals)
        + f"\nIf the library is elsewhere, set {VARIABLE} to its path."
    )


def _refuse_another_version(library: ctypes.CDLL, path: str) -> None:
    """Raises `ImportError` if the library's version isn't compatible with this package."""
    fitting = ".".join(map(str, FITTING))
    try:
        function = library.semver_parser_library_version
    except AttributeError:
        raise ImportError(
            f"{path} doesn't report its version, and semver_parser needs version {fitting} of it"
        ) from None
    function.argtypes, function.restype = [], ctypes.c_char_p
    version = function().decode("ascii", "replace")
    if version.split(".")[: len(FITTING)] != fitting.split("."):
        raise ImportError(
            f"{path} has version {version}, and semver_parser needs version {fitting} of it"
        )


LIBRARY = load()
"""The library of this process."""


def failure(status: int) -> Exception:
    """Returns the error for a status that isn't about a string: `MemoryError` if an allocation
    failed. There are no other such statuses."""
    if status == OUT_OF_MEMORY:
        return MemoryError()
    return AssertionError(f"the library returned status {status}")


def check(status: int) -> None:
    """Raises the error of a status, unless it is success."""
    if status != OK:
        raise failure(status)
