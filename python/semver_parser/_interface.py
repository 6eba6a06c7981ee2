"""The declarations of the C header: its structures, its functions and the numbers of its
statuses."""

import ctypes
from typing import Any, Dict, List, Tuple

OK = 0
INVALID_RANGE = 1
NUMBER_TOO_LARGE = 2
INVALID_VERSION = 3
INVALID_ARGUMENT = 5
OUT_OF_MEMORY = 4
DIFFERENT_DIALECTS = 6
DIFFERENT_PRE_RELEASES = 7
CANNOT_UPGRADE = 8


class CString(ctypes.Structure):
    """A string that is passed to a function. It keeps its bytes alive."""

    _fields_ = [("data", ctypes.c_char_p), ("length", ctypes.c_size_t)]


class COptions(ctypes.Structure):
    """A dialect and a rule for pre-releases, by their numbers."""

    _fields_ = [
        ("dialect", ctypes.c_int32),
        ("pre_releases", ctypes.c_int32),
        ("reserved", ctypes.c_int32 * 6),
    ]


class CError(ctypes.Structure):
    """Where and why a string is invalid."""

    _fields_ = [
        ("status", ctypes.c_int32),
        ("reason", ctypes.c_int32),
        ("offset", ctypes.c_size_t),
        ("index", ctypes.c_size_t),
        ("reserved", ctypes.c_uint64 * 4),
    ]


class CSpan(ctypes.Structure):
    """A part of a string: the offset at which it begins, and the one after it."""

    _fields_ = [("start", ctypes.c_size_t), ("end", ctypes.c_size_t)]


class CVersion(ctypes.Structure):
    """A version, whose `pre` and `build` are in the string that was parsed."""

    _fields_ = [
        ("major", ctypes.c_uint64),
        ("minor", ctypes.c_uint64),
        ("patch", ctypes.c_uint64),
        ("pre", ctypes.c_void_p),
        ("pre_length", ctypes.c_size_t),
        ("build", ctypes.c_void_p),
        ("build_length", ctypes.c_size_t),
    ]


class CComponent(ctypes.Structure):
    """A component of a version in a range."""

    _fields_ = [("kind", ctypes.c_int32), ("number", ctypes.c_uint64)]


class CPartialVersion(ctypes.Structure):
    """A version in a range, whose `pre` and `build` are in the range's string."""

    _fields_ = [
        ("start", ctypes.c_size_t),
        ("end", ctypes.c_size_t),
        ("has_v", ctypes.c_bool),
        ("major", CComponent),
        ("minor", CComponent),
        ("patch", CComponent),
        ("pre", ctypes.c_void_p),
        ("pre_length", ctypes.c_size_t),
        ("build", ctypes.c_void_p),
        ("build_length", ctypes.c_size_t),
    ]


class CTerm(ctypes.Structure):
    """A term of a range."""

    _fields_ = [
        ("range", ctypes.c_size_t),
        ("op", ctypes.c_int32),
        ("start", ctypes.c_size_t),
        ("end", ctypes.c_size_t),
        ("version", CPartialVersion),
        ("upper", CPartialVersion),
    ]


def _status_functions() -> Dict[str, List[Any]]:
    """The functions that return a status, and what they take. A range and a list of comparators are
    addresses."""
    number, flag, size = ctypes.c_int32, ctypes.c_bool, ctypes.c_size_t
    address, to = ctypes.c_void_p, ctypes.POINTER
    one, strings, error = CString, to(CString), to(CError)
    made, printed = to(address), to(ctypes.c_char_p)
    return {
        "satisfies": [one, one, COptions, to(flag), error],
        "check_range": [one, number, error],
        "parse_version": [one, number, to(CVersion), error],
        "range_parse": [one, COptions, made, error],
        "range_contains": [address, one, to(flag), error],
        "range_contains_each": [address, strings, size, to(flag), to(number)],
        "range_highest_of": [address, strings, size, flag, to(size), error],
        "range_lowest_of": [address, strings, size, flag, to(size), error],
        "range_union": [address, address, made, error],
        "range_intersection": [address, address, made, error],
        "range_difference": [address, address, made, error],
        "range_equal": [address, address, to(flag), error],
        "range_is_subset": [address, address, to(flag), error],
        "range_is_disjoint": [address, address, to(flag), error],
        "range_lowest_version": [address, printed],
        "range_to_string": [address, flag, printed],
        "range_to_requirement": [address, printed],
        "comparators_of_range": [one, number, flag, made, error],
        "comparators_to_string": [address, printed],
        "replace_version": [one, to(CPartialVersion), one, number, printed, error],
        "terms_of_range": [one, number, to(CTerm), size, to(size), error],
        "upgrade": [one, one, COptions, printed, error],
        "error_message": [error, one, flag, printed],
        "suggestion": [error, one, number, printed],
    }


def _other_functions() -> Dict[str, Tuple[List[Any], Any]]:
    """The other functions: what they take and return."""
    number, address, zero_terminated = ctypes.c_int32, ctypes.c_void_p, ctypes.c_char_p
    return {
        "error_span": ([ctypes.POINTER(CError), CString], CSpan),
        "status_text": ([number], zero_terminated),
        "reason_name": ([number], zero_terminated),
        "reason_text": ([number], zero_terminated),
        "dialect_name": ([number], zero_terminated),
        "pre_releases_name": ([number], zero_terminated),
        "operator_sign": ([number], zero_terminated),
        "free": ([address], None),
        "range_free": ([address], None),
        "range_is_empty": ([address], ctypes.c_bool),
        "comparators_free": ([address], None),
    }


def declare(library: ctypes.CDLL, path: str) -> None:
    """Sets what the functions of a library take and return."""
    functions = {name: (takes, ctypes.c_int32) for name, takes in _status_functions().items()}
    for name, (takes, returns) in {**functions, **_other_functions()}.items():
        try:
            function = getattr(library, "semver_parser_" + name)
        except AttributeError:
            raise ImportError(f"{path} lacks the function semver_parser_{name}") from None
        function.argtypes, function.restype = takes, returns
