"""Checks whether a version satisfies a range."""

import ctypes

from ._errors import RangeError, VersionError
from ._interface import INVALID_RANGE, INVALID_VERSION, NUMBER_TOO_LARGE
from ._library import LIBRARY, check
from ._options import AnyDialect, AnyPreReleases, c_options, dialect_of, pre_releases_of
from ._strings import String, c_string
from ._versions import AnyVersion, string_of


def satisfies(
    version: AnyVersion,
    range: String,
    *,
    dialect: AnyDialect,
    pre_releases: AnyPreReleases = "by-dialect",
) -> bool:
    """Returns whether a version satisfies a range. Build metadata is ignored.

    >>> satisfies("1.9.0", "^1.2", dialect="npm")
    True
    >>> satisfies("1.9.0", "1.2.3", dialect="npm"), satisfies("1.9.0", "1.2.3", dialect="cargo")
    (False, True)

    If you check several versions against one range, a `Range` is faster.

    Raises `VersionError` if the version is invalid. Otherwise raises `RangeError` if the range is
    invalid.
    """
    chosen, string = dialect_of(dialect), string_of(version)
    options, answer = c_options(chosen, pre_releases_of(pre_releases)), ctypes.c_bool()
    status = LIBRARY.semver_parser_satisfies(
        c_string(string), c_string(range), options, answer, None
    )
    if status == INVALID_VERSION:
        raise VersionError(string, chosen)
    if status in (INVALID_RANGE, NUMBER_TOO_LARGE):
        raise RangeError(range, chosen)
    check(status)
    return answer.value
