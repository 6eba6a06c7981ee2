"""Raises requirements."""

import ctypes
from typing import Optional

from ._errors import RangeError, UpgradeError, VersionError
from ._interface import CANNOT_UPGRADE, INVALID_RANGE, INVALID_VERSION, NUMBER_TOO_LARGE
from ._library import LIBRARY, check
from ._options import AnyDialect, AnyPreReleases, c_options, dialect_of, pre_releases_of
from ._strings import String, c_string, taken
from ._versions import AnyVersion, string_of


def upgrade(
    range: String,
    version: AnyVersion,
    *,
    dialect: AnyDialect,
    pre_releases: AnyPreReleases = "by-dialect",
) -> Optional[str]:
    """Raises a requirement, so that it contains a newer version, and keeps how it is written.
    Returns None if the range has a version at or above the newer one, so nothing is ever lowered.

    >>> upgrade("^1.2", "2.3.4", dialect="npm")
    '^2.3'
    >>> upgrade("~1.2 || ^2.0.0", "3.1.0", dialect="npm")
    '~1.2 || ^2.0.0 || ^3.1.0'
    >>> upgrade(">= 1.2 , < 2.0.0", "2.3.0", dialect="cargo")
    '>= 1.2 , < 3.0.0'
    >>> upgrade("^3", "2.0.0", dialect="npm") is None
    True

    The terms after the last `||` are raised, if their bounds allow no version at or above the newer
    one:

    - The version of a term without an operator or with `=`, `~`, `^` or `<=`, and the right version
      of a hyphen range, becomes the newer one, with as many components, with its wildcards and its
      `v`. The pre-release is written after three numbers, and build metadata is left out.
    - If the result wouldn't contain the newer version then, and that is a pre-release, three
      numbers are written where they mean the same: after `^`, after `~` instead of two, and in
      Cargo's dialect without an operator.
    - The version of `<` becomes the next one above the newer version. Its last number that isn't 0
      says which number is raised by one, and what follows that is 0. A pre-release `0` is kept.
    - `>=` and `>` are kept.

    If the range has `||`, the raised terms are added as one more alternative instead, so that no
    version is lost. They are raised in place only if all versions that change are upper bounds:
    those of `<` and `<=`, and right versions of hyphen ranges. An upper bound with a pre-release
    isn't raised in place either, except for `<` with the pre-release `0`. Everything else stays as
    it is.

    Raises `VersionError` if the version is invalid. Otherwise raises `RangeError` if the range is
    invalid, and `UpgradeError` if the raised range wouldn't contain the version, such as `1.x` for
    2.0.0-rc.1.
    """
    chosen, string = dialect_of(dialect), string_of(version)
    options, upgraded = c_options(chosen, pre_releases_of(pre_releases)), ctypes.c_char_p()
    status = LIBRARY.semver_parser_upgrade(
        c_string(range), c_string(string), options, upgraded, None
    )
    if status == INVALID_VERSION:
        raise VersionError(string, chosen)
    if status in (INVALID_RANGE, NUMBER_TOO_LARGE):
        raise RangeError(range, chosen)
    if status == CANNOT_UPGRADE:
        raise UpgradeError(range, string)
    check(status)
    return taken(upgraded)
