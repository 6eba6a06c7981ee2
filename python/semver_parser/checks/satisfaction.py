"""Checks of versions and ranges. Each text is parsed only once, since a lock file has most of them
several times."""

from functools import lru_cache
from typing import Literal, Optional

from semver_parser import Dialect, Range, RangeError, Version, VersionError, satisfies


@lru_cache(maxsize=None)
def is_version(text: str, dialect: Dialect) -> bool:
    """Returns whether a text is a valid version in a dialect."""
    try:
        Version.parse(text, dialect=dialect)
    except VersionError:
        return False
    return True


@lru_cache(maxsize=None)
def range_in(
    text: str, dialect: Dialect, pre_releases: Literal["by-dialect", "included"] = "by-dialect"
) -> Optional[Range]:
    """Returns the range of a text in a dialect; None if it is invalid."""
    try:
        return Range(text, dialect=dialect, pre_releases=pre_releases)
    except RangeError:
        return None


def is_range(text: str, dialect: Dialect) -> bool:
    """Returns whether a text is a valid range in a dialect."""
    return range_in(text, dialect) is not None


@lru_cache(maxsize=None)
def is_met(wanted: str, version: str, dialect: Dialect) -> Optional[bool]:
    """Returns whether a version satisfies a range; None if the range is invalid. An invalid version
    satisfies no range."""
    try:
        return satisfies(version, wanted, dialect=dialect)
    except RangeError:
        return None
    except VersionError:
        return False if is_range(wanted, dialect) else None
