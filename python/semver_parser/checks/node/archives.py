"""The name and the version in the file name of a registry's archive, as npm's `versionFromTgz`
finds them."""

import re
from functools import lru_cache
from typing import NamedTuple, Optional

from semver_parser import Dialect, Version, VersionError

# What separates the scope of a package, which begins with `@`, from its name.
SLASH = re.compile("/|%2f", re.I)


class Archive(NamedTuple):
    """The name and the version in the file name of an archive."""

    name: str
    version: str


def archive_at(address: str) -> Optional[Archive]:
    """Returns the archive at a URL of a registry, `.../NAME/-/FILE`. Returns None for another URL,
    or if the file name doesn't consist of the name of the package and a version."""
    if not address.startswith(("http:/", "https:/")):
        return None
    package, mark, file = address.split("/", 3)[-1].rpartition("/-/")
    return archive_of(package, file) if mark and file.endswith(".tgz") else None


def archive_of(path: str, file: str) -> Optional[Archive]:
    """Returns the archive of the package whose name is at the end of a path."""
    *_, scope, name = ["", *SLASH.split(path)]
    if not file.startswith(f"{name}-"):
        return None
    version = without_build(file[len(name) + 1 : -len(".tgz")])
    if version is None:
        return None
    whole = f"{scope}/{name}" if scope.startswith("@") else name
    return Archive(whole, version)


@lru_cache(maxsize=None)
def without_build(text: str) -> Optional[str]:
    """Returns a version without its build metadata; None if it is invalid for npm."""
    try:
        version = Version.parse(text, dialect=Dialect.NPM)
    except VersionError:
        return None
    return str(Version(version.major, version.minor, version.patch, version.pre))
