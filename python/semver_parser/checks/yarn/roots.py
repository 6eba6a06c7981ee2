"""The project of yarn 1 whose workspace a directory is. yarn 1 only reads the yarn.lock of the
project."""

import os
from typing import Optional

from ..files import Entry, Refusal, Unreadable, WrongShape, bytes_of
from ..node.package_json import unchecked_manifest
from ..node.workspaces import directories_around, directories_of, patterns_in, place_in

LOCK_FILE, WORKSPACES = "yarn.lock", "workspaces"

# What only a yarn.lock of yarn 2 or later has.
OF_BERRY = b"\n__metadata:"


def has_workspaces(manifest: Entry) -> bool:
    """Returns whether yarn 1 considers a project one of its workspaces. That is so even if it names
    no other."""
    named = manifest.get(WORKSPACES)
    return "packages" in named if isinstance(named, dict) else named is not None


def root_around(directory: str) -> Optional[str]:
    """Returns the project around a directory whose yarn.lock yarn 1 reads instead of the one in the
    directory. As for yarn, the nearest package.json that has workspaces decides."""
    inner = os.path.abspath(directory)
    for outer in (inner, *directories_around(inner)):
        manifest = unchecked_manifest(outer)
        if has_workspaces(manifest):
            is_read = outer != inner and has_workspace(manifest, outer, inner)
            is_read = is_read and is_of_yarn_1(os.path.join(outer, LOCK_FILE))
            return os.path.relpath(outer) if is_read else None
    return None


def has_workspace(manifest: Entry, outer: str, inner: str) -> bool:
    """Returns whether a directory is a workspace of the project in a directory around it."""
    try:
        patterns = patterns_in(manifest[WORKSPACES], WORKSPACES)
        return place_in(inner, outer) in directories_of(patterns, outer)
    except (OSError, WrongShape):
        return False


def is_of_yarn_1(path: str) -> bool:
    """Returns whether a file is a yarn.lock of yarn 1."""
    try:
        return OF_BERRY not in bytes_of(path)
    except (OSError, Refusal, Unreadable):
        return False
