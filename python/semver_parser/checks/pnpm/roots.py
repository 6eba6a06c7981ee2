"""The project of pnpm whose workspace a directory is. They share the pnpm-lock.yaml of the project,
unless a setting says otherwise."""

import os
from typing import Optional

from ..files import Refusal
from ..node.workspaces import directories_around, place_in
from .lock import directories_in
from .settings import WORKSPACE_FILE, npmrc_of, workspace_file

LOCK_FILE = "pnpm-lock.yaml"

# The setting by which each workspace has its own lock file, in pnpm-workspace.yaml and in .npmrc.
SHARED, SHARED_IN_NPMRC = "sharedWorkspaceLockfile", "shared-workspace-lockfile"


def root_around(directory: str) -> Optional[str]:
    """Returns the project around a directory whose pnpm-lock.yaml pnpm reads instead of the one in
    the directory. The nearest pnpm-workspace.yaml decides."""
    inner = os.path.abspath(directory)
    for outer in (inner, *directories_around(inner)):
        if os.path.isfile(os.path.join(outer, WORKSPACE_FILE)):
            is_read = outer != inner and has_workspace(outer, inner)
            return os.path.relpath(outer) if is_read else None
    return None


def has_workspace(outer: str, inner: str) -> bool:
    """Returns whether a directory is a workspace of a project, and uses the lock file of that."""
    try:
        is_own = place_in(inner, outer) in (directories_in(outer) or [])
        return is_own and is_shared(outer) and os.path.isfile(os.path.join(outer, LOCK_FILE))
    except Refusal:
        return False


def is_shared(top: str) -> bool:
    """Returns whether the workspaces of a project share its lock file, as they do by default."""
    in_npmrc = npmrc_of(top).get(SHARED_IN_NPMRC, "true")
    return str((workspace_file(top) or {}).get(SHARED, in_npmrc)) != "false"
