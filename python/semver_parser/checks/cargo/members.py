"""The packages of a workspace, which are found as Cargo finds them."""

import os
from glob import escape, glob
from typing import Dict, Iterator, List, Optional

from ..files import Entry, Refusal, list_at, taking, text_at
from .features import checked
from .manifests import (
    MANIFEST,
    NOTHING_INHERITED,
    Manifest,
    inherited_of,
    manifest_of,
    package_of,
    read,
    tables_of,
    workspace_of,
    workspace_table,
)


def manifest_at(folder: str) -> Manifest:
    """Returns the manifest in a directory, with what it inherits from its workspace."""
    path = os.path.join(folder, MANIFEST)
    entry = read(path)
    root = root_of(folder, entry)
    top = None if root is None else read(os.path.join(root, MANIFEST))
    with taking(path, MANIFEST):
        inherited = NOTHING_INHERITED if top is None else inherited_of(top, root or "")
        return checked(manifest_of(entry, inherited, folder))


def members_at(folder: str) -> Iterator[Manifest]:
    """Yields the manifests of the workspace or the package in a directory."""
    top = read(os.path.join(folder, MANIFEST))
    refuse_stray(folder, top)
    with taking(os.path.join(folder, MANIFEST), MANIFEST):
        inherited = inherited_of(top, folder)
        entries = entries_of(folder, top)
    for path, entry in entries.items():
        with taking(os.path.join(path, MANIFEST), MANIFEST):
            yield checked(manifest_of(entry, inherited, path))


def root_of(folder: str, entry: Entry) -> Optional[str]:
    """Returns the directory of the workspace to which the manifest in a directory belongs; None if
    it belongs to none. This is the directory itself, the one that the manifest names, or the
    nearest one around it that doesn't exclude it."""
    if "workspace" in entry:
        return folder
    outer, found = os.path.abspath(folder), entry
    while True:
        named = package_of(found).get("workspace")
        if isinstance(named, str):
            return os.path.normpath(os.path.join(outer, named))
        outer, inner = os.path.dirname(outer), outer
        if outer == inner:
            return None
        path = os.path.join(outer, MANIFEST)
        found = read(path) if os.path.isfile(path) else {}
        with taking(path, MANIFEST):
            if "workspace" in found and not is_excluded(folder, outer, found):
                return outer


def is_elsewhere(root: Optional[str], folder: str) -> bool:
    """Returns whether a directory belongs to a workspace in another one."""
    return root is not None and os.path.abspath(root) != os.path.abspath(folder)


def has_member(root: str, folder: str) -> bool:
    """Returns whether the workspace in a directory has the package in another one as a member."""
    members = entries_of(root, read(os.path.join(root, MANIFEST)))
    return os.path.abspath(folder) in [os.path.abspath(it) for it in members]


def refuse_stray(folder: str, entry: Entry) -> None:
    """Rejects a manifest that is below a workspace, and that the workspace neither has as a member
    nor excludes."""
    root = root_of(folder, entry)
    if root is not None and is_elsewhere(root, folder) and not has_member(root, folder):
        why = f"the workspace in {os.path.relpath(root)} neither has it as a member nor excludes it"
        raise Refusal(os.path.join(folder, MANIFEST), why)


def unread_beside_workspace(folder: str) -> Optional[str]:
    """Returns the lock file that Cargo reads instead of the one in a directory, if the directory is
    a member of a workspace in another one."""
    path = os.path.join(folder, MANIFEST)
    try:
        root = root_of(folder, read(path)) if os.path.isfile(path) else None
        if root is None or not is_elsewhere(root, folder) or not has_member(root, folder):
            return None
    except Refusal:
        return None
    return os.path.normpath(os.path.join(os.path.relpath(root), "Cargo.lock"))


def entries_of(folder: str, top: Entry) -> Dict[str, Entry]:
    """Returns the manifests of a workspace or a package by their directories. These are the members
    of a workspace, unless it excludes them:

    - the packages that it names;
    - the packages that a member has by a path, if they are inside the directory of the workspace or
      their manifests name it.
    """
    root = os.path.normpath(folder or ".")
    found = {root: top}
    if "workspace" not in top:
        return found
    named = list(named_by(folder, top))
    left = [*named, *paths_of(root, top, root, top)]
    for path in left:
        if path in found or is_excluded(path, folder, top):
            continue
        entry = read(os.path.join(path, MANIFEST))
        with taking(os.path.join(path, MANIFEST), MANIFEST):
            if path in named or is_inside(path, root) or names_workspace(path, entry, root):
                found[path] = entry
                left += paths_of(path, entry, root, top)
    return found


def names_workspace(path: str, entry: Entry, root: str) -> bool:
    """Returns whether the manifest of a package names the workspace of a directory as its own."""
    named = package_of(entry).get("workspace")
    if not isinstance(named, str):
        return False
    return os.path.abspath(os.path.join(path, named)) == os.path.abspath(root)


def texts_of(top: Entry, key: str) -> List[str]:
    """Returns a list of paths that a workspace has."""
    where = f"workspace: {key}"
    return [text_at(it, where) for it in list_at(workspace_of(top).get(key, []), where)]


def named_by(folder: str, top: Entry) -> Iterator[str]:
    """Yields the directories that a workspace names as members. As for Cargo, a pattern that finds
    nothing stands for itself, and one that ends in `**` finds what is below."""
    for text in texts_of(top, "members"):
        pattern = os.path.join(escape(folder), f"{text}/*" if text.endswith("**") else text)
        # Python's glob rejects a zero byte, which no file name has.
        found = [] if "\0" in pattern else glob(pattern, recursive=True, include_hidden=True)
        paths = sorted(found)
        for path in paths or [os.path.join(folder, text)]:
            if os.path.isdir(path) or not paths:
                yield os.path.normpath(path)


def parts_of(folder: str, path: str) -> List[str]:
    """Returns the parts of a path from a directory, with which Cargo compares paths: `..` is a
    part."""
    whole = os.path.join(os.path.abspath(folder), path)
    return [part for part in whole.split("/") if part not in ("", ".")]


def is_excluded(path: str, folder: str, top: Entry) -> bool:
    """Returns whether a workspace excludes a package: it excludes the directory or one around it,
    and it names neither as a member without a pattern."""
    parts = parts_of(path, "")

    def is_within(key: str) -> bool:
        outer = [parts_of(folder, text) for text in texts_of(top, key)]
        return any(parts[: len(it)] == it for it in outer)

    return is_within("exclude") and not is_within("members")


def paths_of(folder: str, entry: Entry, root: str, top: Entry) -> Iterator[str]:
    """Yields the directories of the packages that a manifest has by a path, whether the path is in
    it or in the workspace's table."""
    inherited = workspace_table(top)
    for _, values in tables_of(entry):
        for key, value in values.items():
            is_inherited = isinstance(value, dict) and value.get("workspace") is True
            at, own = (root, inherited.get(key)) if is_inherited else (folder, value)
            if isinstance(own, dict) and isinstance(own.get("path"), str):
                yield os.path.normpath(os.path.join(at, own["path"]))


def is_inside(path: str, folder: str) -> bool:
    """Returns whether a path is inside a directory."""
    top = os.path.abspath(folder)
    return os.path.commonpath([top, os.path.abspath(path)]) == top
