"""The package.json files of workspaces and linked directories, which npm reads instead of what the
lock file has of them; and which directories are workspaces."""

import os
from typing import Dict, Iterable, Iterator, List, Optional, Set, Tuple

from ..files import (
    Entry,
    WrongShape,
    bytes_of,
    json_object,
    objects_at,
    taking,
    text_at,
    texts_at,
)
from ..node.package_json import refuse_twice, unchecked_manifest
from ..node.workspaces import (
    directories_around,
    is_workspace,
    name_by_directory,
    patterns_in,
    patterns_of,
    place_in,
    places_in,
)
from .lock import ACCEPTED, KINDS_OF_TOPS, WORKSPACES, Packages, is_top, with_manifest


def check_manifest(manifest: Entry) -> None:
    """Rejects a package.json if a name, a version or a requirement isn't a text."""
    for key in ("name", "version"):
        text_at(manifest.get(key, ""), key)
    for kind in (*KINDS_OF_TOPS, ACCEPTED):
        texts_at(manifest.get(kind, {}), kind)
    objects_at(manifest.get("peerDependenciesMeta", {}), "peerDependenciesMeta")


def manifest_in(folder: str) -> Optional[Entry]:
    """Returns the package.json in a directory, if it is there."""
    path = os.path.join(folder, "package.json")
    if not os.path.exists(path):
        return None
    with taking(path, "package.json"):
        manifest = json_object(bytes_of(path))
        check_manifest(manifest)
        return manifest


def read_links(packages: Packages, project: Optional[str]) -> Set[str]:
    """Reads the package.json files of the directories to which links lead, below the project.
    Returns the places of those that have none: they stay as the lock file has them, as for npm what
    is in a `node_modules` does."""
    targets = {
        text_at(entry.get("resolved"), f"{place}: resolved")
        for place, entry in packages.items()
        if entry.get("link")
    }
    from_lock = set()
    for place in [it for it in packages if it and it in targets and is_top(it)]:
        manifest = None if project is None else manifest_in(os.path.join(project, place))
        if manifest is None:
            from_lock.add(place)
        else:
            packages[place] = with_manifest(packages[place], manifest)
    return from_lock


def workspaces_of(packages: Packages, folder: Optional[str], is_there: bool) -> Dict[str, str]:
    """Returns the places of the project's workspaces by their names. If the project's package.json
    is there, these are directories below the project, and otherwise those of the lock file."""
    texts = patterns_in(packages.get("", {}).get(WORKSPACES, []), WORKSPACES)
    patterns = patterns_of(texts)
    if folder is not None and is_there:
        with taking(os.path.join(folder, "package.json"), "package.json"):
            return by_name(list(manifests_at(folder, places_in(patterns, folder))))
    return by_name((it, packages[it]) for it in packages if is_workspace(patterns, it))


def manifests_at(folder: str, places: List[str]) -> Iterator[Tuple[str, Entry]]:
    """Yields the package.json files in some places below a directory, each with its place."""
    for place in places:
        manifest = manifest_in(os.path.join(folder, place))
        if manifest is not None:
            yield place, manifest


def by_name(manifests: Iterable[Tuple[str, Entry]]) -> Dict[str, str]:
    """Returns the places of workspaces by the names in their package.json files."""
    named = (
        (text_at(manifest.get("name") or name_by_directory(place), f"{place}: name"), place)
        for place, manifest in manifests
    )
    return refuse_twice(named)


def root_around(directory: str) -> Optional[str]:
    """Returns the nearest directory around a directory whose package.json has that as a
    workspace."""
    for outer in directories_around(directory):
        manifest = unchecked_manifest(outer)
        try:
            texts = patterns_in(manifest.get(WORKSPACES, []), WORKSPACES)
            if is_workspace(patterns_of(texts), place_in(directory, outer)):
                return os.path.relpath(outer)
        except WrongShape:
            return None
    return None
