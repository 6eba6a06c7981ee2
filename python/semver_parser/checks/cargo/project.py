"""The manifests for a Cargo.lock: those of the workspace members, those of the packages that these
have by paths, and the patches of the workspace."""

import os
from typing import Dict, Iterator, List, NamedTuple, Optional

from ..files import Entry, Refusal, taking
from .manifests import (
    MANIFEST,
    NOTHING_INHERITED,
    Dependency,
    Inherited,
    Manifest,
    dependency_of,
    inherited_of,
    patches_of,
    read,
)
from .members import manifest_at, members_at
from .sources import PATH, Source, patched_source

OF_PATCH, REPLACE = "patch.", "replace"

# The files with Cargo's settings of a project. They may have patches.
SETTINGS = ((".cargo", "config.toml"), (".cargo", "config"))


class Patch(NamedTuple):
    """A package that replaces those of a source, or one of [replace], whose key names what it
    replaces."""

    source: Source
    dependency: Dependency


class Workspace:
    """The manifests of a project by their directories. Those of packages at paths are read when
    they are needed."""

    def __init__(self, folder: str) -> None:
        self.folder = os.path.abspath(folder)
        self.members = [it for it in members_at(folder) if it.name is not None]
        self.manifests: Dict[str, Optional[Manifest]] = {it.folder: it for it in self.members}
        replacing = list(patches_at(folder))
        self.patches = [it for it in replacing if it.dependency.table != REPLACE]
        self.replacements = [
            it.dependency for it in replacing if it.dependency.table == REPLACE
        ]
        self.folders: Dict[str, Dict[str, str]] = {}
        self.find()

    def is_member(self, manifest: Manifest) -> bool:
        """Returns whether a package is a member of the workspace."""
        return any(it.folder == manifest.folder for it in self.members)

    def at(self, folder: str) -> Manifest:
        """Returns the manifest in a directory. It is an error if there is none."""
        found = self.known_at(folder)
        return manifest_at(folder) if found is None else found

    def known_at(self, folder: str) -> Optional[Manifest]:
        """Returns the manifest in a directory; None if there is none that can be read."""
        if folder not in self.manifests:
            try:
                found: Optional[Manifest] = manifest_at(os.path.relpath(folder))
            except Refusal:
                found = None
            self.manifests[folder] = found
        return self.manifests[folder]

    def find(self) -> None:
        """Finds all packages at paths that a manifest or a patch has."""
        left: List[Optional[Manifest]] = list(self.members)
        stated = [*(it.dependency for it in self.patches), *self.replacements]
        seen = set(self.manifests)
        while left or stated:
            manifest = left.pop() if left else None
            if manifest is not None and manifest.name is not None:
                self.folders.setdefault(manifest.name, {})[manifest.version] = manifest.folder
                stated += manifest.dependencies
            while stated:
                source = stated.pop().source
                if source.kind == PATH and source.place not in seen:
                    seen.add(source.place)
                    left.append(self.known_at(source.place))

    def place(self, name: str, version: str) -> Optional[str]:
        """Returns the directory of a package in the lock file without a source. If only one package
        has the name, Cargo ignores the version."""
        places = self.folders.get(name, {})
        return next(iter(places.values())) if len(places) == 1 else places.get(version)


def patches_at(folder: str) -> Iterator[Patch]:
    """Yields the patches and replacements of the workspace or the package in a directory, and the
    patches of Cargo's settings there."""
    path = os.path.join(folder, MANIFEST)
    top = read(path)
    yield from patches_in(top, path, inherited_of(top, folder), folder)
    for settings in (os.path.join(folder, *it) for it in SETTINGS):
        if os.path.isfile(settings):
            own = {OF_PATCH[:-1]: read(settings).get(OF_PATCH[:-1], {})}
            yield from patches_in(own, settings, NOTHING_INHERITED, folder)


def patches_in(top: Entry, path: str, inherited: Inherited, folder: str) -> Iterator[Patch]:
    """Yields the patches and replacements in a file, whose paths begin at a directory."""
    with taking(path, os.path.basename(path)):
        for table, values in patches_of(top):
            source = patched_source(table[len(OF_PATCH) :] if table != REPLACE else "")
            for key, value in values.items():
                yield Patch(source, dependency_of(key, value, table, inherited, folder))
