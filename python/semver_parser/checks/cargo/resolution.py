"""Which packages of a Cargo.lock Cargo would use for the requirements of the manifests of a
project."""

from typing import Dict, Iterator, List, NamedTuple, Optional, Set, Tuple

from semver_parser import Dialect, Version

from ..model import Package
from ..satisfaction import is_met, is_version
from .features import activated_by, features_of
from .manifests import Dependency, Manifest
from .packages import Edge, Lock, PackageKey, key_of
from .project import Patch, Workspace
from .sources import PATH, is_patched


class Match(NamedTuple):
    """A dependency of a package, the package in the lock file that satisfies it, if any, and
    whether it has to be there."""

    dependency: Dependency
    found: Optional[Package]
    is_active: bool


class Resolution:
    """A lock file with its project. It knows which packages something leads to, which features are
    required of each package at a path (if members have all of theirs, and if they have the default
    ones), and which packages at paths are required by a package whose manifest isn't there."""

    def __init__(self, lock: Lock, project: Workspace) -> None:
        self.lock, self.project = lock, project
        self.edges: Dict[PackageKey, List[Edge]] = {}
        placed = [(lock.directory_of(it), it) for it in lock.packages]
        self.entries = {directory: it for directory, it in placed if directory}
        for directory, it in placed:
            if directory and it.version == project.at(directory).version:
                self.entries[directory] = it
        self.asked_by_others: Set[str] = set()
        self.reached: Set[PackageKey] = set()
        self.reach()
        members = self.project.members
        self.features = {it.folder: set(features_of(it)) for it in members}
        self.ask(self.features)
        self.features_by_default = {it.folder: {"default"} for it in members}
        self.ask(self.features_by_default)

    def edges_of(self, package: Package) -> List[Edge]:
        """Returns what a package depends on."""
        key = key_of(package)
        if key not in self.edges:
            self.edges[key] = list(self.lock.edges_of(package))
        return self.edges[key]

    def entry_of(self, manifest: Manifest) -> Optional[Package]:
        """Returns the package of the lock file that a manifest describes."""
        return self.entries.get(manifest.folder)

    def reach(self) -> None:
        """Finds the packages to which something leads from a member."""
        left = [it for it in map(self.entry_of, self.project.members) if it is not None]
        self.reached.update(map(key_of, left))
        while left:
            package = left.pop()
            is_own = self.lock.directory_of(package) is not None
            for edge in self.edges_of(package):
                if edge.to is None:
                    continue
                directory = self.lock.directory_of(edge.to)
                if directory and not is_own:
                    self.asked_by_others.add(directory)
                if key_of(edge.to) not in self.reached:
                    self.reached.add(key_of(edge.to))
                    left.append(edge.to)

    def ask(self, features: Dict[str, Set[str]]) -> None:
        """Adds to the features of members those that are required of each package at a path."""
        left = list(self.project.members)
        for manifest in left:
            asked = activated_by(manifest, features[manifest.folder])
            for match in self.matches_of(manifest):
                need = match.dependency
                folder = self.lock.directory_of(match.found) if match.found else None
                if folder is None or (need.is_optional and need.key not in asked):
                    continue
                wanted = asked.get(need.key, set()).union(need.features)
                if folder not in features or not wanted <= features[folder]:
                    features.setdefault(folder, set()).update(wanted)
                    left.append(self.project.at(folder))

    def manifests(self) -> Iterator[Manifest]:
        """Yields the manifests of the members, and of the packages at paths that are required."""
        yield from map(self.project.at, self.features)
        for folder in sorted(self.asked_by_others - set(self.features)):
            yield self.project.at(folder)

    # ---- what is required

    def dependencies_of(self, manifest: Manifest) -> Iterator[Tuple[Dependency, bool]]:
        """Yields the dependencies of a manifest, each with whether it is active. Only a member has
        its development dependencies. An optional dependency is active if a feature includes it.
        Which features those are isn't known if a package requires this one whose manifest isn't
        there; then all optional dependencies are yielded. A package at a path has to be there."""
        asked = activated_by(manifest, self.features.get(manifest.folder, set()))
        is_member = self.project.is_member(manifest)
        for need in manifest.dependencies:
            if need.is_development and not is_member:
                continue
            is_active = not need.is_optional or need.key in asked
            if is_active and need.source.kind == PATH:
                self.project.at(need.source.place)
            if is_active or manifest.folder in self.asked_by_others:
                yield need, is_active

    def matches_of(self, manifest: Manifest) -> Iterator[Match]:
        """Yields the dependencies of a manifest, each with the package of the lock file that Cargo
        uses for it."""
        entry = self.entry_of(manifest)
        edges = [] if entry is None else self.edges_of(entry)
        by_name: Dict[str, List[Package]] = {}
        for edge in edges:
            if edge.to is not None:
                by_name.setdefault(edge.name, []).append(edge.to)
        for need, is_active in self.dependencies_of(manifest):
            found = in_order(by_name.get(need.name, []))
            fits = (it for it in found if self.is_met(need, it) and self.is_source(need, it))
            yield Match(need, next(fits, None), is_active)

    def version_of(self, package: Package) -> str:
        """Returns the version of a package. For a package at a path it is the version in its
        manifest."""
        directory = self.lock.directory_of(package)
        return self.project.at(directory).version if directory else package.version or ""

    def is_met(self, need: Dependency, package: Package) -> Optional[bool]:
        """Returns whether the version of a package satisfies a requirement; None if the requirement
        is invalid. A path or git without a requirement accepts every version."""
        if need.requirement == "*" and not need.has_registry:
            return True
        return is_met(need.requirement, self.version_of(package), Dialect.CARGO)

    def is_source(self, need: Dependency, package: Package) -> bool:
        """Returns whether a package comes from the source that is required, or from a patch of that
        source."""
        return self.lock.is_at(need.source, package) or any(
            is_patched(need.source, patch.source) and self.is_of_patch(patch, package)
            for patch in self.project.patches
        )

    def is_of_patch(self, patch: Patch, package: Package) -> bool:
        """Returns whether a package is the one that a patch provides."""
        dependency = patch.dependency
        return package.name == dependency.name and self.lock.is_at(dependency.source, package)


def in_order(packages: List[Package]) -> List[Package]:
    """Returns packages of one name in Cargo's order. Cargo uses the first that satisfies a
    requirement."""
    if len(packages) < 2 or not all(is_version(it.version or "", Dialect.CARGO) for it in packages):
        return packages
    return sorted(packages, key=lambda it: Version.parse(it.version or "", dialect=Dialect.CARGO))
