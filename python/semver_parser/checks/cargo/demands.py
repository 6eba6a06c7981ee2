"""What Cargo demands of a lock file and its manifests besides requirements: checksums, features of
packages at paths, and manifests that don't conflict. The verdict of cargo 1.95.0 counts."""

import re
from typing import Dict, Iterator, List, Set

from ..findings import Finding, MissingFeature, OwnConflict, WrongChecksum
from ..model import Package, Requirement, Requirer
from .features import activated_by, features_of
from .manifests import Manifest
from .packages import Lock, key_of, source_of
from .resolution import Resolution
from .sources import GIT, PATH

CHECKSUM = re.compile(r"[0-9a-f]{64}")
FIELD = "checksum"

# The advice for a wrong checksum. Cargo only writes those that are missing.
ADVICE = "remove the checksum from the lock file, and have Cargo write it anew"


def checksum_findings(lock: Lock) -> Iterator[Finding]:
    """Yields the findings about packages of registries without a valid checksum, and about others
    with one. Cargo writes no checksums for a registry that has none. So one is missing only if
    another package of the same registry has one, or in the first form of the file, which has
    `<none>` then."""
    with_checksums = {it.source for it in lock.packages if FIELD in it.entry}
    sums = lock.sums
    for package in lock.packages:
        is_of_registry = bool(package.source) and source_of(package.source).kind != GIT
        checksum = package.entry.get(FIELD)
        if not is_of_registry and checksum is not None and not lock.is_gone(package):
            what = "a checksum, and isn't from a registry"
            yield WrongChecksum(package, "", what).advised(ADVICE, True)
        elif is_of_registry and checksum is None and package.source in with_checksums:
            yield WrongChecksum(package, "", "no checksum")
        elif is_of_registry and sums is not None and key_in_sums(package) not in sums:
            yield WrongChecksum(package, "", "no checksum")
        elif is_of_registry and checksum is not None and not is_checksum(checksum):
            what = f"the invalid checksum {checksum}"
            yield WrongChecksum(package, "", what).advised(ADVICE, True)


def key_in_sums(package: Package) -> str:
    """Returns the key of the checksum of a package in the first form of the file."""
    return f"checksum {package.name} {package.version} ({package.source})"


def is_checksum(value: object) -> bool:
    """Returns whether a value is an SHA-256 checksum."""
    return isinstance(value, str) and CHECKSUM.fullmatch(value) is not None


def feature_findings(resolution: Resolution) -> Iterator[Finding]:
    """Yields the findings about features that are required of packages at paths and that these
    don't have."""
    for manifest in resolution.manifests():
        package = resolution.entry_of(manifest)
        asked = activated_by(manifest, resolution.features.get(manifest.folder, set()))
        for match in resolution.matches_of(manifest) if package is not None else ():
            found, it = match.found, match.dependency
            directory = resolution.lock.directory_of(found) if found else None
            if found is None or not match.is_active or directory is None or package is None:
                continue
            known = {"default", *features_of(resolution.project.at(directory))}
            requirer = Requirer(package.name or "", package.version or "", "", package.at)
            made = Requirement(requirer, it.name, it.requirement, alias=it.other_name or "")
            for feature in sorted(asked.get(it.key, set()).union(it.features) - known):
                yield MissingFeature(made, found, feature)


def conflict_findings(resolution: Resolution) -> Iterator[Finding]:
    """Yields the findings about packages at paths that require themselves, that require one package
    by two names, or that have the same `links` as another one."""
    linking: Dict[str, str] = {}
    requires: Dict[str, List[str]] = {}
    manifests = list(resolution.manifests())
    for manifest in manifests:
        package = resolution.entry_of(manifest) or Package(manifest.name, manifest.version)
        yield from two_names(manifest, package, resolution)
        other = linking.setdefault(manifest.links, package.label) if manifest.links else ""
        if other not in ("", package.label):
            yield OwnConflict(package, "", f"links {manifest.links}, as {other} does")
        requires[manifest.folder] = [
            it.source.place
            for it, is_active in resolution.dependencies_of(manifest)
            if is_active and not it.is_development and it.source.kind == PATH
        ]
    for manifest in manifests:
        if is_reached(manifest.folder, requires):
            package = resolution.entry_of(manifest) or Package(manifest.name, manifest.version)
            yield OwnConflict(package, "", "requires itself")


def is_reached(start: str, requires: Dict[str, List[str]]) -> bool:
    """Returns whether a directory leads back to itself."""
    seen: Set[str] = set()
    left = list(requires[start])
    while left:
        at = left.pop()
        if at not in seen:
            seen.add(at)
            left += requires.get(at, [])
    return start in seen


def two_names(manifest: Manifest, package: Package, resolution: Resolution) -> Iterator[Finding]:
    """Yields the findings about packages that a manifest requires by two names. Cargo looks only at
    those to which the default features of the members lead."""
    names: Dict[object, str] = {}
    features = resolution.features_by_default.get(manifest.folder)
    if features is None and manifest.folder not in resolution.asked_by_others:
        return
    by_default = activated_by(manifest, features or set())
    for match in resolution.matches_of(manifest):
        it = match.dependency
        if match.found is not None and (not it.is_optional or it.key in by_default):
            first = names.setdefault(key_of(match.found), it.key)
            if first.replace("-", "_") != it.key.replace("-", "_"):
                what = f"requires {match.found.label} by two names, {first} and {it.key}"
                yield OwnConflict(package, "", what)
