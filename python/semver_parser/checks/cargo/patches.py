"""Findings about the patches of a workspace. A lock file must have each of them, as a package or as
one that isn't used."""

import re
from typing import Iterator, List, Optional

from ..findings import Finding, MissingEntry, NotPatched, NotReplaced, Unreached
from ..model import Package
from .packages import source_of
from .project import Patch
from .resolution import Resolution
from .sources import PATH, is_from

A_PATCH = "it is a patch"


def patch_findings(resolution: Resolution) -> Iterator[Finding]:
    """Yields the findings about the patches of a workspace, and about those of a lock file."""
    project, lock = resolution.project, resolution.lock
    for patch in project.patches:
        used = [it for it in lock.packages if resolution.is_of_patch(patch, it)]
        unused = [it for it in lock.unused if resolution.is_of_patch(patch, it)]
        others = list(exchanged(patch, resolution, unused))
        yield from others
        if not used and not unused and not others:
            version = version_of(patch, resolution) or ""
            name = patch.dependency.name
            yield MissingEntry(Package(name, version or None), "", A_PATCH)
    yield from replacement_findings(resolution)
    for package in lock.unused:
        is_known = any(resolution.is_of_patch(patch, package) for patch in project.patches)
        if not lock.is_gone(package) and not is_known:
            yield Unreached(package)


def replacement_findings(resolution: Resolution) -> Iterator[Finding]:
    """Yields the findings about packages that [replace] replaces by one at a path with the same
    version, if the lock file doesn't have that."""
    project = resolution.project
    for need in project.replacements:
        if need.source.kind != PATH:
            continue
        manifest = project.at(need.source.place)
        for package in resolution.lock.by_name.get(manifest.name or "", []):
            is_meant = bool(package.source) and package.version == manifest.version
            edges = (it.to for it in resolution.edges_of(package) if it.to is not None)
            to = [resolution.lock.directory_of(it) for it in edges]
            if is_meant and need.source.place not in to:
                yield NotPatched(package, need.source.text(project.folder))
    # A key is NAME@VERSION or NAME:VERSION, perhaps after the URL of the source and `#`.
    stated = {re.split("[@:]", it.key.rpartition("#")[2])[0] for it in project.replacements}
    for package in resolution.lock.packages:
        if "replace" in package.entry and package.name not in stated:
            yield NotReplaced(package)


def version_of(patch: Patch, resolution: Resolution) -> Optional[str]:
    """Returns the version of a patch, if it is at a path."""
    source = patch.dependency.source
    return resolution.project.at(source.place).version if source.kind == PATH else None


def exchanged(
    patch: Patch, resolution: Resolution, unused: List[Package]
) -> Iterator[Finding]:
    """Yields the findings about packages that the lock file has from the source that is patched,
    with the version of the patch."""
    project = resolution.project
    versions = {version_of(patch, resolution), *(it.version for it in unused)}
    for package in resolution.lock.by_name.get(patch.dependency.name, []):
        source = source_of(package.source) if package.source else None
        is_patched = source is not None and is_from(patch.source, source)
        is_own = resolution.lock.is_at(patch.dependency.source, package)
        if is_patched and not is_own and package.version in versions:
            yield NotPatched(package, patch.dependency.source.text(project.folder))
