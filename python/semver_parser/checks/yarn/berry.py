"""yarn 2 and later.

WHO REQUIRES. Each package requires its `dependencies` and `optionalDependencies`. A workspace
requires what its package.json has, if that is there. A key that no package requires is required by
the project: by a catalog, a resolution or a patch.

WHAT IS FOUND. The package whose key has what is required, such as `numbers@npm:^1.0.0`. The version
in its `resolution` is installed. A resolution that has a key comes first.

NOT IN THE FILE. Who provides a peer, the version of a workspace, and which key a catalog is for.
"""

from typing import Dict, Iterator, List, Optional, Set, Tuple

from ..findings import Finding, TwoVersions, Unreached
from ..model import PROJECT, LockFile, Node, Package, Requirement, Requirer
from ..node.package_json import (
    KINDS_OF_BERRY,
    Project,
    compared_in,
    missing_workspace,
    name_in,
    requirements_in,
    version_in,
)
from ..node.specifiers import alias_of, is_elsewhere, is_no_range, name_and_rest, reason_of
from ..tool import Input
from .family import YarnScheme, YarnTool
from .lock import PATCH, YarnFile, bare, requirements_of, source_of
from .resolutions import Resolutions, without_protocol, specs_for

# What is before the directory in the key of a workspace.
OWN = "workspace:"


class BerryScheme(YarnScheme):
    """How yarn 2 and later read specifiers."""

    protocol = "npm:"

    def npm_form(self, specifier: str, requirement: Requirement) -> str:
        """Returns a specifier in the form that npm reads: a range with the name of its package. For
        `patch:` these are those of the patched package."""
        name, spec = requirement.name, specifier
        if PATCH in spec:
            name, spec = name_and_rest(source_of(f"{name}@{spec}"))
        spec = without_protocol(spec)
        return spec if alias_of(spec) is not None or is_elsewhere(spec) else f"npm:{name}@{spec}"


def directory_of(package: Package) -> str:
    """Returns the directory of a workspace; an empty text for another package."""
    resolution = str(package.entry.get("resolution", ""))
    spec = name_and_rest(resolution)[1] if OWN in resolution else ""
    return spec[len(OWN) :] if spec.startswith(OWN) else ""


class Reader:
    """Reads a lock file, with the package.json files of its project."""

    def __init__(self, lock: YarnFile, project: Project, resolutions: Resolutions) -> None:
        self.lock, self.project = lock, project
        self.used: Set[Optional[str]] = set()
        self.resolutions = {
            name: {
                group: [it for it in found if lock.found(name, it.spec) is not None]
                for group, found in groups.items()
            }
            for name, groups in resolutions.items()
        }

    def stated(self, package: Package) -> Iterator[Requirement]:
        """Yields the requirements of a package; for a workspace those in its package.json, if that
        is there."""
        directory = directory_of(package)
        requirer = self.lock.requirer(package)._replace(place=directory)
        manifest = self.project.manifests.get(directory)
        if manifest is None:
            yield from requirements_of(package, requirer)
        else:
            yield from requirements_in(manifest, requirer, KINDS_OF_BERRY)

    def required(self, package: Package) -> Iterator[Requirement]:
        """Yields the requirements of a package, with what is found. A resolution that has a key
        comes first."""
        for it in self.stated(package):
            resolved: List[str] = []
            if it.name in self.resolutions:
                name, place = name_and_rest(str(package.entry.get("resolution", "")))
                at = without_protocol(place)
                resolved = specs_for(self.resolutions, it.name, it.specifier, [name], at)
            key = self.lock.key_for(it.name, resolved[0] if resolved else it.specifier)
            self.used.add(key)
            yield self.looked_up(it, key, *resolved[:1])

    def looked_up(
        self, it: Requirement, key: Optional[str], specifier: Optional[str] = None
    ) -> Requirement:
        """Returns a requirement with what is found by a key, which is for a resolution's specifier
        if there is one. If nothing is found, it is listed only with `--strict` if it is a tag, a
        path or a URL, which yarn may have written in another way, or if there is no package.json,
        so resolutions aren't known."""
        is_over = specifier is not None
        if key is not None:
            found = self.lock.by_pattern[key]
            spec = specifier if specifier and not found.is_own else it.specifier
            return it._replace(specifier=spec, found=found, must_exist=True, is_override=is_over)
        wanted = BERRY_SCHEME.npm_form(it.specifier, it)
        excuse = reason_of(wanted) if is_no_range(wanted) else ""
        if not self.project.manifests:
            excuse = excuse or "no package.json"
        return it._replace(must_exist=True, excuse=excuse, is_override=is_over)

    def of_project(self, package: Package) -> Iterator[Requirement]:
        """Yields the keys of a package that no package requires. The project requires them, by a
        catalog, a resolution or a patch. Nothing requires a workspace's own key."""
        requirer = Requirer(PROJECT)
        for pattern in self.lock.patterns[package.at[0]]:
            if bare(pattern) not in self.used:
                name, spec = name_and_rest(pattern)
                if not spec.startswith(OWN):
                    it = Requirement(requirer, name, spec)
                    yield self.looked_up(it, self.lock.key_for(name, spec))

    def workspaces(self) -> Iterator[Finding]:
        """Yields the findings about workspaces that the lock file lacks, and about those that are
        gone. It is known which are gone if the project has package.json files below it."""
        known: Dict[str, List[Package]] = {}
        for package in self.lock.packages:
            if directory_of(package):
                known.setdefault(directory_of(package), []).append(package)
        manifests = self.project.manifests
        for directory, manifest in manifests.items():
            name = name_in(manifest)
            found = (str(it.entry.get("resolution")) for it in known.get(directory, []))
            if name is not None and name not in [name_and_rest(it)[0] for it in found]:
                yield missing_workspace(name, version_in(manifest), name)
        for directory, gone in known.items() if len(manifests) > 1 else ():
            if directory not in manifests:
                yield from (Unreached(self.lock.keyed(it)) for it in gone)

    def edges(self, required: List[List[Requirement]]) -> Iterator[Tuple[str, str]]:
        """Yields who leads to which package."""
        for it in (it for each in required for it in each):
            if it.found is not None:
                yield it.requirer.label, self.lock.requirer(it.found).label

    def lock_file(self, file: Input) -> LockFile:
        """Returns the contents of the lock file."""
        packages = self.lock.packages
        required = [list(self.required(it)) for it in packages]
        # A key has what a resolution put there.
        own = [list(self.of_project(it)) for it in packages]
        lock = LockFile([], self.lock.own(), lambda: self.edges([*own, *required]))
        lock.package_count = len(lock.packages)
        lock.stated = lambda: compared_in(self.project.manifests.items())
        lock.nodes = [Node(findings=list(self.workspaces()))]
        for package, of_keys, each in zip(packages, own, required):
            it = self.lock.keyed(package)
            requirements = [*of_keys, *lock.scoped(each, file.scope)]
            lock.nodes.append(Node(it, requirements, entry_findings(it)))
        return lock


def entry_findings(package: Package) -> Iterator[Finding]:
    """Yields the findings about an entry whose version is not the one that yarn installs. Build
    metadata isn't compared, since yarn writes `version` without it."""
    version, other = package.version or "", str(package.entry["version"])
    if not package.is_own and version.partition("+")[0] != other.partition("+")[0]:
        yield TwoVersions(package, other)


BERRY_SCHEME = BerryScheme()


class Berry(YarnTool):
    """yarn 2 and later."""

    kind = "yarn 2"
    scheme = BERRY_SCHEME
    is_berry = True

    def read(self, file: Input) -> LockFile:
        """Returns the contents of a lock file, with the package.json files of the project."""
        project, resolutions = self.project_of(file)
        return Reader(self.lock_of(file), project, resolutions).lock_file(file)


BERRY = Berry()
