"""yarn 1.

WHO REQUIRES. The project and its workspaces require what their package.json files have. The project
also requires each resolution. Each package that is found for something requires its `dependencies`
and `optionalDependencies`. yarn doesn't check what nobody requires. Without a package.json all
packages are checked, and the project requires each key that no package requires.

WHAT IS FOUND. The package whose key has what is required, such as `numbers@^1.0.0`. If a resolution
applies to a name, it is the package of the resolution's key, whatever is required. A workspace is
found by its name and version, and has no key.

WHAT IS DROPPED. If a resolution applies to a requirement, and the lock file has another archive for
it than for the resolution, yarn drops the entry. If the project itself requires the same, yarn then
rejects the lock file. This happens if a package or a workspace requires the same, too, or if the
project has workspaces.
"""

import os
from typing import Dict, Iterable, Iterator, List, Optional, Set, Tuple

from semver_parser import Dialect

from ..files import Entry, taking
from ..findings import (
    AnotherPackage,
    Conflict,
    Finding,
    InvalidRange,
    Missing,
    Overridden,
    OwnConflict,
    TwoVersions,
    Unsatisfied,
)
from ..judge import INVALID_RANGE, RIGHT, UNSATISFIED, Verdict
from ..model import PEERS, PROJECT, LockFile, Node, Package, Requirement, Requirer
from ..node.archives import archive_at, without_build
from ..node.integrity import FIELD as INTEGRITY
from ..node.integrity import integrity_findings
from ..node.package_json import (
    KINDS,
    MANIFEST,
    TOP,
    Project,
    compared_in,
    manifest_path,
    name_in,
    refuse_twice,
    requirements_in,
    requirer_of,
    version_in,
)
from ..node.specifiers import (
    alias_of,
    directory_at,
    is_elsewhere,
    name_and_rest,
    verdict_on,
)
from ..node.workspaces import patterns_in
from ..satisfaction import is_range, is_version
from ..tool import Input
from .family import YarnScheme, YarnTool
from .lock import YarnFile, bare, own_name, requirements_of
from .resolutions import Resolution, Resolutions, resolutions_for
from .roots import has_workspaces, is_of_yarn_1, root_around
from .yarnrc import WORKSPACES_SETTING, is_off

TRIVIAL = ("", "*")

# Why something that is missing is listed only with --strict.
FROM_REGISTRY = "the registry is asked"

# What to change if a resolution contradicts what the project requires.
AGREE = "make the resolution and the requirement agree"

# What to change if a directory is gone.
GONE = "put the directory there, or remove what requires it"

# What to change if workspaces are turned off.
WITHOUT = "remove the setting, or the workspaces"


Shared = Set[Tuple[str, str]]
"""Names and specifiers of what the project requires and yarn resolves, see `Reader.shared`."""


class ClassicScheme(YarnScheme):
    """How yarn 1 reads specifiers."""

    def npm_form(self, specifier: str, requirement: Requirement) -> str:
        """Returns a specifier in the form that npm reads: `npm:NAME` without a range is for the tag
        `latest`."""
        name, rest = alias_of(specifier) or ("", specifier)
        return f"npm:{name}@latest" if name and not rest else specifier

    def verdict(self, specifier: str, requirement: Requirement) -> Optional[Verdict]:
        """Returns the verdict on the package that is found. For yarn 1 an empty text accepts every
        version. It also accepts any version for an invalid range."""
        version = requirement.found.version if requirement.found else None
        if not specifier and version is not None and is_version(version, Dialect.NPM):
            return RIGHT
        verdict = super().verdict(specifier, requirement)
        return Verdict(InvalidRange, "invalid range") if verdict == INVALID_RANGE else verdict


class Reader:
    """Reads a lock file, with the package.json files of its project, and with what resolutions
    replace."""

    def __init__(self, lock: YarnFile, project: Project, resolutions: Resolutions) -> None:
        self.lock, self.project, self.resolutions = lock, project, resolutions
        self.known: Dict[str, List[Requirement]] = {}

    def found(self, it: Requirement) -> Optional[Requirement]:
        """Returns a requirement with what is found for it; None if a resolution decides. A
        resolution does not decide for the project itself."""
        own = self.own_found(it)
        if it.requirer.name == PROJECT:
            return own
        is_right = self.is_met(own) and self.replacing(own) is None
        return own if is_right or not self.resolved_for(it) else None

    def own_found(self, it: Requirement) -> Requirement:
        """Returns a requirement with what is found for it without resolutions. If nothing is found,
        it is listed only with `--strict` in two cases: there is no package.json, so resolutions
        aren't known; or none of the project's tables requires it, so yarn asks the registry."""
        if not self.project.manifests:
            excuse = "no package.json"
        else:
            excuse = "" if it.requirer.name == PROJECT else FROM_REGISTRY
        found = self.lock.found(it.name, it.specifier)
        return it._replace(found=found, must_exist=True, excuse=excuse)

    def is_met(self, it: Requirement) -> bool:
        """Returns whether the package that is found is right."""
        return it.found is not None and CLASSIC.scheme.verdict(it.specifier, it) is RIGHT

    def resolved_for(self, it: Requirement) -> List[Resolution]:
        """Returns the resolutions that may apply to a requirement."""
        if it.name not in self.resolutions:
            return []
        if it.requirer.at:
            names = [name_and_rest(each)[0] for each in self.lock.patterns[it.requirer.at[0]]]
        else:
            manifest = self.project.manifests.get(it.requirer.place, {})
            names = ["" if it.requirer.name == PROJECT else name_in(manifest) or ""]
        return resolutions_for(self.resolutions, it.name, it.specifier, names)

    def replacing(self, it: Requirement) -> Optional[str]:
        """Returns what a resolution replaces the package that is found by. Returns None if it is
        not certain that the resolution applies, or if the archive is the same."""
        found = [each for each in self.resolved_for(it) if is_taken(each.spec)][:1]
        spec = next((each.spec for each in found if each.is_anywhere), None)
        other = None if spec is None else self.lock.found(it.name, spec)
        if other is None or it.found is None:
            return None
        archives = {str(each.entry.get("resolved", "")) for each in (other, it.found)}
        return spec if len(archives) > 1 and "" not in archives else None

    def required_by(self, package: Package) -> List[Requirement]:
        """Returns the requirements of a package, with what is found for them."""
        key = package.at[0]
        if key not in self.known:
            requirer = self.lock.requirer(package)
            found = map(self.found, requirements_of(package, requirer))
            self.known[key] = [it for it in found if it is not None]
        return self.known[key]

    def reached(self, required: Iterable[Requirement]) -> List[Package]:
        """Returns the packages that are found for something, in the order of the file."""
        found = set()
        left = list(required)
        while left:
            package = left.pop().found
            if package is not None and package.at not in found:
                found.add(package.at)
                left += self.required_by(package)
        return [it for it in self.lock.packages if it.at in found]

    # ---- what the project requires

    def stated(self) -> Iterator[Requirement]:
        """Yields what the project and its workspaces require, except for workspaces. The project
        isn't one of these: if it requires its own name, yarn takes that from the registry."""
        workspaces = (it for place, it in self.project.manifests.items() if place != TOP)
        versions = {name_in(it): version_in(it) for it in workspaces}
        for directory, manifest in self.project.manifests.items():
            for it in requirements_in(manifest, requirer_of(directory)):
                version, spec = versions.get(it.name), specifier_in(manifest, it)
                if version is None or verdict_on(version, spec) is not RIGHT:
                    yield it._replace(specifier=spec)

    def shared(self, stated: List[Requirement]) -> Shared:
        """Returns the names and specifiers that the project requires and to which yarn applies
        resolutions: all if it has workspaces, and otherwise those that something else requires,
        too."""
        own = {(it.name, it.specifier) for it in stated if it.requirer.name == PROJECT}
        if has_workspaces(self.project.top):
            return own
        others = [it for it in stated if it.requirer.name != PROJECT]
        for package in self.lock.packages:
            others += requirements_of(package, self.lock.requirer(package))
        return own & {(it.name, it.specifier) for it in others}

    def has_other_resolution(self, it: Requirement) -> bool:
        """Returns whether a resolution for a requirement doesn't say the same."""
        specs = (each.spec for each in self.resolved_for(it) if is_taken(each.spec))
        return any(spec != it.specifier for spec in specs)

    def compared(self, stated: List[Requirement], shared: Shared) -> Iterator[Requirement]:
        """Yields what the project and its workspaces require, with what to change if a resolution
        doesn't say the same as something shared. yarn then takes the newest version for each of the
        two, and rejects the lock file that it wrote unless that is the same one."""
        for it in stated:
            is_shared = it.requirer.name == PROJECT and (it.name, it.specifier) in shared
            is_wrong = is_shared and self.has_other_resolution(it)
            yield it._replace(advice=AGREE) if is_wrong else it

    def of_resolutions(self, stated: List[Requirement], shared: Shared) -> Iterator[Requirement]:
        """Yields what the project requires by resolutions, with what is found for it. If one is a
        tag, yarn warns and ignores it. If the entry of one is missing, yarn asks the registry,
        unless it then drops an entry that the project itself requires."""
        found_for = [(it[0], self.lock.found(*it)) for it in shared if it[0] in self.resolutions]
        contradicted = {it.name for it in stated if it.advice}
        for name, groups in self.resolutions.items():
            versions = [it.version for known, it in found_for if known == name and it is not None]
            for spec in dict.fromkeys(it.spec for group in groups.values() for it in group):
                if is_taken(spec):
                    is_dropped = any(verdict_on(it, spec) == UNSATISFIED for it in versions)
                    found = self.own_found(Requirement(Requirer(PROJECT), name, spec))
                    found = found._replace(advice=AGREE if name in contradicted else "")
                    yield found._replace(excuse="" if is_dropped else FROM_REGISTRY)

    def of_keys(self) -> Iterator[Requirement]:
        """Yields the keys of packages that no package requires."""
        required = (it for package in self.lock.packages for it in self.required_by(package))
        used = {self.lock.key_for(it.name, it.specifier) for it in required}
        for pattern in (it for each in self.lock.patterns.values() for it in each):
            if bare(pattern) not in used:
                yield Requirement(Requirer(PROJECT), *name_and_rest(pattern))

    def dropped(
        self, stated: List[Requirement], reached: List[Package]
    ) -> Iterator[Finding]:
        """Yields the findings about requirements of the project whose entry yarn drops because of a
        resolution. That is so if others require the same. If the project has workspaces, it is one
        of the others itself."""
        own = {(it.name, it.specifier): it for it in stated if it.requirer.name == PROJECT}
        is_root = has_workspaces(self.project.top)
        others = [it for it in stated if it.requirer.name != PROJECT or is_root]
        inner = (it for each in reached for it in requirements_of(each, self.lock.requirer(each)))
        for it in (*others, *inner):
            found = self.own_found(it)
            is_right = (it.name, it.specifier) in own and self.is_met(found)
            spec = self.replacing(found) if is_right else None
            if spec is not None and found.found is not None:
                mine = self.own_found(own.pop((it.name, it.specifier)))
                if verdict_on(found.found.version, spec) == UNSATISFIED:
                    yield Overridden(mine, found.found, spec)
                else:
                    conflict = Conflict(mine, spec)
                    conflict.at = found.found.at
                    yield conflict

    def gone_directories(self, stated: List[Requirement]) -> Iterator[Finding]:
        """Yields the findings about directories that the project and its workspaces require and
        that aren't there: yarn reads their package.json."""
        for it in stated:
            path = directory_at(it.specifier, "") if it.specifier.startswith("file:") else None
            is_known = path is not None and self.project.directory is not None and it.requirer.place
            if is_known and self.lock.found(it.name, it.specifier) is not None:
                if not os.path.isdir(os.path.join(self.project.directory or "", path or "")):
                    yield Missing(it).advised(GONE, True)

    def wrong_workspaces(self) -> Iterator[Finding]:
        """Yields the findings about a project that has workspaces and isn't private, or whose
        .yarnrc turns workspaces off, which yarn rejects."""
        top = self.project.top
        patterns = patterns_in(top.get("workspaces", []), "workspaces")
        package = Package(name_in(top), None, PROJECT, is_own=True)
        if patterns and is_off(self.project.directory, WORKSPACES_SETTING):
            what = f"has workspaces, and {WORKSPACES_SETTING} is false in .yarnrc"
            yield OwnConflict(package, "", what).advised(WITHOUT, True)
        elif patterns and not top.get("private"):
            yield OwnConflict(package, "", "has workspaces, and is not private")

    def lock_file(self, file: Input) -> LockFile:
        """Returns the contents of the lock file. What the project requires comes first."""
        stated = list(self.stated() if self.project.manifests else self.of_keys())
        shared = self.shared(stated) if self.resolutions else set()
        stated = list(self.compared(stated, shared))
        found = [it for it in map(self.found, stated) if it is not None]
        outside = [*found, *self.of_resolutions(stated, shared)]
        reached = self.reached(outside) if self.project.manifests else self.lock.packages
        lock = LockFile([], self.lock.own(), lambda: self.edges(outside, reached))
        lock.package_count, lock.stated = len(reached), lambda: compared_in(self.project.manifests.items())
        there = {it.at for it in reached}
        lock.unreached = [self.lock.keyed(it) for it in self.lock.packages if it.at not in there]
        shown = [it for it in stated if file.scope.has(it.kind)]
        dropped = self.dropped(shown, reached) if self.resolutions else ()
        lock.nodes = [Node(None, lock.scoped(outside, file.scope)), Node(findings=dropped)]
        lock.nodes.append(Node(findings=[*self.gone_directories(shown), *self.wrong_workspaces()]))
        for it in map(self.lock.keyed, reached):
            lock.nodes.append(Node(it, self.required_by(it), archive_findings(it)))
        return lock

    def edges(
        self, outside: List[Requirement], reached: List[Package]
    ) -> Iterator[Tuple[str, str]]:
        """Yields who leads to which package."""
        inner = (it for package in reached for it in self.required_by(package))
        for it in (*outside, *inner):
            if it.found is not None:
                yield it.requirer.label, self.lock.requirer(it.found).label


def with_workspaces(project: Project, path: str) -> Project:
    """Returns a project with what yarn 1 considers workspaces: those with a name and a version. Two
    of one name are rejected."""
    with taking(path, MANIFEST):
        found = {TOP: project.top} if project.manifests else {}
        for place, it in project.manifests.items():
            if name_in(it) and version_in(it):
                found[place] = it
        inner = ((name_in(it) or "", place) for place, it in found.items() if place != TOP)
        refuse_twice(inner)
    return project._replace(manifests=found)


def specifier_in(manifest: Entry, it: Requirement) -> str:
    """Returns what a package.json requires by a name. If it is in several tables, the first that
    isn't `*` or empty counts."""
    if it.specifier not in TRIVIAL:
        return it.specifier
    specs = (manifest.get(kind, {}).get(it.name, "") for kind in (*KINDS, PEERS))
    return next((each for each in specs if each not in TRIVIAL), it.specifier)


def is_taken(spec: str) -> bool:
    """Returns whether yarn accepts a resolution."""
    is_any = is_range(spec, Dialect.NPM) or is_elsewhere(spec)
    return is_any or alias_of(spec) is not None


def archive_findings(package: Package) -> Iterator[Finding]:
    """Yields the findings about a package whose archive at a registry is that of another version,
    or whose checksum can't be right."""
    yield from integrity_findings(package, package.entry.get(INTEGRITY), True)
    url = package.source.partition("#")[0]
    archive = archive_at(url) if own_name(package.entry) is not None else None
    version = without_build(package.version or "")
    if archive is not None and version is not None and archive.version != version:
        yield TwoVersions(package, url)


class Classic(YarnTool):
    """yarn 1."""

    kind = "yarn 1"
    scheme = ClassicScheme()

    def read(self, file: Input) -> LockFile:
        """Returns the contents of a lock file, with the package.json files of the project."""
        project, resolutions = self.project_of(file)
        project = with_workspaces(project, manifest_path(file, file.directory) or "")
        return Reader(self.lock_of(file), project, resolutions).lock_file(file)

    def advise(self, finding: Finding) -> None:
        """Adds advice to a finding that the command doesn't repair: yarn doesn't compare what is
        found for an alias, and it uses a resolution even if that contradicts a requirement."""
        super().advise(finding)
        if isinstance(finding, (Missing, Unsatisfied, Overridden)) and finding.requirement.advice:
            finding.advised(finding.requirement.advice, False)
        if isinstance(finding, (AnotherPackage, Unsatisfied)) and alias_of(finding.specifier):
            finding.advised(TwoVersions.advice, False)

    def read_instead(self, path: str, is_named: bool) -> Optional[str]:
        """Returns why yarn 1 doesn't read a yarn.lock: it is in a workspace, and yarn 1 reads that
        of the project. For later versions, a directory with a yarn.lock is a project of its own."""
        root = root_around(os.path.dirname(path)) if is_of_yarn_1(path) else None
        return None if root is None else f"since it is in a workspace of {root}"


CLASSIC = Classic()
