"""npm: lock files of lockfileVersion 1, 2 and 3, with the package.json files of the project.

WHO REQUIRES. Each package requires its `peerDependencies`, `dependencies` and
`optionalDependencies`. The project, its workspaces and everything else outside of `node_modules`
also require their `devDependencies`. If a name is in several of these, npm keeps the last one, in
this order. In lockfileVersion 1 each package requires what is in its `requires`. What the project,
its workspaces and linked directories require is in their package.json; from lockfileVersion 2 on it
is also in the lock file, where it may be stale.

WHAT IS FOUND. The nearest package of the name: in the package's own `node_modules`, or else in that
of a directory around it. The search for a peer begins in the directory around the package. The
project and its workspaces have none around them, so their peers are looked for in their own
`node_modules`. A link is followed. If nothing is found, there is no version. The project has each
workspace by a link under its name.

WHAT COUNTS. Packages to which nothing leads from the project and its workspaces aren't checked.
What npm leaves as it is is listed only with `--strict`.

OVERRIDES. They aren't in the lock file, but in the project's package.json. If an override replaces
a requirement, the override is what has to be satisfied.
"""

import os
from functools import cached_property
from typing import Dict, Iterable, Iterator, List, Optional, Set, Tuple

from ..files import STANDARD_INPUT, Entry, bytes_of, json_object, taking, text_at
from ..findings import (
    AnotherPackage,
    Conflict,
    Finding,
    Missing,
    MissingTarget,
    NotChecked,
    OfRequirement,
    TwoPackages,
    TwoVersions,
    Unsatisfied,
)
from ..judge import RIGHT, UNSATISFIED, Verdict
from ..locating import AFTER_KEY_OF_OBJECT, json_offsets
from ..model import (
    OPTIONAL,
    PROJECT,
    Keys,
    LockFile,
    Node,
    Package,
    Requirement,
    Scope,
)
from ..node.archives import archive_at
from ..node.integrity import FIELD as INTEGRITY
from ..node.integrity import integrity_findings, is_usual
from ..node.npmrc import LEGACY_PEERS, STRICT_PEERS, is_set
from ..node.package_json import (
    MANIFEST,
    NodeTool,
    compared_in,
    manifest_path,
    missing_workspace,
    statement_of,
)
from ..node.specifiers import (
    NodeScheme,
    directory_at,
    is_any,
    is_archive,
    is_fetched,
    is_no_range,
    reason_of,
    verdict_on,
)
from ..satisfaction import is_met, is_version
from ..tool import Input, Offsets, Statement
from .below_workspaces import put_below_workspaces
from .contradictions import Contradictions
from .disk import check_manifest, manifest_in, read_links, root_around, workspaces_of
from .leaving import Leaving
from .lock import (
    WORKSPACES,
    Packages,
    has_old_form,
    is_left_out,
    is_linked,
    is_of_what_is_there,
    is_top,
    keys_of,
    package_at,
    packages_of,
    requirements_at,
    within,
    without_optional,
)
from .overrides import Reading, Rule, put_overrides, reading_of, refused, rules_of
from .peers import Peers

# The lock file that npm writes into node_modules.
HIDDEN = ".package-lock.json"

Requirements = Dict[str, List[Requirement]]
"""The requirements of each place."""


class NpmScheme(NodeScheme):
    """How npm reads versions and specifiers."""

    def verdict(self, specifier: str, requirement: Requirement) -> Optional[Verdict]:
        """Returns the verdict on the package that is found. `acceptDependencies` may accept it."""
        verdict = self.verdict_by(specifier, requirement)
        accepted = requirement.accepted
        if accepted is not None and self.verdict_by(accepted, requirement) is RIGHT:
            return RIGHT
        return verdict

    def verdict_by(self, specifier: str, requirement: Requirement) -> Optional[Verdict]:
        """Returns the verdict for a specifier:

        - npm accepts every package for `*`.
        - A URL of an archive accepts only a package from exactly that URL.
        - A path of a directory accepts only a link to exactly that directory.
        - A package of a registry satisfies no directory, archive or repository.
        - In an old lock file, an archive or a repository has no version, and isn't checked.
        """
        found = requirement.found
        if found is not None and found.name is not None:
            if is_any(specifier):
                return RIGHT
            if found.version is None and found.source:
                why = reason_of(specifier) if is_no_range(specifier) else "no version"
                return Verdict(NotChecked, why)
            if is_top(found.place):
                requirer = "" if requirement.is_override else requirement.requirer.place
                directory = directory_at(specifier, requirer)
                if directory is not None:
                    return RIGHT if directory == found.place else UNSATISFIED
                if is_fetched(specifier):
                    return UNSATISFIED
            elif is_archive(specifier) and found.source:
                return RIGHT if specifier == found.source else UNSATISFIED
            elif is_fetched(specifier) and archive_at(found.source) is not None:
                return UNSATISFIED
        return verdict_on(None if found is None else found.version, specifier)

    def is_version(self, package: Package) -> bool:
        """Returns whether a version is valid. npm doesn't check those of the project itself and of
        its own directories."""
        return package.is_own or super().is_version(package)

    def fits(self, requirement: Requirement) -> bool:
        """Returns whether npm accepts the package that is found."""
        if requirement.found is None:
            return False
        verdict = self.verdict(requirement.specifier, requirement)
        return verdict is None or verdict.finding is NotChecked


NPM_SCHEME = NpmScheme()


# ---- what npm demands besides requirements


def is_own_archive(package: Package, resolved: object) -> bool:
    """Returns whether the archive of a package has its name and version, as nearly all have."""
    name = package.name or ""
    end = f"/{name}/-/{name.rpartition('/')[2]}-{package.version}.tgz"
    return isinstance(resolved, str) and resolved.endswith(end)


def archive_findings(package: Package, resolved: object) -> Iterator[Finding]:
    """Yields the findings about the archive of a package, which npm installs."""
    name, version = package.name or "", package.version
    if not isinstance(resolved, str) or version is None:
        return
    if not is_version(version, NPM_SCHEME.dialect):
        return
    archive = archive_at(resolved)
    if archive is not None and archive.name != name:
        yield TwoPackages(package, resolved)
    elif archive is not None and not is_met(archive.version, version, NPM_SCHEME.dialect):
        yield TwoVersions(package, resolved)


def project_findings(
    packages: Packages, found: Dict[str, Package], workspaces: Dict[str, str], is_old: bool
) -> Iterator[Finding]:
    """Yields the findings about links that lead nowhere, and about workspaces without a link."""
    for place, entry in packages.items():
        if entry.get("link") and found[place].name is None:
            target = text_at(entry.get("resolved"), f"{place}: resolved")
            yield MissingTarget(Package(None, None, place, keys_of(place, is_old)), target)
    for name, directory in workspaces.items():
        if not is_linked(name, directory, found):
            yield missing_workspace(name, None, directory, keys_of("", is_old))


# ---- the graph


def edges_of(required: Requirements) -> Iterator[Tuple[str, Optional[str]]]:
    """Yields the places to which the requirements of each place lead. A path begins at the project
    or at a workspace."""
    for place, each in required.items():
        yield place or PROJECT, None
        for it in each:
            if it.found is not None and it.kind != WORKSPACES:
                yield place or PROJECT, it.found.place or PROJECT


def reached(required: Requirements, tops: Iterable[str]) -> Set[str]:
    """Returns the places that are reached from some of them. npm removes the others."""
    found: Set[str] = set()
    left = list(tops)
    while left:
        place = left.pop()
        if place not in found:
            found.add(place)
            left += [it.found.place for it in required.get(place, ()) if it.found is not None]
    return found


def looked_at(required: Requirements) -> Set[str]:
    """Returns the places that npm reaches from the project without a link."""
    found: Set[str] = set()
    left = [""]
    while left:
        place = left.pop()
        if place not in found:
            found.add(place)
            to = (it.found.place for it in required.get(place, ()) if it.found is not None)
            left += [it for it in to if not is_top(it)]
    return found


class Npm(NodeTool):
    """npm."""

    name, repair, scheme = "npm", "npm install", NPM_SCHEME
    lock_files = ("package-lock.json", "npm-shrinkwrap.json")
    manifests = (MANIFEST, ".npmrc")
    takes_package_json = True

    def recognizes(self, file: Input) -> bool:
        """Returns whether a file is JSON."""
        return file.text.lstrip()[:1] == b"{"

    def directory_of(self, file: Input) -> Optional[str]:
        """Returns the directory of the project. npm also has a lock file in its node_modules."""
        if file.directory is None or os.path.basename(file.path) != HIDDEN:
            return file.directory
        return os.path.normpath(os.path.join(file.directory, ".."))

    def read(self, file: Input) -> LockFile:
        """Returns the contents of a lock file, with the project's package.json."""
        beside = self.directory_of(file)
        directory = beside
        if beside is None and file.named not in (None, STANDARD_INPUT):
            directory = os.path.dirname(file.named or "")
        manifest, rules = manifest_and_rules(manifest_path(file, beside), file.named is not None)
        has_peers = file.scope.has_peers and not is_set(directory, LEGACY_PEERS)
        scope = file.scope._replace(has_peers=has_peers)
        return Reader(lock_of(file), directory, manifest, rules, scope).lock_file()

    def offsets(self, text: bytes, wanted: Set[Keys]) -> Offsets:
        """Yields the entries of a file, which are objects."""
        return json_offsets(text, wanted, AFTER_KEY_OF_OBJECT)

    def advise(self, finding: Finding) -> None:
        """Adds advice to a finding if the command doesn't repair it: npm leaves out an optional
        dependency that can't be installed, and doesn't compare names."""
        super().advise(finding)
        if isinstance(finding, (AnotherPackage, TwoPackages)):
            finding.advised(TwoVersions.advice, False)
        is_unmet = isinstance(finding, (Missing, Unsatisfied))
        if is_unmet and isinstance(finding, OfRequirement) and finding.requirement.kind == OPTIONAL:
            advice = "install the optional dependency, or remove it from the manifest"
            finding.advised(f"{advice} if it can't be installed", False)

    def statement(self, finding: Finding, file: Input) -> Optional[Statement]:
        """Returns where a package.json states a requirement."""
        return statement_of(finding, file, self.directory_of(file))

    def read_instead(self, path: str, is_named: bool) -> Optional[str]:
        """Returns why npm doesn't read a package-lock.json: a shrinkwrap is next to it, or it is in
        a workspace, and npm reads that of the project."""
        directory, name = os.path.split(path)
        other = self.lock_files[1]
        if not is_named and name != other and os.path.isfile(os.path.join(directory, other)):
            return f"since {other} is beside it"
        root = root_around(directory)
        return None if root is None else f"since it is in a workspace of {root}"


NPM = Npm()


def lock_of(file: Input) -> Entry:
    """Returns the object in a lock file. As for npm, a file with the name of a lock file that has no
    lockfileVersion is one of lockfileVersion 1."""
    lock = file.json
    is_named = os.path.basename(file.path) in (*NPM.lock_files, HIDDEN)
    return {"lockfileVersion": 1, **lock} if is_named else lock


def manifest_and_rules(path: Optional[str], is_named: bool) -> Tuple[Optional[Entry], Rule]:
    """Returns the project's package.json, if there is one, and the rules of its overrides."""
    if path is None:
        return None, rules_of({})
    with taking(path, MANIFEST):
        manifest = json_object(bytes_of(path, is_named))
        check_manifest(manifest)
        return manifest, rules_of(manifest)


class Reader:
    """Reads a lock file: its packages, what is found at each place, and what each package
    requires."""

    def __init__(
        self,
        lock: Entry,
        directory: Optional[str],
        manifest: Optional[Entry],
        rules: Rule,
        scope: Scope,
    ) -> None:
        self.directory, self.manifest, self.rules, self.scope = directory, manifest, rules, scope
        self.packages, self.left_out = packages_of(lock, manifest), 0
        self.is_old = has_old_form(lock)
        self.from_lock = read_links(self.packages, directory)
        self.workspaces = workspaces_of(self.packages, directory, manifest is not None)
        if scope != Scope():
            self.packages, self.left_out = within(self.packages, scope)
        places = self.packages
        self.found = {it: package_at(places, it, self.is_old) for it in places}
        self.required = {place: self.requirements_at(place) for place in places}
        if is_of_what_is_there(lock):
            self.required = {it: without_optional(each) for it, each in self.required.items()}

    def requirements_at(self, place: str) -> List[Requirement]:
        """Returns what the package at a place requires."""
        entry = self.packages[place]
        return list(requirements_at(place, entry, self.found, self.workspaces))

    def checked(self) -> List[str]:
        """Returns the places that are checked. npm removes packages to which nothing leads."""
        places = self.packages
        checked = [it for it in places if not is_left_out(places[it], self.scope)]
        if self.manifest is None:
            return checked
        return [it for it in checked if it in self.reached]

    @cached_property
    def reached(self) -> Set[str]:
        """The places to which something leads from the project and its workspaces."""
        return reached(self.required, ["", *self.workspaces.values()])

    def unreached(self) -> List[Package]:
        """Returns the packages to which nothing leads. It isn't known which these are without the
        project's package.json, or if requirements are left out."""
        if self.manifest is None or self.scope != Scope():
            return []
        own = (it for it, entry in self.packages.items() if not entry.get("link"))
        return [self.found[it] for it in own if it not in self.reached]

    def nodes(self, checked: List[str], first: List[Finding]) -> Iterator[Node]:
        """Yields a node for the project as a whole, and one for each place that is checked."""
        yield Node(findings=first)
        for place in checked:
            entry = self.packages[place]
            package = None if entry.get("link") else self.found[place]
            resolved = entry.get("resolved")
            is_plain = package is None or is_own_archive(package, resolved)
            own = [] if package is None or is_plain else list(archive_findings(package, resolved))
            integrity = entry.get(INTEGRITY)
            if package is not None and integrity is not None and not is_usual(integrity):
                own += integrity_findings(package, integrity, False)
            required = self.required[place]
            if not place:
                required = [it for it in required if it.kind != WORKSPACES]
            yield Node(package, required, own)

    def leaving(self, reading: Reading) -> Leaving:
        """Returns what decides which findings are about something that npm leaves as it is."""
        packages, required, fits = self.packages, self.required, NPM_SCHEME.fits
        is_strict = is_set(self.directory, STRICT_PEERS)
        peers = None if is_strict else Peers(required, fits, self.workspaces.values(), reading.rules)
        apart = self.contradictions(reading)
        return Leaving(packages, peers, self.rules, lambda: looked_at(required), apart)

    def contradictions(self, reading: Reading) -> Set[Tuple[str, str]]:
        """Returns the places and names of peers that contradict what the project requires. Names
        with overrides are left out: an override may decide for a peer, too."""
        if not self.scope.has_peers:
            return set()
        there, manifests = self.packages, {}
        for place in self.workspaces.values():
            manifest = there.get(place) or manifest_in(os.path.join(self.directory or "", place))
            manifests[place] = manifest or {}
        found = Contradictions(there, self.required, manifests, NPM_SCHEME.fits).found()
        return {it for it in found if it[1] not in reading.named}

    def lock_file(self) -> LockFile:
        """Returns what the lock file has."""
        packages, found, required = self.packages, self.found, self.required
        first = list(project_findings(packages, found, self.workspaces, self.is_old))
        reading = reading_of(packages, found, required, self.rules)
        first += [Conflict(it, override) for it, override in refused(reading)]
        checked, plain = self.checked(), dict(required)
        put_overrides(packages, required, reading)
        if reading.named and self.workspaces:
            put_below_workspaces(required, self.workspaces, self.rules, looked_at(required))
        own = (it for it, each in packages.items() if not each.get("link"))
        there = [it for it in own if not found[it].is_own]
        return LockFile(
            list(self.nodes(checked, first)),
            [found[it] for it in there],
            lambda: edges_of(plain),
            lambda: compared_in((it, packages[it]) for it in packages if is_top(it)),
            self.leaving(reading).left,
            left_out=self.left_out,
            unreached=self.unreached(),
            from_lock=len(self.from_lock.intersection(checked)),
            package_count=len(set(there).intersection(checked)),
        )
