"""Cargo: a Cargo.lock with its manifests, and whether Cargo would leave it unchanged.

WHO REQUIRES. The members of the workspace, and the packages that they have by paths, whose
Cargo.toml files are there. A Cargo.lock doesn't have what the other packages require; `cargo
metadata --format-version 1` prints that.

WHAT IS FOUND. Among the edges of a package, the first package that has the required name, a version
that is required, and the required source or a patch of it. An edge for which there is no
requirement is listed, and so is a package to which nothing leads.
"""

import os
import re
from typing import Dict, Iterator, List, Optional, Set, Tuple

from semver_parser import Dialect

from ..directories import named_below
from ..files import Entry, WrongShape, toml_object
from ..findings import (
    AnotherCommit,
    AnotherSource,
    Finding,
    Missing,
    MissingMember,
    NotRequired,
    OfRequirement,
    ManifestVersion,
    Unreached,
    Unsatisfied,
)
from ..judge import INVALID_RANGE, RIGHT, UNSATISFIED, Scheme, Verdict, findings_of
from ..locating import text_at_path, toml_lines
from ..model import Keys, LockFile, Node, Package, Requirement, Requirer, Scope
from ..tool import Input, Offsets, Statement, Tool
from .demands import checksum_findings, conflict_findings, feature_findings
from .manifests import MANIFEST, Dependency, Manifest
from .members import unread_beside_workspace
from .packages import Lock, key_of
from .patches import patch_findings
from .project import Workspace
from .resolution import Match, Resolution
from .sources import is_other_commit

LOCK_FILE = "Cargo.lock"

# What only a Cargo.lock has. Without packages it has only its version.
MARK = re.compile(rb"\[\[package\]\]|(?:\A|\n)\[root\]|\A(?:#.*\n|\s)*version = [0-9]+\s*\Z")

# A package of a Cargo.lock, and the fields that identify it.
TOP = re.compile(rb"^\[(?:\[package\]|root)\][^\n]*\n(?:[^\[\n][^\n]*\n)*", re.M)
FIELD = re.compile(rb'^(name|version) = "([^"\n]*)"', re.M)
NAME = re.compile(r"""\s*name\s*=\s*["']([^"']*)""")


class CargoScheme(Scheme):
    """How Cargo reads versions and requirements, for the packages of one lock file."""

    dialect = Dialect.CARGO

    def __init__(self, resolution: Optional[Resolution] = None) -> None:
        self.resolution = resolution

    def is_plainly_met(self, it: Requirement) -> bool:
        """Returns whether a range is met and nothing else counts: in a Cargo.lock, the source
        does."""
        return it.dependency is None and super().is_plainly_met(it)

    def verdict(self, specifier: str, requirement: Requirement) -> Optional[Verdict]:
        """Returns the verdict on the package that is found. It has to come from the right source,
        too."""
        dependency, found = requirement.dependency, requirement.found
        if self.resolution is None or dependency is None or found is None:
            return super().verdict(specifier, requirement)
        met = self.resolution.is_met(dependency, found)
        if met is None or not met:
            return INVALID_RANGE if met is None else UNSATISFIED
        source = dependency.source.text(self.resolution.project.folder)
        if not self.resolution.is_source(dependency, found):
            return Verdict(AnotherSource, printed=source)
        if is_other_commit(dependency.source, found.source):
            return Verdict(AnotherCommit, printed=source)
        return RIGHT


class Reader:
    """Reads a lock file, with the manifests of a directory."""

    def __init__(self, lock: Entry, directory: str, scope: Scope) -> None:
        project = Workspace(directory)
        self.resolution = Resolution(Lock(lock, project.place), project)
        self.lock, self.scope = self.resolution.lock, scope
        self.scheme = CargoScheme(self.resolution)

    def version_findings(self) -> Iterator[Finding]:
        """Yields the findings about packages at paths whose manifests have another version."""
        for package in (*self.lock.packages, *self.lock.unused):
            version = self.resolution.version_of(package)
            is_own = self.lock.directory_of(package) is not None
            if is_own and version != package.version and self.scheme.is_version(package):
                yield ManifestVersion(package, version, MANIFEST)

    def candidates(self, dependency: Dependency, package: Package) -> List[Package]:
        """Returns the packages of a name to which the edges of a package lead. If there are edges,
        but only to packages that Cargo ignores, returns these."""
        name = dependency.name
        edges = [it for it in self.resolution.edges_of(package) if it.name == name]
        there = [it.to for it in edges if it.to is not None]
        if there or not edges:
            return there
        return [it for it in self.lock.packages if self.lock.is_gone(it) and it.name == name]

    def required(self, match: Match, package: Package) -> Iterator[Requirement]:
        """Yields what a package requires, with the package that is found. If none is found, yields
        it with each package of the name instead."""
        it = match.dependency
        requirer = requirer_of(package)
        alias = it.other_name or ""
        kind = "dev-dependencies" if it.is_development else "dependencies"
        made = Requirement(requirer, it.name, it.requirement, match.found, kind, alias=alias)
        made = made._replace(dependency=it)
        others = [] if match.found else self.candidates(it, package)
        yield from (made._replace(found=other) for other in others)
        if not others:
            yield made

    def manifest_nodes(self, manifest: Manifest, lock: LockFile) -> Iterator[Node]:
        """Yields what the package of a manifest requires."""
        package = self.resolution.entry_of(manifest)
        if package is None:
            missing = MissingMember(Package(manifest.name or "", manifest.version))
            yield Node(findings=[missing])
            return
        matches = list(self.resolution.matches_of(manifest))
        for match in matches:
            if match.is_active:
                first, *others = self.required(match, package)
                kept = lock.scoped([first], self.scope)
                rest = others if kept else ()
                more = [it for other in rest for it in findings_of(other, self.scheme)]
                yield Node(None, kept)
                yield Node(findings=more)
        yield Node(findings=self.edge_findings(package, matches))

    def edge_findings(self, package: Package, matches: List[Match]) -> Iterator[Finding]:
        """Yields the findings about edges of a package that its manifest has no requirement for."""
        used = {key_of(it.found) for it in matches if it.found is not None}
        unmet = {it.dependency.name for it in matches if it.found is None and it.is_active}
        requirer = requirer_of(package)
        for edge in self.resolution.edges_of(package):
            if edge.to is not None and key_of(edge.to) not in used and edge.name not in unmet:
                found = edge.to._replace(at=requirer.at)
                yield NotRequired(Requirement(requirer, edge.name, "", found))

    def lost(self) -> Iterator[Finding]:
        """Yields the findings about edges that lead nowhere, of packages whose manifests aren't
        there."""
        for package in self.lock.packages:
            is_own = self.lock.directory_of(package) is not None
            if not is_own and key_of(package) in self.resolution.reached:
                for edge in self.resolution.edges_of(package):
                    if edge.to is None:
                        requirer = requirer_of(package)
                        yield Missing(Requirement(requirer, edge.name, edge.version or "*"))

    def unreached(self) -> Iterator[Finding]:
        """Yields the findings about packages to which nothing leads."""
        for package in self.lock.packages:
            is_reached = key_of(package) in self.resolution.reached
            if not is_reached and not self.lock.is_gone(package):
                yield Unreached(package)

    def edges(self) -> Iterator[Tuple[str, str]]:
        """Yields who depends on which package. An edge without a version leads to all packages of
        its name."""
        by_name: Dict[str, List[str]] = {}
        for it in self.lock.packages:
            by_name.setdefault(it.name or "", []).append(it.label)
        for it in self.lock.packages:
            for text in it.entry.get("dependencies", []):
                name, *rest = text.split(" ")
                for label in [f"{name} {rest[0]}"] if rest else by_name.get(name, []):
                    yield it.label, label

    def own_findings(self) -> Iterator[Finding]:
        """Yields the findings about what Cargo demands besides requirements."""
        yield from checksum_findings(self.lock)
        yield from conflict_findings(self.resolution)
        yield from feature_findings(self.resolution)

    def lock_file(self) -> LockFile:
        """Returns the contents of the lock file: first its versions, then what each package
        requires whose manifest is there, then the patches, and then the edges of the other
        packages. If all of that is right, packages to which nothing leads are listed."""
        there = [it for it in self.lock.packages if it.source]
        lock = LockFile([], there, self.edges, if_right=self.unreached, scheme=self.scheme)
        project = self.resolution.project
        members = sum(self.resolution.entry_of(it) is not None for it in project.members)
        lock.package_count = len(self.lock.packages) - members
        lock.nodes = [Node(it) for it in (*self.lock.packages, *self.lock.unused)]
        lock.nodes.append(Node(findings=list(self.version_findings())))
        for manifest in self.resolution.manifests():
            lock.nodes += self.manifest_nodes(manifest, lock)
        lock.nodes.append(Node(findings=[*patch_findings(self.resolution), *self.lost()]))
        lock.nodes.append(Node(findings=list(self.own_findings())))
        return lock


def requirer_of(package: Package) -> Requirer:
    """Returns a package as what requires something."""
    return Requirer(package.name or "", package.version or "", "", package.at)


def crates_below(directory: str) -> Dict[str, str]:
    """Returns the names of packages below a directory, each with its Cargo.toml."""
    crates: Dict[str, str] = {}
    for place in named_below(directory, (MANIFEST,)):
        path = os.path.join(directory, place)
        text = text_at_path(path).decode("utf-8", "replace")
        for table, key, line in toml_lines(text):
            found = NAME.match(line)
            if table == "package" and key == "name" and found is not None:
                crates[found.group(1)] = path
    return crates


class Cargo(Tool):
    """Cargo, with a Cargo.lock."""

    name, repair, scheme = "Cargo", "cargo update --workspace", CargoScheme()
    lock_files = (LOCK_FILE,)
    manifests = (MANIFEST,)

    def recognizes(self, file: Input) -> bool:
        """Returns whether a file has what only a Cargo.lock has."""
        return MARK.search(file.text) is not None

    def read(self, file: Input) -> LockFile:
        """Returns the contents of a lock file, with its manifests."""
        lock = file.parsed(toml_object)
        if file.directory is None:
            raise WrongShape(" beside a Cargo.toml: name the file")
        return Reader(lock, file.directory, file.scope).lock_file()

    def offsets(self, text: bytes, wanted: Set[Keys]) -> Offsets:
        """Yields the packages of a file, each with the offset of its name."""
        for found in TOP.finditer(text):
            fields = {it.group(1): it for it in FIELD.finditer(text, found.start(), found.end())}
            if len(fields) == 2:
                name, version = fields[b"name"], fields[b"version"]
                keys = (it.group(2).decode("utf-8", "replace") for it in (name, version))
                yield ("package", *keys), name.start()

    def advise(self, finding: Finding) -> None:
        """Adds advice to a finding about a package at a path with another version: its manifest or
        another one has to change; and about another commit, which the command leaves as it is."""
        if isinstance(finding, AnotherCommit):
            finding.advised(f"run cargo update {finding.requirement.name}", False)
        if isinstance(finding, Unsatisfied) and finding.found and not finding.found.source:
            finding.advised("change the version in the manifest, or the requirement", True)

    def statement(self, finding: Finding, file: Input) -> Optional[Statement]:
        """Returns where the Cargo.toml of a package below the directory states a requirement."""
        if not isinstance(finding, OfRequirement) or file.directory is None:
            return None
        crates = file.once(crates_below, file.directory)
        it = finding.requirement
        path = crates.get(it.requirer.name)
        return None if path is None else Statement(path, [(it.alias or it.name,)])

    def read_instead(self, path: str, is_named: bool) -> Optional[str]:
        """Returns why Cargo doesn't read the lock file of a member: it reads that of the
        workspace."""
        other = unread_beside_workspace(os.path.dirname(path))
        return None if other is None else f"since Cargo reads {other}"


CARGO = Cargo()
