"""Bun: lock files of lockfileVersion 0 and 1, with the package.json files of the project.

WHO REQUIRES. The project and its workspaces require what their package.json files have. If these
aren't there, they require what the lock file has of them. Each package requires what the lock file
has of it.

WHAT IS FOUND. The package of the name that is nearest to the path of its requirer. This is as in
npm's directories, but paths consist of names of packages.

OVERRIDES AND CATALOGS. They are in the lock file. An override counts if the version doesn't satisfy
the requirement itself. `catalog:` is checked by the range of the catalog.

WHAT IS COMPARED. `bun install --frozen-lockfile` rejects a lock file that was written for other
package.json files.
"""

import os
import re
from typing import Iterator, List, Optional, Set, Tuple

from ..files import Entry, Unreadable, list_at, objects_at, texts_at
from ..findings import Finding, StaleSetting, Unreached
from ..locating import json_offsets
from ..model import (
    FOR_DEVELOPMENT,
    OPTIONAL,
    PEERS,
    USUAL,
    Keys,
    LockFile,
    Node,
    Package,
    Requirement,
    Requirer,
)
from ..node.json_with_comments import object_with_comments, plain_json
from ..node.package_json import (
    MANIFEST,
    TOP,
    NodeTool,
    Project,
    manifest_in,
    missing_workspace,
    name_in,
    project_beside,
    requirer_of,
)
from ..node.specifiers import NodeScheme
from ..pnpm.specifiers import npm_form_of_workspace
from ..tool import Input, Offsets
from .lock import nearest, packages_of, path_of, workspaces_of
from .replacements import Replacements, locked_replacements, replaced_by, replacements_of

# The kinds of requirements. If a name is in several, the first one counts.
KINDS_OF_EACH = (OPTIONAL, USUAL, PEERS)
KINDS_OF_WORKSPACES = (FOR_DEVELOPMENT, *KINDS_OF_EACH)
KINDS_TO_COMPARE = (USUAL, FOR_DEVELOPMENT, OPTIONAL)

# How only Bun's lock files begin, and how binary ones begin, which Bun can convert to text.
BLANK = rb"(?:\s|//[^\n]*\n|/\*.*?\*/)*"
MARK = re.compile(BLANK + rb'\{(?:\s*"\w+"\s*:\s*\d+\s*,)*\s*"workspaces"\s*:\s*\{', re.S)
BINARY = b"#!/usr/bin/env bun\n"


class BunScheme(NodeScheme):
    """How Bun reads specifiers."""

    def npm_form(self, specifier: str, requirement: Requirement) -> str:
        """Returns a specifier in the form that npm reads, for the version that was found."""
        version = requirement.found.version if requirement.found else None
        return npm_form_of_workspace(specifier, version or "")


def requirements_in(
    fields: Entry, requirer: Requirer, kinds: Tuple[str, ...]
) -> Iterator[Requirement]:
    """Yields what a workspace or a package requires, each name once."""
    where = f"{requirer.at[0]}: {requirer.at[1]}"
    optional = list_at(fields.get("optionalPeers", []), f"{where}: optionalPeers")
    metas = objects_at(fields.get("peerDependenciesMeta", {}), f"{where}: peerDependenciesMeta")
    seen = set()
    for kind in kinds:
        for name, spec in texts_at(fields.get(kind, {}), f"{where}: {kind}").items():
            if name not in seen:
                seen.add(name)
                may_lack = name in optional or metas.get(name, {}).get("optional") is True
                must_exist = kind != OPTIONAL and not (kind == PEERS and may_lack)
                yield Requirement(requirer, name, spec, kind=kind, must_exist=must_exist)


class Reader:
    """Reads a lock file, with the package.json files of its project."""

    def __init__(self, lock: Entry, project: Project) -> None:
        self.lock, self.top = lock, project.directory
        self.workspaces = workspaces_of(lock)
        self.beside = {"" if at == TOP else at: it for at, it in project.manifests.items()}
        self.manifests = {at: self.manifest_at(at) or it for at, it in self.workspaces.items()}
        self.packages = list(packages_of(lock, self.manifests))
        self.by_key = {it.place: it for it in self.packages}
        self.replacements: Replacements = replacements_of(lock)

    def manifest_at(self, directory: str) -> Optional[Entry]:
        """Returns the package.json of a workspace, if it is there."""
        if directory in self.beside:
            return self.beside[directory]
        is_path = self.top is not None and "\0" not in directory
        return manifest_in(os.path.join(self.top or "", directory)) if is_path else None

    def looked_up(self, it: Requirement, path: str) -> Requirement:
        """Returns a requirement from a path with the package that is found, the range of its
        catalog, and its overrides."""
        override = self.replacements.overrides.get(it.name)
        others = () if override is None else (self.replacements.by_catalog(override, it.name),)
        spec = self.replacements.by_catalog(it.specifier, it.name)
        found = nearest(path, it.name, self.by_key)
        return it._replace(specifier=spec, found=found, replaced_by=others)

    def of_workspace(self, directory: str) -> Iterator[Requirement]:
        """Yields what a workspace requires. If its package.json was read, each requirement has what
        the lock file was written for."""
        requirer = requirer_of(directory, ("workspaces", directory))
        path = path_of(self.workspaces[directory], directory)
        own = list(requirements_in(self.manifests[directory], requirer, KINDS_OF_WORKSPACES))
        if directory not in self.beside:
            yield from (self.looked_up(it, path) for it in own)
            return
        record = self.workspaces[directory]
        written = {it.name: it for it in requirements_in(record, requirer, KINDS_OF_WORKSPACES)}
        for it in own:
            there = written.pop(it.name, None)
            if there is not None:
                it = it.written_as(there.specifier)
            yield self.looked_up(it, path)
        for it in written.values():
            yield it.only_locked()

    def of_package(self, package: Package) -> Iterator[Requirement]:
        """Yields what a package requires."""
        requirer = Requirer(package.name or "", package.version or "", package.place, package.at)
        for it in requirements_in(package.entry, requirer, KINDS_OF_EACH):
            yield self.looked_up(it, package.place)

    def workspace_findings(self) -> Iterator[Finding]:
        """Yields the findings about workspaces that only a package.json has, or only the lock
        file."""
        for directory, manifest in self.beside.items():
            if directory not in self.workspaces:
                yield missing_workspace(name_in(manifest) or directory, None, directory)
        for directory, workspace in self.workspaces.items() if self.beside else ():
            if directory and directory not in self.beside:
                name = str(workspace.get("name") or directory)
                yield Unreached(Package(name, None, directory, ("workspaces", directory)))

    def replacement_findings(self) -> Iterator[Finding]:
        """Yields the findings about overrides, catalogs and patches that differ from those of the
        lock file."""
        if not self.beside:
            return
        own, locked = replaced_by(self.beside[""]), locked_replacements(self.lock)
        for table in dict.fromkeys([*locked, *own]):
            at, texts = locked.get(table, ((), {}))
            now = own.get(table, {})
            for key in {**texts, **now}:
                wanted, there = now.get(key, ""), texts.get(key, "")
                if wanted != there and is_known(key, wanted):
                    keys = (*at, key) if there else ()
                    yield StaleSetting(f"{table}.{key}", wanted, there, MANIFEST, keys)

    def unreached(self) -> Iterator[Finding]:
        """Yields the findings about packages to which nothing leads."""
        left: List[Tuple[str, List[Entry]]] = []
        for directory in {**self.workspaces, **self.beside}:
            entry = self.workspaces.get(directory, {})
            entries = [entry, self.beside.get(directory, {})]
            left.append((path_of(entry, directory), entries))
        seen: Set[str] = set()
        for path, entries in left:
            tables = (entry.get(kind) or {} for entry in entries for kind in KINDS_OF_WORKSPACES)
            for name in {name: None for table in tables for name in table}:
                found = nearest(path, name, self.by_key)
                if found is not None and found.place not in seen:
                    seen.add(found.place)
                    left.append((found.place, [found.entry]))
        for key, package in self.by_key.items():
            if key not in seen and not package.is_own:
                yield Unreached(package)

    def edges(self) -> Iterator[Tuple[str, str]]:
        """Yields who leads to which package."""
        tops = (it for directory in self.workspaces for it in self.of_workspace(directory))
        inner = (it for package in self.packages for it in self.of_package(package))
        for it in (*tops, *inner):
            if it.found is not None:
                yield it.requirer.label, it.found.label

    def stated(self) -> Iterator[Requirement]:
        """Yields what the project and its workspaces require according to the lock file."""
        for directory, workspace in self.workspaces.items():
            at = ("workspaces", directory)
            yield from requirements_in(workspace, requirer_of(directory, at), KINDS_TO_COMPARE)

    def lock_file(self, file: Input) -> LockFile:
        """Returns the contents of the lock file. The versions of packages are checked first."""
        there = [it for it in self.packages if not it.is_own]
        registry = [it for it in there if it.version]
        lock = LockFile([], registry, self.edges, self.stated, package_count=len(there))
        lock.nodes = [Node(it) for it in self.packages]
        first = [*self.workspace_findings(), *self.replacement_findings()]
        lock.nodes.append(Node(findings=first))
        each = [*map(self.of_workspace, self.workspaces), *map(self.of_package, self.packages)]
        lock.nodes += [Node(None, lock.scoped(it, file.scope)) for it in each]
        lock.nodes.append(Node(findings=self.unreached()))
        return lock


def is_known(key: str, spec: str) -> bool:
    """Returns whether Bun writes a replacement into the lock file as it is in package.json."""
    return not spec.startswith("$") and ("/" not in key or key.startswith("@"))


class Bun(NodeTool):
    """Bun."""

    name, repair, scheme = "Bun", "bun install", BunScheme()
    lock_files = ("bun.lock", "bun.lockb")

    def recognizes(self, file: Input) -> bool:
        """Returns whether a file begins as only Bun's lock files do. A binary one is rejected."""
        if file.text.startswith(BINARY):
            raise Unreadable("bun.lockb is binary; run bun install --save-text-lockfile")
        return MARK.match(file.text) is not None

    def read(self, file: Input) -> LockFile:
        """Returns the contents of a lock file, with the package.json files of the project."""
        return Reader(file.parsed(object_with_comments), project_beside(file)).lock_file(file)

    def offsets(self, text: bytes, wanted: Set[Keys]) -> Offsets:
        """Yields the entries of a file. They are found in its plain JSON, in which all offsets are
        the same."""
        return json_offsets(plain_json(text), wanted)


BUN = Bun()
