"""pnpm: lock files of lockfileVersion 5, 6 and 9, with the manifests of the project.

WHAT IS COMPARED. The requirements in package.json files have to be those that the lock file was
written for, compared as strings, and so have settings. Packages without an entry are missing.

OVERRIDES. They are in the lock file. If an override applies to a requirement, and the version does
not satisfy the requirement itself, the override is what has to be satisfied.
"""

import json
import os
import re
from functools import reduce
from operator import and_
from typing import Any, Dict, Iterator, List, NamedTuple, Optional, Set, Tuple

from semver_parser import Dialect, Range

from ..files import Entry, object_at, texts_at, yaml_objects
from ..findings import Finding, OfRequirement, Stale, StaleSetting
from ..locating import yaml_offsets
from ..model import (
    OPTIONAL,
    USUAL,
    Keys,
    LockFile,
    Node,
    Package,
    Requirement,
    Scope,
)
from ..node.package_json import MANIFEST, TOP, NodeTool
from ..node.specifiers import CATALOG, NodeScheme, may_overlap, name_and_rest, range_of
from ..satisfaction import is_met, range_in
from ..tool import Input, Offsets, Statement
from . import settings
from .entries import (
    LINK,
    Entries,
    called_by,
    entries_of,
    missing_entries,
    reached_from,
    unreached,
)
from .lock import (
    Catalogs,
    Importer,
    Packages,
    by_catalog,
    catalog_requirements,
    check_version,
    directories_in,
    found_at,
    importers_for,
    importers_of,
    keys_of,
    packages_of,
    peers_of,
    reader_of,
    requirements_of,
    requirer_at,
    stated_in,
)
from .roots import root_around
from .settings import WORKSPACE_FILE, keys_of_setting
from .specifiers import npm_form_of, parent_and_name, takes_peer

# The replacement in an override that removes a requirement.
REMOVED = "-"

# What only pnpm's lock files have.
MARK = re.compile(rb"(?:\A|\n)lockfileVersion:")


class Override(NamedTuple):
    """An override: the package whose requirements it applies to, the range of these requirements,
    each empty if it applies to all, and the replacement."""

    parent: str
    within: str
    spec: str


Overrides = Dict[str, List[Override]]
"""Overrides by the names to which they apply."""


class PnpmScheme(NodeScheme):
    """How pnpm reads specifiers."""

    def npm_form(self, specifier: str, requirement: Requirement) -> str:
        """Returns a specifier in the form that npm reads, for the version that is found. The range
        of a peer is checked by pnpm's own rule."""
        version = requirement.found.version if requirement.found else None
        wanted = npm_form_of(requirement.name, specifier, version or "")
        is_peer = requirement.kind == "peerDependencies" and version is not None
        return version or "" if is_peer and takes_peer(wanted, version or "") else wanted


# ---- overrides


def overrides_of(lock: Entry) -> Overrides:
    """Returns the overrides by the names to which they apply. A key is `NAME`, `NAME@RANGE`, or one
    of these after `PARENT>`. The parent has the same form."""
    overrides: Overrides = {}
    for key, spec in texts_at(lock.get("overrides") or {}, "overrides").items():
        parent, last = parent_and_name(key)
        name, within = name_and_rest(last)
        overrides.setdefault(name, []).append(Override(parent, within, spec))
    return overrides


def is_for(override: Override, it: Requirement) -> bool:
    """Returns whether an override of the name applies to a requirement, by its requirer and by its
    range. The lock file doesn't have the names of the project, its workspaces and packages at URLs,
    so these may have any name."""
    name, within = name_and_rest(override.parent)
    if name and it.requirer.version:
        is_within = not within or is_met(within, it.requirer.version, Dialect.NPM) is not False
        if name != it.requirer.name or not is_within:
            return False
    return not override.within or may_overlap(range_of(it.specifier), override.within)


def overridden(it: Requirement, overrides: Overrides, catalogs: Catalogs) -> Requirement:
    """Returns a requirement with the overrides that apply to it, and the range of its catalog."""
    others = [each for each in overrides.get(it.name, []) if is_for(each, it)]
    if it.locked is not None and not it.is_gone:
        specs = [each.spec for each in others]
        if all(each.parent or each.within for each in others):
            specs.append(it.specifier)
        same = () if specs == [REMOVED] else tuple(specs)
        it = it._replace(locked=it.locked._replace(same=same))
    it = by_catalog(it, catalogs)
    specs = [each.spec for each in overrides.get(it.name, []) if is_for(each, it)]
    replaced = tuple(spec for spec in specs if spec != REMOVED)
    return it._replace(replaced_by=replaced, must_exist=it.must_exist and REMOVED not in specs)


# ---- what pnpm demands besides requirements


def as_text(value: Any) -> str:
    """Returns a value as a text without quotes. What is not a text in JSON may be one in the lock
    file."""
    return json.dumps(value, ensure_ascii=False, sort_keys=True).replace('"', "") if value else ""


def field_findings(importer: Importer, manifest: Entry) -> Iterator[Finding]:
    """Yields the findings about fields of a package.json that the lock file has, other than
    requirements."""
    published = object_at(manifest.get("publishConfig") or {}, "publishConfig")
    own = {
        "dependenciesMeta": as_text(manifest.get("dependenciesMeta")),
        "publishDirectory": as_text(published.get("directory")),
    }
    for name, wanted in own.items():
        locked = as_text(importer.fields.get(name))
        if locked != wanted:
            yield Stale(Requirement(importer.requirer, name, wanted), wanted, locked, MANIFEST)


def conflicts_of(lock: Entry, packages: Packages) -> Set[str]:
    """Returns the names of missing peers for which no version satisfies all requirers. pnpm leaves
    them out, and warns."""
    wanted: Dict[str, List[Range]] = {}
    for key, fields, depends in packages_of(lock, packages):
        for it in peers_of(key, fields, depends, packages):
            found = range_in(range_of(it.specifier), Dialect.NPM)
            if it.found is None and it.must_exist and found is not None:
                wanted.setdefault(it.name, []).append(found)
    return {name for name, ranges in wanted.items() if not reduce(and_, ranges)}


# ---- the file


class Reader:
    """Reads a document of a lock file, with the package.json files in and below a directory, if
    that is known."""

    def __init__(self, document: Entry, top: Optional[str], scope: Scope) -> None:
        check_version(document)
        self.document, self.top, self.scope = document, top, scope
        self.entries, self.read = entries_of(document), reader_of(top)
        self.packages = self.entries.packages
        self.overrides = overrides_of(document)
        self.by_catalogs = list(catalog_requirements(document, self.packages))
        self.catalogs = {(it.requirer.name, it.name): it.specifier for it in self.by_catalogs}

    def edges(self) -> Iterator[Tuple[str, str]]:
        """Yields who leads to which package."""
        for directory, fields in importers_of(self.document).items():
            importer = Importer(directory, (), fields, None)
            for it in requirements_of(importer, self.entries, lambda _: None):
                if it.found is not None:
                    yield importer.requirer.label, f"{it.found.name} {it.found.version}"
        for key, _, depends in packages_of(self.document, self.packages):
            given = {**depends.get(OPTIONAL, {}), **depends.get(USUAL, {})}
            for name, text in given.items():
                found = found_at(text, name, self.packages)
                yield requirer_at(key, {}).label, f"{found.name} {found.version}"

    def stated(self) -> Iterator[Requirement]:
        """Yields what the project and its workspaces require according to the lock file."""
        for directory, fields in importers_of(self.document).items():
            importer = Importer(directory, (), fields, None)
            for it in stated_in(importer):
                yield Requirement(importer.requirer, it.name, it.specifier)

    def there(self) -> List[Package]:
        """Returns the packages whose keys have a name and a version."""
        called = ((key, called_by(key)) for key in self.packages)
        return [Package(*it, "", ("packages", key)) for key, it in called if it is not None]

    def package_nodes(self, lock: LockFile) -> Iterator[Node]:
        """Yields the packages with their peers. Without `autoInstallPeers` pnpm only warns if a
        peer is missing."""
        switches = object_at(self.document.get("settings") or {}, "settings")
        is_automatic = switches.get("autoInstallPeers") == "true"
        conflicts = conflicts_of(self.document, self.packages) if is_automatic else set()
        for key, fields, depends in packages_of(self.document, self.packages):
            called, at = called_by(key), keys_of(key, self.packages)
            peers = (
                it if is_automatic and it.name not in conflicts else it._replace(excuse="peer")
                for it in peers_of(key, fields, depends, self.packages)
            )
            kept = lock.scoped(peers, self.scope)
            required = [overridden(it, self.overrides, {}) for it in kept]
            yield Node(None if called is None else Package(*called, "", at), required)

    def nodes(self, lock: LockFile) -> Iterator[Node]:
        """Yields settings, catalogs, the project and its workspaces, and packages."""
        if directories_in(self.top) is not None:
            own = settings.settings_of(self.top or "", self.read(TOP) or {})
            yield Node(findings=settings.stale_settings(self.document, own))
        yield Node(None, [overridden(it, self.overrides, {}) for it in self.by_catalogs])
        importers = list(importers_for(self.document, self.top, self.read))
        for importer in importers:
            found = requirements_of(importer, self.entries, self.read)
            kept = lock.scoped(found, self.scope)
            yield Node(None, [overridden(it, self.overrides, self.catalogs) for it in kept])
            if importer.required is not None:
                manifest = self.read(importer.directory) or {}
                yield Node(findings=field_findings(importer, manifest))
        reached = reached_from(self.entries, keys_from(importers, self.entries))
        lock.unreached = list(unreached(self.entries, reached))
        yield Node(findings=missing_entries(self.entries, reached))
        yield from self.package_nodes(lock)

    def lock_file(self) -> LockFile:
        """Returns the contents of the document."""
        lock = LockFile([], self.there(), self.edges, self.stated)
        lock.nodes = list(self.nodes(lock))
        lock.package_count = len(self.packages) - len(lock.unreached)
        return lock


def keys_from(importers: List[Importer], entries: Entries) -> List[str]:
    """Returns the keys of the entries to which the project and its workspaces lead."""
    found = (it for importer in importers for it in stated_in(importer))
    keys = (entries.key_of(it.found, it.name) for it in found if not it.found.startswith(LINK))
    return [it for it in dict.fromkeys(keys) if it in entries.snapshots]


class Pnpm(NodeTool):
    """pnpm."""

    name, repair, scheme = "pnpm", "pnpm install", PnpmScheme()
    lock_files = ("pnpm-lock.yaml",)
    manifests = (MANIFEST, ".npmrc", WORKSPACE_FILE)

    def recognizes(self, file: Input) -> bool:
        """Returns whether a file has what only pnpm's lock files have."""
        return MARK.search(file.text) is not None

    def read(self, file: Input) -> LockFile:
        """Returns the contents of the documents of a lock file. With pnpm 11 the first document has
        what pnpm itself needs, which is in no package.json. The last one is that of the project."""
        *before, last = file.parsed(yaml_objects)
        lock = Reader(last, file.directory, file.scope).lock_file()
        for document in reversed(before):
            other = Reader(document, None, file.scope).lock_file()
            lock.nodes = [*other.nodes, *lock.nodes]
            lock.package_count += other.package_count
            lock.unreached = [*other.unreached, *lock.unreached]
            lock.left_out += other.left_out
        return lock

    def offsets(self, text: bytes, wanted: Set[Keys]) -> Offsets:
        """Yields the keys of a file."""
        return yaml_offsets(text, wanted)

    def statement(self, finding: Finding, file: Input) -> Optional[Statement]:
        """Returns where a package.json states a requirement, or where a pnpm-workspace.yaml states
        that of a catalog, or a setting."""
        directory = file.directory
        if directory is None:
            return None
        if isinstance(finding, StaleSetting):
            is_there = finding.file in (WORKSPACE_FILE, MANIFEST)
            path = os.path.join(directory, finding.file)
            keys = keys_of_setting(finding.at, finding.file)
            return Statement(path, keys) if is_there else None
        if isinstance(finding, OfRequirement):
            it = finding.requirement
            if it.requirer.name.startswith(CATALOG):
                catalog = it.requirer.name[len(CATALOG) :]
                keys = settings.keys_of_catalog(catalog, it.name)
                return Statement(os.path.join(directory, WORKSPACE_FILE), keys)
        return super().statement(finding, file)

    def read_instead(self, path: str, is_named: bool) -> Optional[str]:
        """Returns why pnpm doesn't read a pnpm-lock.yaml: it is in a workspace, and pnpm reads that
        of the project."""
        root = root_around(os.path.dirname(path))
        return None if root is None else f"since it is in a workspace of {root}"


PNPM = Pnpm()
