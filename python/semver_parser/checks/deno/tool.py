"""Deno: lock files of version 4 and 5, with the deno.json and package.json files of the project.

WHO REQUIRES. `specifiers` are what is required, such as `npm:numbers@^1.0.0` or `jsr:@std/path@1`.
The project, its members and the packages of JSR list theirs. A specifier that none of them lists is
required by the project's code.

WHAT IS FOUND. The version that the lock file has for a specifier, and the package with that
version. npm packages list exact versions; it is only checked that these are there.

WHAT IS COMPARED. `deno install --frozen` rejects a lock file that was written for manifests that
list something else.
"""

import re
from typing import Any, Dict, Iterator, List, NamedTuple, Optional, Set, Tuple

from ..files import Entry, Unreadable, list_at, object_at, objects_at, text_at, texts_at
from ..judge import RIGHT, Verdict
from ..locating import json_offsets
from ..model import PROJECT, Graph, Keys, LockFile, Node, Package, Requirement, Requirer
from ..node.package_json import MANIFEST
from ..node.specifiers import NodeScheme, name_and_rest
from ..tool import Input, Offsets, Tool
from .manifests import CONFIGS, stale_lists

VERSIONS = ("4", "5")
JSR, NPM = "jsr", "npm"

# What is before the peers of an npm package, which follow its version.
PEERS = "_"

# How only Deno's lock files begin.
MARK = re.compile(
    rb'\s*\{\s*"version"\s*:\s*"\d"\s*(?:\}|,'
    rb'\s*"(?:specifiers|packages|remote|redirects|jsr|npm|workspace)"\s*:)'
)


# Stands for an npm package that is there. Another package lists its version.
THERE = Package(None, None)


class DenoScheme(NodeScheme):
    """How Deno reads specifiers. What an npm package lists only has to be there."""

    def verdict(self, specifier: str, requirement: Requirement) -> Optional[Verdict]:
        """Returns the verdict on what is found."""
        return RIGHT if requirement.found is THERE else super().verdict(specifier, requirement)


class Lister(NamedTuple):
    """A requirer, and the specifiers that it lists."""

    requirer: Requirer
    specifiers: List[str]


def specifiers_at(value: Any, where: str) -> List[str]:
    """Returns a list of specifiers, or of names."""
    return [text_at(it, where) for it in list_at(value, where)]


def split(specifier: str) -> Tuple[str, str, str]:
    """Returns the registry of a specifier, its name, and its range, which may be empty."""
    registry, _, rest = specifier.partition(":")
    name, wanted = name_and_rest(rest.lstrip("/"))
    return registry, name, wanted


def package_at(registry: str, key: str) -> Package:
    """Returns the package of a key."""
    name, there = name_and_rest(key)
    version = there.partition(PEERS)[0] if registry == NPM else there
    return Package(name, version, key, (registry, key))


class Reader:
    """Reads a lock file."""

    def __init__(self, lock: Entry) -> None:
        if lock.get("version") not in VERSIONS:
            version = lock.get("version")
            raise Unreadable(f"deno.lock of version {version} is not supported; 4 and 5 are")
        self.lock = lock
        self.specifiers = texts_at(lock.get("specifiers", {}), "specifiers")
        self.packages = {it: objects_at(lock.get(it, {}), it) for it in (JSR, NPM)}
        self.names = {name_and_rest(key)[0] for key in self.packages[NPM]}

    def listers(self) -> Iterator[Lister]:
        """Yields the project, its members and the packages of JSR."""
        workspace = object_at(self.lock.get("workspace", {}), "workspace")
        members = objects_at(workspace.get("members", {}), "workspace: members")
        at: Keys = ("workspace",)
        yield from listers_of(PROJECT, workspace, at)
        for directory, member in members.items():
            yield from listers_of(directory, member, (*at, "members", directory))
        for key, entry in self.packages[JSR].items():
            listed = specifiers_at(entry.get("dependencies", []), f"{key}: dependencies")
            yield Lister(Requirer(*name_and_rest(key), "", (JSR, key)), listed)

    def required(self) -> Iterator[Requirement]:
        """Yields the specifiers that are required. A list may have a specifier without its range,
        if the lock file has only one of that name."""
        by_name: Dict[str, List[str]] = {}
        for specifier in self.specifiers:
            registry, name, _ = split(specifier)
            by_name.setdefault(f"{registry}:{name}", []).append(specifier)
        listed = set()
        for requirer, specifiers in self.listers():
            for specifier in specifiers:
                named = by_name.get(specifier, [])
                whole = named[0] if len(named) == 1 else specifier
                listed.add(whole)
                yield from self.looked_up(requirer, whole)
        for specifier in self.specifiers:
            if specifier not in listed:
                yield from self.looked_up(Requirer(PROJECT), specifier)

    def looked_up(self, requirer: Requirer, specifier: str) -> Iterator[Requirement]:
        """Yields the requirement for a specifier of npm or JSR, with the package that is found."""
        registry, name, wanted = split(specifier)
        if registry not in self.packages:
            return
        at = ("specifiers", specifier)
        if not requirer.at:
            requirer = requirer._replace(at=at)
        there = self.specifiers.get(specifier)
        found = None
        if there is not None and f"{name}@{there}" in self.packages[registry]:
            found = package_at(registry, f"{name}@{there}")._replace(at=at)
        yield Requirement(requirer, name, wanted or "*", found)

    def of_package(self, key: str, entry: Entry) -> Iterator[Requirement]:
        """Yields what an npm package lists: `NAME@VERSION`, or only a name if the lock file has one
        version of it, each perhaps after another name. It is only checked that this is there."""
        package = package_at(NPM, key)
        requirer = Requirer(package.name or "", package.version or "", "", package.at)
        for listed in specifiers_at(entry.get("dependencies", []), f"{key}: dependencies"):
            known_as, alias, own = listed.partition("@npm:")
            whole = own if alias else listed
            name, wanted = name_and_rest(whole)
            is_there = whole in self.packages[NPM] or (own or known_as) in self.names
            yield Requirement(requirer, name, wanted or "*", THERE if is_there else None)

    def edges(self) -> Iterator[Tuple[str, str]]:
        """Yields what the specifiers and the packages of npm lead to."""
        for specifier, there in self.specifiers.items():
            yield PROJECT, f"{split(specifier)[1]} {there.partition(PEERS)[0]}"
        versions = dict(map(name_and_rest, self.packages[NPM]))
        for key, entry in self.packages[NPM].items():
            for listed in entry.get("dependencies", []):
                known_as, _, own = listed.partition("@npm:")
                name, version = name_and_rest(own or known_as)
                there = (version or versions.get(name, "")).partition(PEERS)[0]
                yield package_at(NPM, key).label, f"{name} {there}"

    def lock_file(self, top: Optional[str]) -> LockFile:
        """Returns what the lock file has, the versions of packages first."""
        there = [package_at(it, key) for it, entries in self.packages.items() for key in entries]
        nodes = [Node(it) for it in there]
        nodes.append(Node(None, (), stale_lists(self.lock, top)))
        nodes.append(Node(None, list(self.required())))
        for key, entry in self.packages[NPM].items():
            nodes.append(Node(None, list(self.of_package(key, entry))))
        lock = LockFile(nodes, there, self.edges)
        lock.unreached = self.unreached(there, lock.graph())
        lock.package_count = len(there) - len(lock.unreached)
        return lock

    def unreached(self, there: List[Package], graph: Graph) -> List[Package]:
        """Returns the packages to which no specifier leads."""
        found: Set[str] = set()
        left = [PROJECT]
        while left:
            at = left.pop()
            if at not in found:
                found.add(at)
                left += graph.get(at, ())
        return [it for it in there if it.label not in found]


def listers_of(who: str, member: Entry, at: Keys) -> Iterator[Lister]:
    """Yields a member for what its deno.json and its package.json list."""
    for entry in (member, object_at(member.get("packageJson", {}), f"{who}: packageJson")):
        listed = specifiers_at(entry.get("dependencies", []), f"{who}: dependencies")
        yield Lister(Requirer(who, "", who, at), listed)


class Deno(Tool):
    """Deno."""

    name, repair, scheme = "Deno", "deno install", DenoScheme()
    lock_files = ("deno.lock",)
    manifests = (MANIFEST, *CONFIGS)

    def recognizes(self, file: Input) -> bool:
        """Returns whether a file begins as only Deno's lock files do."""
        return MARK.match(file.text) is not None

    def read(self, file: Input) -> LockFile:
        """Returns the contents of a lock file, with the manifests of the project."""
        return Reader(file.json).lock_file(file.directory)

    def offsets(self, text: bytes, wanted: Set[Keys]) -> Offsets:
        """Yields the entries of a file."""
        return json_offsets(text, wanted)


DENO = Deno()
