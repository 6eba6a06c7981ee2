"""The output of `cargo metadata --format-version 1`: a graph that Cargo resolved, and the manifests
with its requirements. A Cargo.lock has only the graph.

WHO REQUIRES. Each package requires the `dependencies` of its manifest.

WHAT IS FOUND. The edges of the package in the graph that lead to a package of the name, for the
same kind of dependency and the same target, and by the same other name, if it has one. A path or a
git repository without a version has the requirement `*`, and accepts every version.

WHAT HAS TO BE THERE. Each dependency must have an edge, except these:

- an optional dependency that no active feature includes;
- a development dependency of a package outside of the workspace;
- a dependency for a target, if no edge is only for that target: `--filter-platform` leaves it out.
"""

from typing import Any, Dict, Iterator, List, NamedTuple, Optional, Set, Tuple

from ..files import Entry, WrongShape, list_at, object_at, text_at, version_stated
from ..findings import NotRequired
from ..judge import RIGHT, Verdict, findings_of
from ..model import LockFile, Node, Package, Requirement, Requirer, Scope
from ..tool import Input, Tool
from .tool import CargoScheme

DependencyKind = Tuple[Optional[str], Optional[str]]
"""A kind of dependency, such as `dev`, and a target. A normal dependency has neither."""


class Dependency(NamedTuple):
    """A dependency of a manifest. `other_name` is the name that the manifest gives to it, if
    any."""

    name: str
    other_name: Optional[str]
    requirement: str
    kind: DependencyKind
    is_optional: bool
    has_registry: bool


class GraphEdge(NamedTuple):
    """An edge of the graph: by which name a package has which other package, and for which kinds of
    dependencies."""

    known_as: str
    name: str
    version: str
    kinds: List[DependencyKind]


class GraphPackage(NamedTuple):
    """A package of the graph: its dependencies, its edges, and the optional dependencies that its
    active features include."""

    name: str
    version: str
    dependencies: List[Dependency]
    edges: List[GraphEdge]
    active: Set[str]
    is_member: bool


# ---- what the file has


def optional_text_at(value: Any, where: str) -> Optional[str]:
    """Returns a text of the file, or null."""
    return None if value is None else text_at(value, where)


def kind_at(value: Entry, where: str) -> DependencyKind:
    """Returns the kind and the target of a dependency or an edge."""
    kind = optional_text_at(value.get("kind"), f"{where}: kind")
    return kind, optional_text_at(value.get("target"), f"{where}: target")


def dependency_at(value: Any, where: str) -> Dependency:
    """Returns a dependency of a manifest."""
    entry = object_at(value, where)
    source = optional_text_at(entry.get("source"), f"{where}: source")
    return Dependency(
        text_at(entry.get("name"), f"{where}: name"),
        optional_text_at(entry.get("rename"), f"{where}: rename"),
        text_at(entry.get("req"), f"{where}: req"),
        kind_at(entry, where),
        bool(entry.get("optional")),
        source is not None and not source.startswith("git+"),
    )


def edge_at(value: Any, packages: Dict[str, Entry], where: str) -> GraphEdge:
    """Returns an edge of the graph."""
    entry = object_at(value, where)
    package_id = text_at(entry.get("pkg"), f"{where}: pkg")
    if package_id not in packages:
        raise WrongShape(f": {where}: {package_id} isn't one of its packages")
    kinds = [
        kind_at(object_at(it, f"{where}: dep_kinds"), where)
        for it in list_at(entry.get("dep_kinds"), f"{where}: dep_kinds")
    ]
    name, version = name_and_version(packages[package_id])
    return GraphEdge(text_at(entry.get("name"), f"{where}: name"), name, version, kinds)


def name_and_version(package: Entry) -> Tuple[str, str]:
    """Returns the name and the version of a package."""
    name = text_at(package.get("name"), "packages: name")
    return name, text_at(package.get("version"), f"{name}: version")


def by_id(entries: Any, where: str) -> Dict[str, Entry]:
    """Returns the objects of a list, each by its id."""
    objects = [object_at(it, where) for it in list_at(entries, where)]
    return {text_at(it.get("id"), f"{where}: id"): it for it in objects}


def packages_at(metadata: Entry) -> Iterator[GraphPackage]:
    """Yields the packages of the file, in its order."""
    if metadata.get("version") != 1:
        stated = version_stated(metadata, "version")
        raise WrongShape(f": {stated}; --format-version 1 is needed")
    if metadata.get("resolve") is None:
        raise WrongShape(": it has no graph, as by --no-deps")
    packages = by_id(metadata.get("packages"), "packages")
    nodes = by_id(object_at(metadata["resolve"], "resolve").get("nodes"), "nodes")
    members = list_at(metadata.get("workspace_members"), "workspace_members")
    for package_id, entry in packages.items():
        if package_id not in nodes:
            raise WrongShape(f": {package_id} isn't in its graph")
        node, (name, version) = nodes[package_id], name_and_version(entry)
        asked = list_at(entry.get("dependencies"), f"{name}: dependencies")
        given = list_at(node.get("deps"), f"{name}: deps")
        yield GraphPackage(
            name,
            version,
            [dependency_at(it, f"{name}: dependencies") for it in asked],
            [edge_at(it, packages, f"{name}: deps") for it in given],
            active_at(entry, node, name),
            package_id in members,
        )


def active_at(package: Entry, node: Entry, name: str) -> Set[str]:
    """Returns the optional dependencies that the active features of a package include.
    `NAME?/FEATURE` includes none: what it adds here is no name."""
    features = object_at(package.get("features", {}), f"{name}: features")
    active = set()
    for it in list_at(node.get("features", []), f"{name}: features"):
        where = f"{name}: features: {text_at(it, f'{name}: features')}"
        for each in list_at(features.get(it, []), where):
            item = text_at(each, where)
            dependency, slash, _ = item.partition("/")
            if item.startswith("dep:"):
                active.add(item[len("dep:") :])
            elif slash:
                active.add(dependency)
    return active


# ---- the check


def crate_name(name: str) -> str:
    """Returns the name by which code refers to a package of a manifest."""
    return name.replace("-", "_")


def is_edge_for(edge: GraphEdge, it: Dependency, package: GraphPackage) -> bool:
    """Returns whether an edge of a package is for what it requires. One to the package itself,
    which is for development, has its own name in the graph, whatever other name the manifest
    gives."""
    if edge.name != it.name or it.kind not in edge.kinds:
        return False
    if (edge.name, edge.version) == (package.name, package.version):
        return True
    if it.other_name is not None:
        return edge.known_as == crate_name(it.other_name)
    other_names = {
        crate_name(other.other_name)
        for other in package.dependencies
        if other.other_name is not None and other.name == it.name
    }
    return edge.known_as not in other_names - {crate_name(it.name)}


def has_to_be_there(it: Dependency, package: GraphPackage, targets: Set[Optional[str]]) -> bool:
    """Returns whether the graph has to have an edge for what a package requires, where these
    targets are active."""
    kind, target = it.kind
    is_active = not it.is_optional or (it.other_name or it.name) in package.active
    is_built = kind != "dev" or package.is_member
    return is_active and is_built and (target is None or target in targets)


def active_targets(packages: List[GraphPackage]) -> Set[Optional[str]]:
    """Returns the targets that the graph shows to be active: those that an edge is for alone. An
    edge for several is there if one of them is active."""
    edges = (edge for package in packages for edge in package.edges)
    targets_of_each = ({target for _, target in edge.kinds} for edge in edges)
    return {target for targets in targets_of_each if len(targets) == 1 for target in targets}


# ---- the lock file


class MetadataScheme(CargoScheme):
    """How Cargo reads what a graph has."""

    def verdict(self, specifier: str, requirement: Requirement) -> Optional[Verdict]:
        """Returns the verdict on what is found. A path or git without a version lets each in."""
        if specifier == "*" and requirement.is_anywhere:
            return RIGHT
        return super().verdict(specifier, requirement)


class Reader:
    """Reads a graph. With `--strict` a dependency for any target has to be there."""

    def __init__(self, metadata: Entry, scope: Scope) -> None:
        self.packages, self.scope = list(packages_at(metadata)), scope
        self.targets = active_targets(self.packages)
        each = (it for package in self.packages for it in package.dependencies)
        self.every_target = {it.kind[1] for it in each}

    def required(
        self, it: Dependency, package: GraphPackage, requirer: Requirer
    ) -> Iterator[Requirement]:
        """Yields what a package requires, for each edge that is for it."""
        edges = [edge for edge in package.edges if is_edge_for(edge, it, package)]
        is_required = bool(edges) or has_to_be_there(it, package, self.targets)
        is_strict = not is_required and has_to_be_there(it, package, self.every_target)
        there: List[Optional[Package]] = [Package(each.name, each.version) for each in edges]
        for found in there or [None]:
            yield Requirement(
                requirer,
                it.name,
                it.requirement,
                found,
                it.kind[0] or "",
                is_required or is_strict,
                "platform" if is_strict else "",
                alias=it.other_name or "",
                is_anywhere=not it.has_registry,
            )

    def nodes(self, package: GraphPackage, lock: LockFile) -> Iterator[Node]:
        """Yields a package, what it requires, and the edges that nothing requires."""
        yield Node(Package(package.name, package.version))
        requirer = Requirer(package.name, package.version)
        requirements: List[Requirement] = []
        for it in package.dependencies:
            first, *others = self.required(it, package, requirer)
            kept = lock.scoped([first], self.scope)
            rest = others if kept else ()
            more = [found for other in rest for found in findings_of(other, METADATA.scheme)]
            requirements += kept
            if more:
                yield Node(None, requirements)
                yield Node(findings=more)
                requirements = []
        yield Node(None, requirements)
        for edge in package.edges:
            if not any(is_edge_for(edge, it, package) for it in package.dependencies):
                found = Package(edge.name, edge.version)
                yield Node(findings=[NotRequired(Requirement(requirer, edge.name, "", found))])

    def edges(self) -> Iterator[Tuple[str, str]]:
        """Yields who depends on which package."""
        for it in self.packages:
            for edge in it.edges:
                yield f"{it.name} {it.version}", f"{edge.name} {edge.version}"

    def lock_file(self) -> LockFile:
        """Returns what the graph has, in the order of its packages."""
        lock = LockFile([], [], self.edges)
        lock.package_count = sum(not package.is_member for package in self.packages)
        lock.nodes = [node for it in self.packages for node in self.nodes(it, lock)]
        return lock


class Metadata(Tool):
    """Cargo, of what `cargo metadata` writes."""

    name, scheme = "cargo metadata", MetadataScheme()

    def recognizes(self, file: Input) -> bool:
        """Returns whether a file is JSON with what only a graph has."""
        is_json = file.text.lstrip()[:1] == b"{"
        return is_json and ("workspace_members" in file.json or "resolve" in file.json)

    def read(self, file: Input) -> LockFile:
        """Returns what a graph has."""
        return Reader(file.json, file.scope).lock_file()


METADATA = Metadata()
