"""The model of a lock file, which is the same for each tool: packages, and requirements that lead
to them.

A tool reads its lock file and its manifests into a `LockFile`. `judge` checks that.
"""

from dataclasses import dataclass, field
from typing import (
    TYPE_CHECKING,
    Any,
    Callable,
    Dict,
    Iterable,
    List,
    NamedTuple,
    Optional,
    Sequence,
    Tuple,
)

if TYPE_CHECKING:
    from .cargo.manifests import Dependency
    from .findings import Finding

NOT_REACHED = "not reached"
"""The excuse of a finding about a package to which nothing leads, and which the tool ignores."""

PROJECT = "the project"
"""The name of the project itself as a requirer."""

Keys = Tuple[str, ...]
"""The keys that lead to an entry of a file."""

Graph = Dict[str, List[str]]
"""The labels to which the project, each workspace and each package lead, by their labels."""

Entry = Dict[str, Any]

# The kinds of requirements, by the tables of a package.json.
USUAL, FOR_DEVELOPMENT = "dependencies", "devDependencies"
OPTIONAL, PEERS = "optionalDependencies", "peerDependencies"
DEVELOPMENT_KINDS = (FOR_DEVELOPMENT, "dev-dependencies", "dev")


class Scope(NamedTuple):
    """Which requirements are checked: whether peers are, and whether those for development are."""

    has_peers: bool = True
    has_development: bool = True

    def has(self, kind: str) -> bool:
        """Returns whether requirements of a kind are checked."""
        if kind == PEERS:
            return self.has_peers
        return self.has_development or kind not in DEVELOPMENT_KINDS


class Package(NamedTuple):
    """A package of a lock file.

    - `name` and `version` are None if the file doesn't have them.
    - `place` is its path, as the tool writes it.
    - `at` has the keys of its entry.
    - `source` is the URL that it comes from.
    - `is_own` says whether it is a workspace or another directory of the project.
    """

    name: Optional[str]
    version: Optional[str]
    place: str = ""
    at: Keys = ()
    source: str = ""
    is_own: bool = False
    entry: Entry = {}

    @property
    def label(self) -> str:
        """The name and the version, as a graph has them."""
        return f"{self.name or ''} {self.version or ''}".strip()


class Requirer(NamedTuple):
    """Who requires something: its name, its version if findings print that, the place by which its
    tool refers to it, and the keys of its entry."""

    name: str
    version: str = ""
    place: str = ""
    at: Keys = ()

    @property
    def label(self) -> str:
        """The name with the version, if it has one."""
        return f"{self.name} {self.version}" if self.version else self.name


class Locked(NamedTuple):
    """What a lock file was written for, and what the manifest states now.

    - `kind` and `specifier` are what the lock file has.
    - `stated_kind` is the kind in the manifest; None if it has no such requirement.
    - `same` has the specifiers that the tool treats as equal to that of the manifest, and `stated`
      is the one that is printed.
    - `manifest` is the name of the manifest.
    """

    kind: str
    specifier: str
    stated_kind: Optional[str]
    same: Tuple[str, ...]
    stated: str
    manifest: str = "package.json"


class Requirement(NamedTuple):
    """A requirement: who requires which name, by which specifier, and the package that the lock
    file has for it.

    - `kind` is the table of the manifest.
    - `must_exist` says that it is missing if the lock file has no package. If there is an `excuse`,
      it is listed only with `--strict`.
    - `replaced_by` has the specifiers of overrides that may count instead. If the specifier is
      itself that of an override, `is_override` is true.
    - `accepted` is another specifier that is right.
    - `alias` is the name that the manifest gives to the package.
    - `locked` is what the lock file was written for, if it has that.
    - `advice` is what to change if it isn't satisfied, if no command repairs that.
    - `dependency` is what the Cargo.toml of a Cargo.lock states. If `is_anywhere`, a dependency of
      `cargo metadata` is at a path or in git, where `*` accepts every version.
    """

    requirer: Requirer
    name: str
    specifier: str
    found: Optional[Package] = None
    kind: str = USUAL
    must_exist: bool = True
    excuse: str = ""
    replaced_by: Tuple[str, ...] = ()
    is_override: bool = False
    accepted: Optional[str] = None
    alias: str = ""
    locked: Optional[Locked] = None
    advice: str = ""
    dependency: Optional["Dependency"] = None
    is_anywhere: bool = False

    def written_as(self, specifier: str) -> "Requirement":
        """Returns a requirement of a manifest with the specifier for which the lock file was
        written, whose kind isn't compared."""
        return self._replace(locked=Locked("", specifier, "", (self.specifier,), self.specifier))

    def only_locked(self) -> "Requirement":
        """Returns a requirement of the lock file that the manifest has no longer."""
        return self._replace(locked=Locked("", self.specifier, None, (), ""))

    @property
    def is_gone(self) -> bool:
        """Whether only the lock file has it, and the manifest no longer has it."""
        return self.locked is not None and self.locked.stated_kind is None

    @property
    def is_counted(self) -> bool:
        """Whether it is one of the requirements that the closing line counts."""
        return (self.found is not None or self.must_exist) and not self.is_gone


@dataclass
class Node:
    """A package or a manifest of a lock file: the package whose version is checked, what it
    requires, and other findings of its tool."""

    package: Optional[Package] = None
    requirements: Sequence[Requirement] = ()
    findings: Iterable["Finding"] = ()


class Left(NamedTuple):
    """What a tool does about a finding: an excuse, if it leaves that as it is; and an advice, if its
    command doesn't repair it, with whether that makes the command fail."""

    excuse: str = ""
    advice: str = ""
    is_blocking: bool = False


def nothing_left(_: "Finding") -> Left:
    """Returns neither an excuse nor an advice for any finding."""
    return Left()


@dataclass
class LockFile:
    """A lock file as a graph, with the manifests of its project.

    - `nodes` are in the order in which findings are listed.
    - `packages` are all packages of the file except those of the project itself.
    - `edges` returns who leads to what, if to anything, by labels, for the paths of `--why`.
    - `stated` returns what the project and its workspaces require, for `--duplicates`.
    - `left` returns why the tool leaves what a finding is about as it is, if it does, and an advice.
    - `if_right` returns findings that count only if nothing else is listed. Otherwise they are about
      packages that aren't reached.
    - `unreached` are packages to which nothing leads, and which the tool ignores.
    - `scheme` is that of the file, if it isn't that of its tool.
    - `left_out` counts what the scope leaves out, and `from_lock` the workspaces and links whose
      manifests aren't there. `package_count` is the number of packages that are reached.
    """

    nodes: List[Node]
    packages: List[Package] = field(default_factory=list)
    edges: Callable[[], Iterable[Tuple[str, Optional[str]]]] = tuple
    stated: Callable[[], Iterable[Requirement]] = tuple
    left: Callable[["Finding"], Left] = nothing_left
    if_right: Callable[[], Iterable["Finding"]] = tuple
    unreached: Sequence[Package] = ()
    left_out: int = 0
    from_lock: int = 0
    package_count: int = 0
    scheme: Any = None

    def graph(self) -> Graph:
        """Returns what each requirer leads to."""
        graph: Graph = {}
        for requirer, found in self.edges():
            graph.setdefault(requirer, []).extend([] if found is None else [found])
        return graph

    def scoped(self, requirements: Iterable[Requirement], scope: Scope) -> List[Requirement]:
        """Returns the requirements that are in a scope, and counts the others."""
        each = list(requirements)
        kept = [it for it in each if scope.has(it.kind)]
        self.left_out += len(each) - len(kept)
        return kept
