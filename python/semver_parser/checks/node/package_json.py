"""The package.json files of a project and its workspaces, and where they state requirements."""

import os
from typing import Dict, Iterable, Iterator, List, NamedTuple, Optional, Tuple

from ..files import (
    STANDARD_INPUT,
    Entry,
    Refusal,
    Unreadable,
    WrongShape,
    bytes_of,
    is_there,
    json_object,
    taking,
    texts_at,
)
from ..findings import Finding, MissingMember, OfRequirement, Unsatisfied
from ..model import (
    FOR_DEVELOPMENT,
    OPTIONAL,
    PEERS,
    PROJECT,
    USUAL,
    Keys,
    Package,
    Requirement,
    Requirer,
)
from ..tool import Input, Statement, Tool
from .workspaces import directories_of, patterns_in

MANIFEST = "package.json"

# The kinds of requirements. If a name is in several, the first counts. KINDS is for pnpm and yarn
# 1, and KINDS_OF_BERRY for yarn 2 and later.
KINDS = (OPTIONAL, USUAL, FOR_DEVELOPMENT)
KINDS_OF_BERRY = (FOR_DEVELOPMENT, OPTIONAL, USUAL)
ALL_KINDS = (PEERS, USUAL, OPTIONAL, FOR_DEVELOPMENT)

# The directory of the project itself.
TOP = "."


class Project(NamedTuple):
    """The package.json files of a project and its workspaces by their directories, relative to
    `directory`, if that is known. If the project's own isn't there, there are none."""

    directory: Optional[str]
    manifests: Dict[str, Entry]

    @property
    def top(self) -> Entry:
        """The package.json of the project, or an empty one."""
        return self.manifests.get(TOP, {})

    def by_name(self) -> Dict[str, Entry]:
        """Returns the manifests that have a name, by their names."""
        named = ((name_in(it), it) for it in self.manifests.values())
        return {name: it for name, it in named if name is not None}


def requirer_of(directory: str, at: Keys = ()) -> Requirer:
    """Returns the project or a workspace as a requirer."""
    name = PROJECT if directory in ("", TOP) else directory
    return Requirer(name, "", directory, at)


def requirements_in(
    manifest: Entry, requirer: Requirer, kinds: Tuple[str, ...] = KINDS
) -> Iterator[Requirement]:
    """Yields what a package.json requires, each name once: peers only if they are among the
    kinds."""
    seen = set()
    for kind in kinds:
        for name, spec in texts_at(manifest.get(kind, {}), kind).items():
            if name not in seen:
                seen.add(name)
                yield Requirement(requirer, name, spec, kind=kind, must_exist=kind != OPTIONAL)


def compared_in(manifests: Iterable[Tuple[str, Entry]]) -> Iterator[Requirement]:
    """Yields what the project and its workspaces require. `--duplicates` compares that."""
    for directory, manifest in manifests:
        requirer = requirer_of(directory)
        yield from requirements_in(manifest, requirer, (USUAL, FOR_DEVELOPMENT, OPTIONAL))


def checked(manifest: Entry) -> Entry:
    """Returns a package.json. It is rejected if a requirement isn't a text."""
    for kind in KINDS:
        texts_at(manifest.get(kind, {}), kind)
    return manifest


def manifest_in(directory: str) -> Optional[Entry]:
    """Returns the package.json in a directory, if it is there."""
    path = os.path.join(directory, MANIFEST)
    with taking(path, MANIFEST):
        return checked(json_object(bytes_of(path))) if is_there(path) else None


def unchecked_manifest(directory: str) -> Entry:
    """Returns the package.json in a directory; an empty one if it isn't there or isn't valid."""
    try:
        return json_object(bytes_of(os.path.join(directory, MANIFEST)))
    except (OSError, Refusal, Unreadable, WrongShape, RecursionError):
        return {}


def version_in(manifest: Entry) -> Optional[str]:
    """Returns the version in a package.json, if it is a text."""
    version = manifest.get("version")
    return version if isinstance(version, str) else None


def name_in(manifest: Entry) -> Optional[str]:
    """Returns the name in a package.json, if it is a text."""
    name = manifest.get("name")
    return name if isinstance(name, str) else None


# ---- the project of a lock file


def manifest_path(file: Input, directory: Optional[str]) -> Optional[str]:
    """Returns the path of the package.json of a project: that of `--package-json`, else the one in
    its directory, if it is there."""
    if file.named is not None or directory is None:
        return file.named
    beside = os.path.join(directory, MANIFEST)
    return beside if os.path.exists(beside) else None


def project_in(directory: Optional[str], path: Optional[str], is_named: bool = False) -> Project:
    """Returns the package.json files of a project. `path` is that of the project's own."""
    if path is None:
        return Project(directory, {})
    with taking(path, MANIFEST):
        manifest = checked(json_object(bytes_of(path, is_named)))
        patterns = patterns_in(manifest.get("workspaces", []), "workspaces")
        below = os.path.dirname(path) if path != STANDARD_INPUT else None
        places = [] if below is None else directories_of(patterns, below)
    found = ((place, manifest_in(os.path.join(below or "", place))) for place in places)
    own = {place: it for place, it in found if it is not None}
    return Project(below, {TOP: manifest, **own})


def project_beside(file: Input) -> Project:
    """Returns the package.json files of the project of a lock file, if they are there."""
    path = manifest_path(file, file.directory)
    return project_in(file.directory, path, file.named is not None)


def missing_workspace(
    name: str, version: Optional[str], place: str, at: Keys = ()
) -> Finding:
    """Returns the finding about a workspace that the lock file lacks."""
    return MissingMember(Package(name, version, place, at))


def refuse_twice(names: Iterable[Tuple[str, str]]) -> Dict[str, str]:
    """Returns the directories of workspaces by their names. Two workspaces of one name are
    rejected."""
    found: Dict[str, str] = {}
    for name, place in names:
        if found.setdefault(name, place) != place:
            raise WrongShape(f": workspaces: {found[name]} and {place} have the same name")
    return found


# ---- where they state requirements


def statement_of(
    finding: Finding, file: Input, directory: Optional[str], requirer: str = ""
) -> Optional[Statement]:
    """Returns where a package.json states the requirement of a finding, if the project or a
    workspace has it."""
    if not isinstance(finding, OfRequirement) or directory is None:
        return None
    it = finding.requirement
    place = requirer or it.requirer.name
    if it.requirer.version or "node_modules" in place.split("/"):
        return None
    keys: List[Keys] = [(kind, it.name) for kind in ALL_KINDS]
    if place == PROJECT:
        path = None if file.named == STANDARD_INPUT else manifest_path(file, directory)
    else:
        path = os.path.normpath(os.path.join(directory, place, MANIFEST))
    return None if path is None else Statement(path, keys)


# ---- the tools


class NodeTool(Tool):
    """A tool whose lock files are for package.json files."""

    manifests: Tuple[str, ...] = (MANIFEST,)

    def advise(self, finding: Finding) -> None:
        """Adds advice to a finding that the command doesn't repair: if a directory of the project
        doesn't have the required version, the command would look for that in the registry."""
        if isinstance(finding, Unsatisfied) and finding.found is not None and finding.found.is_own:
            finding.advised("change the version in the manifest, or the requirement", True)

    def statement(self, finding: Finding, file: Input) -> Optional[Statement]:
        """Returns where a package.json states a requirement."""
        return statement_of(finding, file, file.directory)
