"""The contents of a `bun.lock`: JSON with comments and trailing commas. It has workspaces, and
packages, each of which is a list that begins with `NAME@WHAT-IS-THERE`.

The key of a package is its path. `router` is for all, and `runner/router` is for `runner` only.
Workspaces are listed by their directories, and are in paths by their names.
"""

import re
from typing import Any, Dict, Iterator, Optional

from ..files import Entry, WrongShape, list_at, object_at, objects_at, text_at, version_stated
from ..model import Package
from ..node.package_json import TOP, version_in
from ..node.specifiers import name_and_rest

# What is before the directory in the package of a workspace.
WORKSPACE = "workspace:"

# A step of a path: a name, which may have a scope.
STEP = re.compile(r"@[^/]+/[^/]+|[^/]+")


def workspaces_of(lock: Entry) -> Dict[str, Entry]:
    """Returns the workspaces by their directories. The directory of the project is empty."""
    if lock.get("lockfileVersion") not in (0, 1) or isinstance(lock["lockfileVersion"], bool):
        raise WrongShape(f" of lockfileVersion 0 or 1: {version_stated(lock)}")
    return objects_at(lock.get("workspaces"), "workspaces")


def packages_of(lock: Entry, manifests: Dict[str, Entry]) -> Iterator[Package]:
    """Yields the packages of a file, in its order. Workspaces have the versions in their
    package.json."""
    for key, value in object_at(lock.get("packages", {}), "packages").items():
        where = f"packages: {key}"
        parts = list_at(value, where)
        name, there = name_and_rest(text_at(parts[0] if parts else None, where))
        fields: Any = next((it for it in parts if isinstance(it, dict)), {})
        at = ("packages", key)
        if there.startswith(WORKSPACE):
            version = version_in(manifests.get(there[len(WORKSPACE) :], {}))
            yield Package(name, version, key, at, "", True)
        else:
            yield Package(name, version_of(there), key, at, there, False, fields)


def version_of(there: str) -> Optional[str]:
    """Returns the version of a package of a registry. A package at a URL or a path has none."""
    return None if ":" in there or "/" in there else there


def places_from(path: str, name: str) -> Iterator[str]:
    """Yields the keys under which a name is looked up from a path: the nearest first."""
    steps = STEP.findall(path)
    for count in range(len(steps), -1, -1):
        yield "/".join((*steps[:count], name))


def nearest(path: str, name: str, packages: Dict[str, Package]) -> Optional[Package]:
    """Returns the package of a name that is nearest to a path."""
    return next((packages[it] for it in places_from(path, name) if it in packages), None)


def path_of(workspace: Entry, directory: str) -> str:
    """Returns the path from which a workspace requires something."""
    if directory in ("", TOP):
        return ""
    return text_at(workspace.get("name", ""), f"workspaces: {directory}: name")
