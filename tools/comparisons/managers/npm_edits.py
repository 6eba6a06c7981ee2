"""Edits of projects of npm as by hand, which make the lock file stale, and edits of lock files."""

import copy
import json
from typing import Callable, Dict, List, NamedTuple, Optional, Tuple

from registry import Json, Registry
from worlds import KINDS, Maker, World

KINDS_OF_ALL = (*dict.fromkeys(KINDS), "devDependencies")


class Edited(NamedTuple):
    """The kind of edit, and the project and its lock file after it."""

    what: str
    world: World
    lock: Json


Edit = Callable[[World, Maker], bool]
"""Edits the package.json files of a world. Returns whether there was something to edit."""


def kinds_of(entry: Json) -> List[str]:
    """Returns the kinds of requirements that a package has."""
    return [it for it in entry if it.endswith("ependencies") and entry[it]]


def some_manifest(world: World, maker: Maker) -> Json:
    """Returns a package.json, most often the project's."""
    places = list(world.manifests)
    return world.manifests["" if maker.maybe(0.5) else maker.chance.choice(places)]


# ---- package.json files


def add_dependency(world: World, maker: Maker) -> bool:
    """Adds a requirement, which may replace one of the same name."""
    names = list(world.releases)
    maker.require(some_manifest(world, maker), maker.chance.choice(names))
    return True


def remove_dependency(world: World, maker: Maker) -> bool:
    """Removes a requirement."""
    manifest = some_manifest(world, maker)
    kinds = [it for it in kinds_of(manifest) if it in KINDS_OF_ALL]
    if not kinds:
        return False
    kind = maker.chance.choice(kinds)
    del manifest[kind][maker.chance.choice(list(manifest[kind]))]
    return True


def change_dependency(world: World, maker: Maker) -> bool:
    """Changes the range of a requirement."""
    manifest = some_manifest(world, maker)
    kinds = [it for it in kinds_of(manifest) if it in KINDS_OF_ALL]
    if not kinds:
        return False
    kind = maker.chance.choice(kinds)
    name = maker.chance.choice(list(manifest[kind]))
    own = name if name in world.releases else maker.chance.choice(list(world.releases))
    manifest[kind][name] = maker.range_of(own)
    return True


def move_dependency(world: World, maker: Maker) -> bool:
    """Moves a requirement to another kind."""
    manifest = some_manifest(world, maker)
    kinds = [it for it in kinds_of(manifest) if it in KINDS_OF_ALL]
    if not kinds:
        return False
    kind = maker.chance.choice(kinds)
    name = maker.chance.choice(list(manifest[kind]))
    other = maker.chance.choice(KINDS_OF_ALL)
    manifest.setdefault(other, {})[name] = manifest[kind].pop(name)
    return True


def workspaces_of(world: World) -> List[str]:
    """Returns the directories of the workspaces."""
    return [it for it in world.manifests if it.startswith("packages/")]


def add_workspace(world: World, maker: Maker) -> bool:
    """Adds a workspace, perhaps the first one."""
    world.manifests[""].setdefault("workspaces", ["packages/*"])
    world.manifests["packages/three"] = maker.package("three", "1.0.0", list(world.releases), 1)
    return True


def rename_workspace(world: World, maker: Maker) -> bool:
    """Gives a workspace another name."""
    if not workspaces_of(world):
        return False
    world.manifests[maker.chance.choice(workspaces_of(world))]["name"] = "renamed"
    return True


def remove_workspace(world: World, maker: Maker) -> bool:
    """Removes a workspace, or moves it elsewhere."""
    if not workspaces_of(world):
        return False
    manifest = world.manifests.pop(maker.chance.choice(workspaces_of(world)))
    if maker.maybe(0.3):
        world.manifests["packages/moved"] = manifest
    return True


def change_version(world: World, maker: Maker) -> bool:
    """Gives a workspace another version."""
    if not workspaces_of(world):
        return False
    place = maker.chance.choice(workspaces_of(world))
    world.manifests[place]["version"] = maker.chance.choice(("1.0.1", "3.0.0"))
    return True


def change_override(world: World, maker: Maker) -> bool:
    """Adds overrides, even of what the project itself requires, changes one, or removes all of
    them."""
    project, names = world.manifests[""], list(world.releases)
    overrides = project.setdefault("overrides", {})
    if overrides and maker.maybe(0.3):
        project["overrides"] = {}
        return True
    name = maker.chance.choice([*overrides, *names])
    own = name if name in world.releases else maker.chance.choice(names)
    overrides[name] = maker.chance.choice(list(world.releases[own]))
    return True


def require_workspace(world: World, maker: Maker) -> bool:
    """Makes the project require a workspace, perhaps by a range that it doesn't satisfy."""
    if not workspaces_of(world):
        return False
    name = world.manifests[maker.chance.choice(workspaces_of(world))]["name"]
    spec = maker.chance.choice(("^1.0.0", "^9.0.0", "*"))
    world.manifests[""].setdefault("dependencies", {})[name] = spec
    return True


def change_specifier(world: World, maker: Maker) -> bool:
    """Gives a requirement a specifier of another kind: a path, a repository or a URL."""
    manifest = some_manifest(world, maker)
    kinds = [it for it in kinds_of(manifest) if it in KINDS_OF_ALL]
    if not kinds:
        return False
    kind = maker.chance.choice(kinds)
    name = maker.chance.choice(list(manifest[kind]))
    manifest[kind][name] = maker.chance.choice(SPECIFIERS)
    return True


def change_own_version(world: World, maker: Maker) -> bool:
    """Gives the project or a workspace an invalid version."""
    some_manifest(world, maker)["version"] = maker.chance.choice(("1.0", "", "next"))
    return True


def add_late_override(world: World, maker: Maker) -> bool:
    """Adds an override for what other packages require, perhaps inside of another one."""
    names = list(world.releases)
    name, outer = maker.chance.choice(names), maker.chance.choice(names)
    version = maker.chance.choice(list(world.releases[name]))
    key = f"{name}@{maker.range_of(name) or '*'}" if maker.maybe(0.3) else name
    overrides = world.manifests[""].setdefault("overrides", {})
    if maker.maybe(0.3) and outer not in overrides:
        overrides[outer] = {key: version}
    else:
        overrides[key] = version
    return True


# Specifiers of other kinds; none of them exists.
SPECIFIERS = (
    "file:nowhere", "./nowhere.tgz", "github:user/nowhere", "user/nowhere",
    "git+https://127.0.0.1:1/nowhere.git", "http://127.0.0.1:1/nowhere.tgz",
)  # fmt: skip

MANIFEST_EDITS: Dict[str, Edit] = {
    "a specifier of another kind": change_specifier,
    "an own version": change_own_version,
    "an override added later": add_late_override,
    "a dependency added": add_dependency,
    "a dependency removed": remove_dependency,
    "a dependency changed": change_dependency,
    "a dependency moved": move_dependency,
    "a workspace added": add_workspace,
    "a workspace renamed": rename_workspace,
    "a workspace removed": remove_workspace,
    "a workspace's version changed": change_version,
    "a workspace required": require_workspace,
    "an override changed": change_override,
}


# ---- lock files


def damaged(
    lock: Json, world: World, registry: Registry, maker: Maker
) -> Optional[Tuple[str, Json]]:
    """Returns what was damaged, and a damaged copy of a lock file."""
    made, chance = copy.deepcopy(lock), maker.chance
    packages = made["packages"]
    places = [it for it in packages if "node_modules" in it and not packages[it].get("link")]
    what = chance.choice(("a version", "a range", "a package", "a URL", "a link's target"))
    if what == "a range":
        places = [it for it in places if kinds_of(packages[it])]
    elif what == "a link's target":
        places = [it["resolved"] for it in packages.values() if it.get("link")]
    if not places:
        return None
    place = chance.choice(places)
    entry = packages[place]
    name = entry.get("name", place.rpartition("node_modules/")[2])
    if what in ("a package", "a link's target"):
        for inner in [it for it in packages if it == place or it.startswith(f"{place}/")]:
            del packages[inner]
    elif what == "a range":
        kind = chance.choice(kinds_of(entry))
        required = chance.choice(list(entry[kind]))
        own = required if required in world.releases else chance.choice(list(world.releases))
        entry[kind][required] = maker.range_of(own)
    else:
        version = chance.choice(list(world.releases[name]))
        entry["resolved"] = registry.archive_at(name, version)
        if what == "a version":
            entry.update(version=version, integrity=registry.integrity_of(name, version))
    return f"{what} in the lock file", made


def without_one(lock: Json, maker: Maker) -> Optional[Json]:
    """Returns a copy of a lock file with lockfileVersion 1 without one of its packages."""
    made = copy.deepcopy(lock)
    names = list(made.get("dependencies", {}))
    if not names:
        return None
    del made["dependencies"][maker.chance.choice(names)]
    return made


def edited(lock: Json, world: World, registry: Registry, maker: Maker) -> Edited:
    """Returns the project or its lock file with a random edit."""
    while True:
        if lock["lockfileVersion"] == 1 and maker.maybe(0.3):
            made = without_one(lock, maker)
            if made is not None:
                return Edited("a package in an old lock file", world, made)
        if lock["lockfileVersion"] > 1 and maker.maybe(0.4):
            found = damaged(lock, world, registry, maker)
            if found is not None:
                return Edited(found[0], world, found[1])
        other = World(world.releases, json.loads(json.dumps(world.manifests)))
        what = maker.chance.choice(list(MANIFEST_EDITS))
        if MANIFEST_EDITS[what](other, maker):
            return Edited(what, other, lock)
