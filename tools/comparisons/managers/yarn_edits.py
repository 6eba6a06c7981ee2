"""Edits of a project of yarn: edits of its package.json files as by hand, and damage of its
yarn.lock."""

import copy
import re
from typing import Callable, Dict, List, Optional, Tuple

from registry import Json
from worlds import Maker, World

KINDS = ("dependencies", "devDependencies", "optionalDependencies")

Edited = Optional[str]
"""What an edit changed, or None if there was nothing to edit."""


def required_in(manifest: Json) -> List[Tuple[str, str]]:
    """Returns the kinds and names of the requirements of a package.json."""
    return [(kind, name) for kind in KINDS for name in manifest.get(kind, {})]


def requirement_changed(world: World, maker: Maker) -> Edited:
    """Changes the range of a requirement."""
    manifest = maker.chance.choice(list(world.manifests.values()))
    known = [it for it in required_in(manifest) if it[1] in maker.releases]
    if not known:
        return None
    kind, name = maker.chance.choice(known)
    manifest[kind][name] = maker.range_of(name)
    return name


def requirement_added(world: World, maker: Maker) -> Edited:
    """Adds a requirement."""
    manifest = maker.chance.choice(list(world.manifests.values()))
    free = [it for it in maker.releases if it not in {name for _, name in required_in(manifest)}]
    if not free:
        return None
    name = maker.chance.choice(free)
    manifest.setdefault(maker.chance.choice(KINDS), {})[name] = maker.range_of(name)
    return name


def requirement_removed(world: World, maker: Maker) -> Edited:
    """Removes a requirement."""
    manifest = maker.chance.choice(list(world.manifests.values()))
    known = required_in(manifest)
    if not known:
        return None
    kind, name = maker.chance.choice(known)
    del manifest[kind][name]
    return name


def workspace_added(world: World, maker: Maker) -> Edited:
    """Adds a workspace, perhaps the first one."""
    world.manifests[""].update({"private": True, "workspaces": ["packages/*"]})
    others = list(maker.releases)
    world.manifests["packages/more"] = maker.package("more", "1.0.0", others, 2)
    world.manifests["packages/more"].pop("peerDependencies", None)
    return "more"


def workspace_renamed(world: World, maker: Maker) -> Edited:
    """Renames a workspace, which the others may still require by its old name."""
    places = [place for place in world.manifests if place]
    if not places:
        return None
    world.manifests[maker.chance.choice(places)]["name"] = "other"
    return "other"


def workspace_removed(world: World, maker: Maker) -> Edited:
    """Removes a workspace."""
    places = [place for place in world.manifests if place]
    if not places:
        return None
    place = maker.chance.choice(places)
    del world.manifests[place]
    return place


def workspace_version(world: World, maker: Maker) -> Edited:
    """Changes the version of a workspace, which another one may require."""
    places = [place for place in world.manifests if place]
    if not places:
        return None
    place = maker.chance.choice(places)
    world.manifests[place]["version"] = maker.chance.choice(("0.9.0", "1.0.1", "2.3.1", "3.0.0"))
    return place


def resolution_added(world: World, maker: Maker) -> Edited:
    """Adds or changes a resolution."""
    name = maker.chance.choice(list(maker.releases))
    version = maker.chance.choice(list(maker.releases[name]))
    world.manifests[""].setdefault("resolutions", {})[name] = version
    return name


def resolution_removed(world: World, maker: Maker) -> Edited:
    """Removes a resolution."""
    resolutions = world.manifests[""].get("resolutions", {})
    if not resolutions:
        return None
    name = maker.chance.choice(list(resolutions))
    del resolutions[name]
    return name


MANIFEST_EDITS: Dict[str, Callable[[World, Maker], Edited]] = {
    "a requirement changed": requirement_changed,
    "a requirement added": requirement_added,
    "a requirement removed": requirement_removed,
    "a workspace added": workspace_added,
    "a workspace renamed": workspace_renamed,
    "a workspace removed": workspace_removed,
    "a version of a workspace": workspace_version,
    "a resolution added": resolution_added,
    "a resolution removed": resolution_removed,
}


def edited(world: World, maker: Maker) -> Tuple[str, World]:
    """Returns a copy of a world with a random edit of a package.json, and the name of the edit."""
    while True:
        other = world._replace(manifests=copy.deepcopy(world.manifests))
        what = maker.chance.choice(list(MANIFEST_EDITS))
        if MANIFEST_EDITS[what](other, maker) is not None:
            return what, other


# ---- of the lock file

ANOTHER_ARCHIVE = "another archive"
ENTRY = re.compile(r"\n\n(?=\S)")


def name_in(entry: str) -> str:
    """Returns the name in the first key of an entry."""
    return re.split("(?<=.)@", entry.lstrip().lstrip('"'))[0]


def damaged(lock: str, maker: Maker) -> Tuple[str, str]:
    """Returns a damaged copy of a lock file, and the kind of damage."""
    head, *entries = ENTRY.split(lock)
    if not entries:
        return "nothing", lock
    kind = maker.chance.choice(list(DAMAGES))
    index = maker.chance.randrange(len(entries))
    name = name_in(entries[index])
    known = name if name in maker.releases else maker.chance.choice(list(maker.releases))
    return kind, "\n\n".join([head, *DAMAGES[kind](entries, index, known, maker)])


def replaced(entries: List[str], index: int, entry: str) -> List[str]:
    """Returns the entries with one of them replaced."""
    return [*entries[:index], entry, *entries[index + 1 :]]


def of_version(entries: List[str], index: int, name: str, maker: Maker) -> List[str]:
    """Changes the version of an entry, together with its archive."""
    version = maker.chance.choice(list(maker.releases[name]))
    entry = re.sub('version "[^"]*"', f'version "{version}"', entries[index], count=1)
    entry = re.sub('resolved "[^"]*"', f'resolved "{maker.archive_at(name, version)}"', entry)
    return replaced(entries, index, re.sub("\n  integrity .*", "", entry))


def of_archive(entries: List[str], index: int, name: str, maker: Maker) -> List[str]:
    """Changes the archive of an entry, but not its version."""
    url = maker.archive_at(name, maker.chance.choice(list(maker.releases[name])))
    entry = re.sub('resolved "[^"]*"', f'resolved "{url}"', entries[index])
    return replaced(entries, index, re.sub("\n  integrity .*", "", entry))


def of_removed(entries: List[str], index: int, _: str, __: Maker) -> List[str]:
    """Removes an entry."""
    return [*entries[:index], *entries[index + 1 :]]


def of_more(entries: List[str], _: int, __: str, maker: Maker) -> List[str]:
    """Adds an entry that nothing requires, and whose version doesn't satisfy its key."""
    name = maker.chance.choice(list(maker.releases))
    version = list(maker.releases[name])[0]
    url = maker.archive_at(name, version)
    key = f'"{name}@^7.0.0"' if name.startswith("@") else f"{name}@^7.0.0"
    return [*entries, f'{key}:\n  version "{version}"\n  resolved "{url}"\n']


def of_range(entries: List[str], index: int, name: str, maker: Maker) -> List[str]:
    """Changes the range of a requirement of a package."""
    lines = entries[index].split("\n")
    ranges = [at for at, line in enumerate(lines) if line.startswith("    ")]
    if not ranges:
        return entries
    at = maker.chance.choice(ranges)
    required = lines[at].split()[0]
    known = required.strip('"') if required.strip('"') in maker.releases else name
    lines[at] = f'    {required} "{maker.range_of(known)}"'
    return replaced(entries, index, "\n".join(lines))


DAMAGES: Dict[str, Callable[[List[str], int, str, Maker], List[str]]] = {
    "another version": of_version,
    ANOTHER_ARCHIVE: of_archive,
    "an entry removed": of_removed,
    "an entry more": of_more,
    "a range of an entry": of_range,
}
