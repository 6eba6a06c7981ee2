"""Edits of a world for Cargo: edits of its manifests as by hand, and damage of its Cargo.lock."""

import copy
import re
from typing import Callable, Dict, List, Optional, Tuple

from cargo_worlds import TABLES, VERSIONS, Maker, Need, World

Edited = Optional[str]
"""The place of an edit, or None if there was nothing to edit."""

# ---- of manifests


def with_needs(world: World, is_member: bool = False) -> List[str]:
    """Returns the packages at paths that require something."""
    places = world.members if is_member else list(world.locals)
    return [place for place in places if world.locals[place].needs]


def change_need(
    world: World, maker: Maker, change: Callable[[Need], Optional[Need]]
) -> Edited:
    """Changes a requirement of a package at a path."""
    places = with_needs(world)
    if not places:
        return None
    place = maker.chance.choice(places)
    needs = world.locals[place].needs
    index = maker.chance.randrange(len(needs))
    changed = change(needs[index])
    if changed is None:
        return None
    needs[index] = changed
    return place


def another_requirement(world: World, maker: Maker) -> Edited:
    """Replaces a requirement."""

    def change(need: Need) -> Need:
        version = world.locals[need.place].version if need.place else None
        if version is None:
            return need._replace(requirement=maker.requirement_for(need.name))
        return need._replace(requirement=maker.requirement_of(version))

    return change_need(world, maker, change)


def another_table(world: World, maker: Maker) -> Edited:
    """Moves a requirement to another table."""
    return change_need(
        world, maker, lambda it: it._replace(table=maker.chance.choice(TABLES), is_optional=False)
    )


def another_target(world: World, maker: Maker) -> Edited:
    """Puts a requirement into a table for an expression of targets that is valid, or nearly so."""
    text = "cfg(all(unix, not(any(a, b = \"c\"))))"
    at = maker.chance.randrange(len(text) + 1)
    piece = maker.chance.choice(("", " ", "(", ")", ",", "=", '"', "a", "not", "r#"))
    text = text[:at] + piece + text[at + maker.chance.randrange(2) :]
    table = f"target.'{text}'.dependencies"
    return change_need(world, maker, lambda it: it._replace(table=table, is_optional=False))


def optional(world: World, maker: Maker) -> Edited:
    """Makes a requirement optional, or an optional one mandatory."""

    def change(need: Need) -> Optional[Need]:
        is_free = "dev-" not in need.table and not need.is_optional
        return need._replace(is_optional=not need.is_optional) if is_free else None

    return change_need(world, maker, change)


def another_source(world: World, maker: Maker) -> Edited:
    """Requires a crate from a directory instead of the registry's."""
    places = [it for it in world.locals if it.startswith("patched/")]

    def change(need: Need) -> Optional[Need]:
        found = [it for it in places if world.locals[it].name == need.name and not need.place]
        return need._replace(place=found[0]) if found else None

    return change_need(world, maker, change)


def features(world: World, maker: Maker) -> Edited:
    """Requires other features of a package at a path."""

    def change(need: Need) -> Optional[Need]:
        own = world.locals[need.place].features if need.place else {}
        known = [it for it in own if it != "default"]
        chosen = tuple(it for it in known if maker.maybe(0.5))
        return need._replace(features=chosen) if known else None

    return change_need(world, maker, change)


def added(world: World, maker: Maker) -> Edited:
    """Adds a requirement."""
    place = maker.chance.choice(list(world.locals))
    local = world.locals[place]
    free = [it for it in maker.names if it not in {need.name for need in local.needs}]
    free = [it for it in free if it != local.name]
    if not free:
        return None
    local.needs.append(maker.need(maker.chance.choice(free), True))
    return place


def removed(world: World, maker: Maker) -> Edited:
    """Removes a requirement."""
    places = with_needs(world)
    if not places:
        return None
    place = maker.chance.choice(places)
    local = world.locals[place]
    del local.needs[maker.chance.randrange(len(local.needs))]
    local.features = {}
    return place


def another_version(world: World, maker: Maker) -> Edited:
    """Changes the version of a package at a path."""
    place = maker.chance.choice(list(world.locals))
    world.locals[place].version = maker.chance.choice(VERSIONS)
    return place


def member_added(world: World, maker: Maker) -> Edited:
    """Adds a member, if there is a workspace."""
    if "" in world.members:
        return None
    world.locals["members/more"] = maker.local("more", 1)
    world.members.append("members/more")
    return "members/more"


def member_renamed(world: World, maker: Maker) -> Edited:
    """Renames a member, which another member may require."""
    place = maker.chance.choice(world.members)
    world.locals[place].name = "other"
    for local in world.locals.values():
        local.needs = [
            it._replace(key="other", name="other") if it.place == place else it
            for it in local.needs
        ]
    return place


def member_removed(world: World, maker: Maker) -> Edited:
    """Removes a member, and what requires it."""
    if len(world.members) < 2:
        return None
    place = world.members.pop(maker.chance.randrange(len(world.members)))
    del world.locals[place]
    for local in world.locals.values():
        local.needs = [it for it in local.needs if it.place != place]
    return place


def patch_added(world: World, maker: Maker) -> Edited:
    """Adds a patch."""
    if world.patches:
        return None
    maker.add_patch(world)
    return world.patches[0]


def patch_removed(world: World, maker: Maker) -> Edited:
    """Removes a patch."""
    return world.patches.pop() if world.patches else None


def feature_gone(world: World, maker: Maker) -> Edited:
    """Removes a feature of a package at a path, which another package may require."""
    places = [it for it, local in world.locals.items() if local.features]
    if not places:
        return None
    place = maker.chance.choice(places)
    features = world.locals[place].features
    gone = maker.chance.choice(list(features))
    world.locals[place].features = {
        name: [it for it in each if it != gone] for name, each in features.items() if name != gone
    }
    return place


def feature_of_another(world: World, maker: Maker) -> Edited:
    """Adds a default feature that requires a feature of another package at a path."""
    places = [it for it in with_needs(world) if any(need.place for need in world.locals[it].needs)]
    if not places:
        return None
    place = maker.chance.choice(places)
    local = world.locals[place]
    need = maker.chance.choice([it for it in local.needs if it.place])
    known = [*world.locals[need.place].features, "gone"]
    local.features["default"] = [f"{need.key}/{maker.chance.choice(known)}"]
    return place


def cycle(world: World, maker: Maker) -> Edited:
    """Makes two packages at paths require each other."""
    if len(world.members) < 2:
        return None
    one, other = world.members[:2]
    for place, to in ((one, other), (other, one)):
        local, target = world.locals[place], world.locals[to]
        if all(it.name != target.name for it in local.needs):
            local.needs.append(Need("dependencies", target.name, target.name, "", False, to))
    return one


def another_name(world: World, maker: Maker) -> Edited:
    """Requires what a package requires a second time, by another name."""
    places = with_needs(world)
    if not places:
        return None
    place = maker.chance.choice(places)
    local = world.locals[place]
    need = maker.chance.choice(local.needs)
    local.needs.append(need._replace(key="another", table="dependencies", is_optional=False))
    return place


def links(world: World, maker: Maker) -> Edited:
    """Makes packages at paths link a library, perhaps the same one."""
    for place in world.members:
        library = maker.chance.choice("yz")
        world.locals[place].more = f'links = "{library}"\nbuild = "src/lib.rs"\n'
    return world.members[0]


def invalid_manifest(world: World, maker: Maker) -> Edited:
    """Adds a line that Cargo rejects."""
    place = maker.chance.choice(world.members)
    lines = ('resolver = "9"', 'links = "z"', 'workspace = "nowhere"', 'rust-version = "1.60"')
    world.locals[place].more = f"{maker.chance.choice(lines)}\n"
    return place


MANIFEST_EDITS: Dict[str, Callable[[World, Maker], Edited]] = {
    "a feature gone": feature_gone,
    "a feature of another package": feature_of_another,
    "members that require each other": cycle,
    "one crate under two names": another_name,
    "packages that link": links,
    "a line of a manifest": invalid_manifest,
    "a requirement changed": another_requirement,
    "a requirement in another table": another_table,
    "a requirement for another target": another_target,
    "a requirement optional": optional,
    "a requirement at a path": another_source,
    "other features": features,
    "a requirement added": added,
    "a requirement removed": removed,
    "a version of a package at a path": another_version,
    "a member added": member_added,
    "a member renamed": member_renamed,
    "a member removed": member_removed,
    "a patch added": patch_added,
    "a patch removed": patch_removed,
}


def edited(world: World, maker: Maker) -> Tuple[str, World]:
    """Returns a copy of a world with a random edit of a manifest, and the name of the edit."""
    while True:
        other = copy.deepcopy(world)
        what = maker.chance.choice(list(MANIFEST_EDITS))
        if MANIFEST_EDITS[what](other, maker) is not None:
            return what, other


# ---- of the lock file

ENTRY = re.compile(r"\n\n(?=\[\[)")
AN_EDGE_MORE = "an edge more"
A_CHECKSUM = "another checksum"
NAME = re.compile(r'name = "([^"]*)"')


def damaged(lock: str, maker: Maker) -> Tuple[str, str, bool]:
    """Returns a damaged copy of a lock file, the kind of damage, and whether it is in an entry of
    the registry, whose requirements the lock file doesn't have."""
    head, *entries = ENTRY.split(lock.rstrip("\n"))
    kind = maker.chance.choice(list(DAMAGES))
    index = maker.chance.randrange(len(entries)) if entries else 0
    if not entries or kind == "another format":
        return "another format", lock.replace("version = 4", "version = 5", 1), False
    is_of_registry = "\nsource = " in entries[index]
    changed = DAMAGES[kind](entries, index, maker)
    return kind, "\n\n".join([head, *changed]) + "\n", is_of_registry


def of_version(entries: List[str], index: int, maker: Maker) -> List[str]:
    """Changes the version of an entry."""
    found = NAME.search(entries[index])
    assert found is not None
    known = maker.versions_of(found.group(1)) or list(VERSIONS)
    version = maker.chance.choice(known)
    entry = re.sub('version = "[^"]*"', f'version = "{version}"', entries[index], count=1)
    return [*entries[:index], entry, *entries[index + 1 :]]


def of_removed(entries: List[str], index: int, _: Maker) -> List[str]:
    """Removes an entry."""
    return [*entries[:index], *entries[index + 1 :]]


def of_twice(entries: List[str], index: int, _: Maker) -> List[str]:
    """Repeats an entry."""
    return [*entries[:index], entries[index], *entries[index:]]


def of_more(entries: List[str], _: int, maker: Maker) -> List[str]:
    """Adds an entry that nothing requires."""
    name, version = maker.chance.choice(list(maker.crates))
    source = "registry+https://github.com/rust-lang/crates.io-index"
    entry = f'[[package]]\nname = "{name}"\nversion = "{version}"\nsource = "{source}"'
    return entries if any(entry in it for it in entries) else [*entries, entry]


def of_edge_removed(entries: List[str], index: int, _: Maker) -> List[str]:
    """Removes a dependency of an entry."""
    entry = re.sub(r'(dependencies = \[\n(?:.*\n)*?) ".*",\n', r"\1", entries[index], count=1)
    return [*entries[:index], entry.replace("\ndependencies = [\n]", ""), *entries[index + 1 :]]


def of_edge_added(entries: List[str], index: int, maker: Maker) -> List[str]:
    """Adds a dependency of an entry."""
    found = NAME.search(maker.chance.choice(entries))
    assert found is not None
    line = f' "{found.group(1)}",\n'
    entry = entries[index]
    if line in entry:
        return entries
    if "dependencies = [\n" in entry:
        entry = entry.replace("dependencies = [\n", "dependencies = [\n" + line, 1)
    else:
        entry += f"\ndependencies = [\n{line}]"
    return [*entries[:index], entry, *entries[index + 1 :]]


def of_source(entries: List[str], index: int, _: Maker) -> List[str]:
    """Changes the source of an entry."""
    entry = entries[index]
    if "\nsource = " in entry:
        entry = re.sub('\nsource = "[^"]*"', "", entry)
    else:
        source = "registry+https://github.com/rust-lang/crates.io-index"
        entry = re.sub('(\nversion = "[^"]*")', rf'\1\nsource = "{source}"', entry, count=1)
    return [*entries[:index], entry, *entries[index + 1 :]]


def of_checksum(entries: List[str], index: int, maker: Maker) -> List[str]:
    """Removes the checksum of an entry, or makes it an invalid one."""
    value = maker.chance.choice(("", '\nchecksum = "<none>"', '\nchecksum = "0123"'))
    entry = re.sub('\nchecksum = "[^"]*"', "", entries[index])
    entry = re.sub('(\nversion = "[^"]*"(?:\nsource = "[^"]*")?)', rf"\1{value}", entry, count=1)
    return [*entries[:index], entry, *entries[index + 1 :]]


DAMAGES: Dict[str, Callable[[List[str], int, Maker], List[str]]] = {
    A_CHECKSUM: of_checksum,
    "another version": of_version,
    "an entry removed": of_removed,
    "an entry twice": of_twice,
    "an entry more": of_more,
    "an edge removed": of_edge_removed,
    AN_EDGE_MORE: of_edge_added,
    "another source": of_source,
    "another format": lambda entries, _, __: entries,
}
