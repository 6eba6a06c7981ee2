"""The contents of a lock file of npm: its packages, what each requires, and what is found for that.

A package is identified by its place, as in lockfileVersion 2 and 3. This is its path from the
project, and it is empty for the project itself.
"""

import posixpath
import re
from functools import lru_cache
from typing import Dict, Iterator, List, Optional, Set, Tuple

from ..files import Entry, WrongShape, objects_at, text_at, texts_at, version_stated
from ..model import OPTIONAL, PEERS, PROJECT, Keys, Package, Requirement, Requirer, Scope
from ..node.archives import archive_at
from ..node.specifiers import alias_of

Packages = Dict[str, Entry]

# The kinds in npm's order. If a name is in several, the last one counts.
KINDS_OF_EACH = (PEERS, "dependencies", "optionalDependencies")
KINDS_OF_TOPS = (*KINDS_OF_EACH, "devDependencies")
ACCEPTED = "acceptDependencies"

# How long a path may be. Linux has no longer ones.
LONGEST = 4096

# A lockfileVersion, which may be a text. npm has written 1 to 3, and reads the others as 3.
VERSION = re.compile(r"[1-9][0-9]?")
WORKSPACES = "workspaces"
OF_MANIFEST = ("name", "version", "workspaces", *KINDS_OF_TOPS, "peerDependenciesMeta", ACCEPTED)


# ---- places


def keys_of(place: str, is_old: bool) -> Keys:
    """Returns the keys in the file that lead to the package at a place. In lockfileVersion 1, the
    project has none."""
    if not is_old:
        return "packages", place
    keys: List[str] = []
    for name in place.split("node_modules/")[1:]:
        keys += ["dependencies", name.rstrip("/")]
    return tuple(keys)


def folders(place: str) -> Iterator[str]:
    """Yields the directories from a place upward to the project, beginning with the place itself.

    For a place outside of the project, such as `../other`, they end where only `..` is left.
    """
    parts = place.split("/") if place else []
    while parts and parts[-1] != "..":
        if parts[-1] != "node_modules":
            yield "/".join(parts)
        parts.pop()
    yield "/".join(parts)


def inside(folder: str, name: str) -> str:
    """Returns the place of a name in the `node_modules` of a directory."""
    return f"{folder}/node_modules/{name}" if folder else f"node_modules/{name}"


def is_top(place: str) -> bool:
    """Returns whether a place is the project, a workspace, or anything else that is not in a
    `node_modules`."""
    return "node_modules" not in place or "node_modules" not in place.split("/")


def is_outside(place: str) -> bool:
    """Returns whether a place is outside of the project: npm puts nothing there."""
    return place.split("/")[0] == ".."


def folder_round(place: str) -> str:
    """Returns the directory whose `node_modules` has the package."""
    parts = place.split("/")
    while parts.pop() != "node_modules":
        pass
    return "/".join(parts)


def name_by_place(place: str) -> str:
    """Returns the name that a package without one gets from its directory."""
    if is_top(place):
        return place.rpartition("/")[2]
    return f"/{place}".rpartition("/node_modules/")[2]


# ---- packages


def packages_of(lock: Entry, manifest: Optional[Entry]) -> Packages:
    """Returns the packages of a lock file, in its order. What the project itself requires comes
    from its package.json, if that is there, and otherwise from the lock file. A lock file of
    lockfileVersion 1 doesn't have it."""
    if has_old_form(lock):
        project = {"version": lock["version"]} if "version" in lock else {}
        packages = {"": project, **dict(packages_inside(lock, ""))}
    else:
        packages = dict(objects_at(lock.get("packages", {"": {}}), "packages"))
    if max(map(len, packages), default=0) > LONGEST:
        raise WrongShape(f": a path in it has more than {LONGEST:,} characters")
    if manifest is not None:
        packages[""] = with_manifest(packages.get("", {}), manifest)
    return packages


def has_old_form(lock: Entry) -> bool:
    """Returns whether a lock file has its packages as lockfileVersion 1 does, under `dependencies`.
    As for npm, `packages` count if they are there, whatever the lockfileVersion is."""
    version = str(lock.get("lockfileVersion"))
    if not VERSION.fullmatch(version):
        raise WrongShape(f" of npm: {version_stated(lock)}")
    return "packages" not in lock and (version == "1" or "dependencies" in lock)


def with_manifest(entry: Entry, manifest: Entry) -> Entry:
    """Returns a package of a lock file with what its package.json has instead."""
    own = {key: it for key, it in entry.items() if key not in OF_MANIFEST}
    return {**own, **{key: it for key, it in manifest.items() if key in OF_MANIFEST}}


def is_left_out(entry: Entry, scope: Scope) -> bool:
    """Returns whether a scope leaves out a package. npm marks packages that are only for
    development."""
    return entry.get("dev") is True and not scope.has_development


def within(packages: Packages, scope: Scope) -> Tuple[Packages, int]:
    """Returns the packages with the requirements that are in a scope, and the number of those that
    are left out."""
    kinds = {it for it in KINDS_OF_TOPS if not scope.has(it)}
    found, left_out = {}, 0
    for place, entry in packages.items():
        out = set(KINDS_OF_TOPS) if is_left_out(entry, scope) else kinds
        left_out += sum(len(entry[it]) for it in out if isinstance(entry.get(it), dict))
        found[place] = {key: it for key, it in entry.items() if key not in out}
    return found, left_out


def packages_inside(holder: Entry, place: str) -> Iterator[Tuple[str, Entry]]:
    """Yields the packages inside a package or the project of lockfileVersion 1, each with its
    place."""
    where = f"{place}: dependencies" if place else "dependencies"
    for name, entry in objects_at(holder.get("dependencies", {}), where).items():
        its_place, target = inside(place, name), target_of(entry)
        if target is not None:
            yield its_place, {"link": True, "resolved": target}
        at = its_place if target is None else target
        yield at, modern_entry(entry, its_place)
        yield from packages_inside(entry, at)


def target_of(old: Entry) -> Optional[str]:
    """Returns the place to which a package of lockfileVersion 1 is a link. A package at `file:PATH`
    is one, such as a workspace, unless that is an archive."""
    version = old.get("version")
    if not isinstance(version, str) or not version.startswith("file:"):
        return None
    path = version[len("file:") :]
    return None if path.endswith((".tgz", ".tar", ".tar.gz")) else posixpath.normpath(path)


def modern_entry(old: Entry, place: str) -> Entry:
    """Returns a package of lockfileVersion 1 in the form of lockfileVersion 2 and 3. If it comes
    from an archive of a registry, it has the version in the file name."""
    entry: Entry = {"inBundle": old.get("bundled", False), "dev": old.get("dev", False)}
    entry["integrity"] = old.get("integrity")
    requires = old.get("requires", {})
    if not isinstance(requires, bool):
        entry["dependencies"] = texts_at(requires, f"{place}: requires")
    version = text_at(old["version"], f"{place}: version") if "version" in old else ":"
    alias = alias_of(version)
    if alias is not None:
        entry["name"], version = alias
    if ":" not in version and "/" not in version:
        entry["version"] = version
        entry["resolved"] = old.get("resolved")
    elif version != ":" and target_of(old) is None:
        archive = archive_at(version)
        entry.update({} if archive is None else archive._asdict())
        entry["resolved"] = version
    return entry


def end_of_links(packages: Packages, place: str) -> Optional[str]:
    """Returns the place to which the links from a place lead; None if they lead nowhere."""
    seen = set()
    while packages[place].get("link"):
        seen.add(place)
        place = text_at(packages[place].get("resolved"), f"{place}: resolved")
        if place in seen or place not in packages:
            return None
    return place


def package_at(packages: Packages, place: str, is_old: bool) -> Package:
    """Returns the package at a place. Links are followed; one that leads nowhere has neither a name
    nor a version."""
    end = end_of_links(packages, place)
    if end is None:
        return Package(None, None, place, keys_of(place, is_old))
    entry = packages[end]
    name = text_at(entry["name"], f"{end}: name") if "name" in entry else name_by_place(end)
    resolved = entry.get("resolved")
    source = resolved if isinstance(resolved, str) else ""
    version = version_at(entry, place)
    return Package(name, version, end, keys_of(end, is_old), source, is_top(end))


def version_at(entry: Entry, where: str) -> Optional[str]:
    """Returns the version of a package, if it has one."""
    version = entry.get("version", "")
    if not isinstance(version, str):
        text_at(version, f"{where}: version")
    return version if "version" in entry else None


def locked_in(packages: Packages) -> Set[str]:
    """Returns the places of the packages that have their own lock file."""
    return {place for place, entry in packages.items() if place and entry.get("hasShrinkwrap")}


def pinned_in(packages: Packages) -> Set[str]:
    """Returns the places of the packages that another package bundles, or that are in a package
    with its own lock file."""
    locked = locked_in(packages)
    return {
        place
        for place, entry in packages.items()
        if entry.get("inBundle") or (locked and not locked.isdisjoint(folders(place)))
    }


# ---- what is required


def requirements_at(
    place: str, entry: Entry, found: Dict[str, Package], workspaces: Dict[str, str]
) -> Iterator[Requirement]:
    """Yields what the package at a place requires, in the order of the file, with the package that
    is found. The project requires its workspaces by their names, whatever else it requires by these
    names."""
    here = found[place]
    stated = [] if entry.get("link") else stated_at(place, entry, here.is_own)
    own = {} if place or entry.get("link") else workspaces
    if not stated and not own:
        return
    accepted: Dict[str, str] = {}
    if ACCEPTED in entry:
        accepted = texts_at(entry[ACCEPTED], f"{place or PROJECT}: {ACCEPTED}")
    requirer = Requirer(place or PROJECT, "", place, here.at)
    is_apart = PEERS in entry and not here.is_own
    around = around_of(place)
    of_peers = around_of(folder_round(place)) if is_apart else around
    for kind, name, spec in stated:
        if name not in own:
            package = nearest(name, of_peers if kind == PEERS else around, found)
            other = accepted.get(name) if accepted else None
            it = Requirement(requirer, name, spec, package, kind, True, "", (), False, other)
            yield it if package is not None else missing(it, entry)
    for name, directory in own.items():
        if is_linked(name, directory, found):
            package = found[inside("", name)]
            yield Requirement(requirer, name, f"file:{directory}", package, WORKSPACES)


def missing(it: Requirement, entry: Entry) -> Requirement:
    """Returns a requirement for which nothing is found. If it may be missing, it is listed only
    with `--strict`: npm wrote files of lockfileVersion 2 and 3 without the optional dependencies of
    packages."""
    place = it.requirer.place
    is_required = has_to_be_there(place, entry, it.kind, it.name)
    is_optional = it.kind == OPTIONAL and not is_outside(place)
    excuse = "" if is_required else "may be optional"
    return it._replace(must_exist=is_required or is_optional, excuse=excuse)


def is_linked(name: str, directory: str, found: Dict[str, Package]) -> bool:
    """Returns whether the project's `node_modules` has a link to a directory under a name."""
    package = found.get(inside("", name))
    return package is not None and package.place == directory


def around_of(place: str) -> Tuple[str, ...]:
    """Returns the prefixes of names in the `node_modules` directories around a place, the nearest
    first."""
    outer, slash, last = place.rpartition("/")
    if last in ("", ".."):
        return (inside(place, ""),)
    rest = around_again(outer)
    return rest if last == "node_modules" else (inside(place, ""), *rest)


around_again = lru_cache(maxsize=None)(around_of)
"""The same, cached: a place may have many others inside."""


def nearest(name: str, around: Tuple[str, ...], found: Dict[str, Package]) -> Optional[Package]:
    """Returns the package of a name in the first of some directories that has one."""
    for folder in around:
        package = found.get(folder + name)
        if package is not None:
            return package
    return None


def stated_at(place: str, entry: Entry, is_own: bool) -> List[Tuple[str, str, str]]:
    """Returns the requirements of the package at a place: the table, the name and the specifier of
    each."""
    where = place or "the project"
    named = KINDS_OF_TOPS if is_own else KINDS_OF_EACH
    kinds = [kind for kind in named if kind in entry]
    specs = {kind: texts_at(entry[kind], f"{where}: {kind}") for kind in kinds}
    if len(kinds) < 2:
        return [(kind, name, spec) for kind in kinds for name, spec in specs[kind].items()]
    last = {name: kind for kind in kinds for name in specs[kind]}
    return [
        (kind, name, spec)
        for kind in entry
        if kind in specs
        for name, spec in specs[kind].items()
        if last[name] == kind
    ]


def is_of_what_is_there(lock: Entry) -> bool:
    """Returns whether a file is the lock file inside node_modules. It lists what is installed, and
    has no project. What is optional there may be for another platform."""
    packages = lock.get("packages")
    return isinstance(packages, dict) and "" not in packages


def without_optional(requirements: List[Requirement]) -> List[Requirement]:
    """Returns the requirements of a package. Optional ones don't have to be there."""
    return [
        it._replace(excuse="may be optional") if it.kind == OPTIONAL else it for it in requirements
    ]


def has_to_be_there(place: str, entry: Entry, kind: str, name: str) -> bool:
    """Returns whether a requirement has to be in the lock file. An optional dependency has to be if
    the project, a workspace or a linked directory requires it, since npm adds it then."""
    if is_outside(place):
        return False
    if kind != PEERS:
        return kind != OPTIONAL or is_top(place)
    where = f"{place or 'the project'}: peerDependenciesMeta"
    meta = objects_at(entry.get("peerDependenciesMeta", {}), where)
    return not meta.get(name, {}).get("optional")
