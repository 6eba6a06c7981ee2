"""The requirements in a `pnpm-lock.yaml`, and what is found for them.

WHO REQUIRES. The project and its workspaces (`importers`), which require what their package.json
files have, if these are there; the catalogs, from which importers take ranges; and each package,
for its peers. The lock file doesn't have the other ranges of packages.

WHAT IS FOUND. For an importer and a catalog, the version next to the specifier. For a peer, the
package of the name among the dependencies of the package, where pnpm puts it. A package at a URL
has its version in its entry, and a workspace in its package.json.
"""

import os
import re
from fnmatch import translate
from typing import Callable, Dict, Iterator, List, NamedTuple, Optional, Tuple

from semver_parser import Dialect

from ..files import (
    Entry,
    WrongShape,
    object_at,
    objects_at,
    taking,
    text_at,
    texts_at,
    version_stated,
)
from ..model import (
    FOR_DEVELOPMENT,
    OPTIONAL,
    PEERS,
    USUAL,
    Keys,
    Locked,
    Package,
    Requirement,
    Requirer,
)
from ..node.package_json import (
    MANIFEST,
    TOP,
    manifest_in,
    name_in,
    requirements_in,
    requirer_of,
    version_in,
)
from ..node.specifiers import CATALOG, alias_of, name_and_rest
from ..node.workspaces import directories_of, patterns_in
from ..satisfaction import is_version
from . import settings
from .entries import LINK, Entries, called_by
from .settings import WORKSPACE_FILE, workspace_file
from .specifiers import npm_form_of_jsr

KINDS = (USUAL, FOR_DEVELOPMENT, OPTIONAL, "configDependencies", "packageManagerDependencies")

# The manifests of a project.
MANIFESTS = (MANIFEST, "package.yaml", "package.json5")

Packages = Dict[str, Entry]
Reader = Callable[[str], Optional[Entry]]

Catalogs = Dict[Tuple[str, str], str]
"""The specifiers in catalogs, by the catalog and the name."""


class Stated(NamedTuple):
    """A requirement of an importer in the lock file: its table, its name, its specifier, and what
    is found."""

    kind: str
    name: str
    specifier: str
    found: str


class Importer(NamedTuple):
    """The project or a workspace: its directory, the keys that lead to it, what the lock file has
    of it, and what its package.json requires, if that is there."""

    directory: str
    at: Keys
    fields: Entry
    required: Optional[Dict[str, Requirement]]

    @property
    def requirer(self) -> Requirer:
        """The importer as a requirer."""
        return requirer_of(self.directory, self.at)


def found_at(text: str, name: str, packages: Packages) -> Package:
    """Returns the package for the version of a name in the lock file. That is a version, a package
    of another name, a URL or a path."""
    bare = re.split(r"[(_]", text, maxsplit=1)[0]
    if is_version(bare, Dialect.NPM):
        return Package(name, bare)
    called = called_by(text)
    return found_at_url(text, name, packages) if called is None else Package(*called)


def found_at_url(text: str, name: str, packages: Packages) -> Package:
    """Returns the package at a URL or a path. From lockfileVersion 9 on its key is `NAME@URL`.
    Before that the key is the URL, and the name is in a field."""
    bare = text.partition("(")[0]
    for key in (f"{name}@{bare}", bare, text):
        if key in packages:
            entry, (called, url) = packages[key], name_and_rest(key)
            own = entry.get("name", called if url else None)
            version = entry.get("version")
            return Package(
                name if own is None else text_at(own, f"{key}: name"),
                None if version is None else text_at(version, f"{key}: version"),
            )
    return Package(name, None)


def found_by_link(text: str, name: str, directory: str, read: Reader) -> Package:
    """Returns the package in the directory to which a link from another directory leads."""
    manifest = read(os.path.normpath(os.path.join(directory, text[len(LINK) :]))) or {}
    return Package(name_in(manifest) or name, version_in(manifest))


# ---- the project and its workspaces


def importers_of(lock: Entry) -> Dict[str, Entry]:
    """Returns the project and its workspaces, by their directories."""
    if "importers" in lock:
        return objects_at(lock["importers"], "importers")
    return {TOP: {kind: lock[kind] for kind in (*KINDS, "specifiers") if kind in lock}}


def stated_in(importer: Importer) -> Iterator[Stated]:
    """Yields the requirements of an importer in the lock file. In lockfileVersion 5 the specifiers
    are in a table of their own."""
    directory, fields = importer.directory, importer.fields
    specs = texts_at(fields.get("specifiers", {}), f"{directory}: specifiers")
    for kind in KINDS:
        for name, value in object_at(fields.get(kind, {}), f"{directory}: {kind}").items():
            where = f"{directory}: {kind}: {name}"
            if isinstance(value, dict):
                spec = text_at(value.get("specifier"), f"{where}: specifier")
                value = value.get("version")
            else:
                spec = text_at(specs.get(name), f"{directory}: specifiers: {name}")
            yield Stated(kind, name, spec, text_at(value, where))


def requirements_of(importer: Importer, entries: Entries, read: Reader) -> Iterator[Requirement]:
    """Yields what the project or a workspace requires, by its package.json if that is there."""
    own, requirer = dict(importer.required or {}), importer.requirer
    for kind, name, locked, text in stated_in(importer):
        found = None
        if text.startswith(LINK):
            found = found_by_link(text, name, importer.directory, read)
        elif entries.has(text, name):
            found = found_at(text, name, entries.packages)
        at = requirer._replace(at=(*importer.at, kind, name))
        found = None if found is None else found._replace(at=at.at)
        stated = own.pop(name, None)
        it = Requirement(at, name, locked, found, kind)
        if importer.required is not None and kind in (USUAL, FOR_DEVELOPMENT, OPTIONAL):
            now = (None, "") if stated is None else (stated.kind, stated.specifier)
            it = it._replace(locked=Locked(kind, locked, now[0], now[1:], now[1]))
        yield it if stated is None else it._replace(specifier=stated.specifier)
    for it in own.values():
        yield it._replace(requirer=requirer, must_exist=True)


def catalog_requirements(lock: Entry, packages: Packages) -> Iterator[Requirement]:
    """Yields what the catalogs require. Their versions are without the names of packages."""
    for catalog, entries in objects_at(lock.get("catalogs") or {}, "catalogs").items():
        for name, entry in objects_at(entries, f"catalogs: {catalog}").items():
            where = f"catalogs: {catalog}: {name}"
            spec = text_at(entry.get("specifier"), f"{where}: specifier")
            text = text_at(entry.get("version"), f"{where}: version")
            named, _ = alias_of(npm_form_of_jsr(name, spec)) or (name, "")
            at = ("catalogs", catalog, name)
            found = found_at(text, name, packages)._replace(name=named, at=at)
            yield Requirement(Requirer(f"{CATALOG}{catalog}", "", "", at), name, spec, found)


def by_catalog(it: Requirement, catalogs: Catalogs) -> Requirement:
    """Returns a requirement. If it refers to a catalog, it gets the range of that."""
    if not it.specifier.startswith(CATALOG):
        return it
    catalog = f"{CATALOG}{it.specifier[len(CATALOG) :] or 'default'}"
    return it._replace(specifier=catalogs.get((catalog, it.name), it.specifier))


# ---- packages


def packages_of(lock: Entry, packages: Packages) -> Iterator[Tuple[str, Entry, Entry]]:
    """Yields the packages: the key, the fields, and the dependencies of each. From lockfileVersion
    9 on the dependencies are separate from the fields (`snapshots`)."""
    if "snapshots" not in lock:
        for key, entry in packages.items():
            yield key, entry, entry
        return
    for key, entry in objects_at(lock["snapshots"] or {}, "snapshots").items():
        yield key, packages.get(key.partition("(")[0], {}), entry


def keys_of(key: str, packages: Packages) -> Keys:
    """Returns the keys in the file that lead to a package. The keys of snapshots have their
    peers."""
    return "packages", key if key in packages else key.partition("(")[0]


def requirer_at(key: str, packages: Packages) -> Requirer:
    """Returns a package as a requirer."""
    called = called_by(key)
    at = keys_of(key, packages)
    return Requirer(key, "", "", at) if called is None else Requirer(*called, "", at)


def peers_of(key: str, fields: Entry, depends: Entry, packages: Packages) -> Iterator[Requirement]:
    """Yields the peers that a package requires."""
    requirer = requirer_at(key, packages)
    who = requirer.name
    metas = objects_at(fields.get("peerDependenciesMeta", {}), f"{who}: peerDependenciesMeta")
    given = {
        **texts_at(depends.get("optionalDependencies", {}), f"{who}: optionalDependencies"),
        **texts_at(depends.get("dependencies", {}), f"{who}: dependencies"),
    }
    for name, spec in texts_at(fields.get(PEERS, {}), f"{who}: {PEERS}").items():
        found = found_at(given[name], name, packages) if name in given else None
        found = None if found is None else found._replace(at=requirer.at)
        is_optional = metas.get(name, {}).get("optional") in ("true", True)
        yield Requirement(requirer, name, spec, found, PEERS, must_exist=not is_optional)


# ---- the package.json files


def reader_of(top: Optional[str]) -> Reader:
    """Returns a function that reads the package.json of a directory below another one, each only
    once. If the other directory is not known, it returns None."""
    known: Dict[str, Optional[Entry]] = {}

    def read(directory: str) -> Optional[Entry]:
        if directory not in known:
            is_path = top is not None and "\0" not in directory
            known[directory] = manifest_in(os.path.join(top or "", directory)) if is_path else None
        return known[directory]

    return read


def importers_for(lock: Entry, top: Optional[str], read: Reader) -> Iterator[Importer]:
    """Yields the project and its workspaces: those that pnpm finds, if the project is there, and
    otherwise those of the lock file."""
    locked, found = importers_of(lock), directories_in(top)
    for directory in locked if found is None else found:
        # With this checksum there is a `.pnpmfile.cjs`, which may change the requirements.
        manifest = None if "pnpmfileChecksum" in lock else read(directory)
        at = ("importers", directory) if "importers" in lock else ()
        required = None if manifest is None else dict(required_in(manifest, lock, directory))
        yield Importer(directory, at, locked.get(directory, {}), required)


def required_in(
    manifest: Entry, lock: Entry, directory: str
) -> Iterator[Tuple[str, Requirement]]:
    """Yields what a package.json requires, by names. With `autoInstallPeers` it also requires its
    peers, and with `excludeLinksFromLockfile` no links. Optional dependencies that the lock file
    lists as ignored are left out."""
    has_peers, has_no_links = (
        object_at(lock.get("settings") or {}, "settings").get(name) == "true"
        for name in ("autoInstallPeers", "excludeLinksFromLockfile")
    )
    requirer = requirer_of(directory)
    found = {it.name: it for it in requirements_in(manifest, requirer)}
    peers = texts_at(manifest.get(PEERS, {}), PEERS) if has_peers else {}
    for name, spec in peers.items():
        found.setdefault(name, Requirement(requirer, name, spec))
    patterns = map(translate, settings.ignored_in(lock.get(settings.IGNORED)))
    ignored = re.compile("|".join(patterns) or r"(?!)")
    for name, it in found.items():
        is_ignored = it.kind == OPTIONAL and ignored.match(name) is not None
        if not is_ignored and not (has_no_links and it.specifier.startswith(LINK)):
            yield name, it


def directories_in(top: Optional[str]) -> Optional[List[str]]:
    """Returns the directories of the project and its workspaces, the project first; None if the
    project is not there. The workspaces are what the patterns of pnpm-workspace.yaml find."""
    if top is None:
        return None
    workspace = workspace_file(top)
    if workspace is None:
        return [TOP] if has_manifest(top) else None
    with taking(os.path.join(top, WORKSPACE_FILE), WORKSPACE_FILE):
        places = directories_of(patterns_in(workspace.get("packages") or [], "packages"), top)
    return [TOP, *(it for it in places if has_manifest(os.path.join(top, it)))]


def has_manifest(directory: str) -> bool:
    """Returns whether a directory has a manifest."""
    return any(os.path.isfile(os.path.join(directory, it)) for it in MANIFESTS)


def check_version(lock: Entry) -> None:
    """Rejects a file whose lockfileVersion isn't supported."""
    version = text_at(lock.get("lockfileVersion"), "lockfileVersion")
    if version.partition(".")[0] not in ("5", "6", "9"):
        raise WrongShape(f" of lockfileVersion 5, 6 or 9: {version_stated(lock)}")
