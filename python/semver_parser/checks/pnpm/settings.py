"""The settings of a project of pnpm, from its pnpm-workspace.yaml, from `pnpm` in its package.json
and from its .npmrc; and which of them the lock file was not written with. `pnpm install
--frozen-lockfile` rejects it if one differs: ERR_PNPM_LOCKFILE_CONFIG_MISMATCH."""

import os
from typing import Any, Dict, Iterator, List, NamedTuple, Optional, Tuple

from ..files import (
    Entry,
    bytes_of,
    is_there,
    list_at,
    object_at,
    objects_at,
    taking,
    text_at,
    texts_at,
    yaml_object,
)
from ..findings import Finding, StaleSetting
from ..model import Keys
from ..node.npmrc import COMMENT, LINE_ENDS, unquoted
from ..node.specifiers import CATALOG, name_and_rest
from .specifiers import parent_and_name

WORKSPACE_FILE, MANIFEST, NPMRC = "pnpm-workspace.yaml", "package.json", ".npmrc"

# The settings in a lock file that are on or off, each with its name in .npmrc and its default.
SWITCHES = {
    "autoInstallPeers": ("auto-install-peers", "true"),
    "excludeLinksFromLockfile": ("exclude-links-from-lockfile", "false"),
    "injectWorkspacePackages": ("inject-workspace-packages", "false"),
}

# This one is in the lock file only if it is on.
IF_ON = "injectWorkspacePackages"

IGNORED = "ignoredOptionalDependencies"
EXTENSIONS = "packageExtensions"

# The tables to which `$NAME` in an override refers. The last one that has the name counts.
KINDS = ("devDependencies", "dependencies", "optionalDependencies")

Place = Tuple[str, Dict[str, str]]
"""A file, and the texts in it by names."""


class Settings(NamedTuple):
    """The settings of a project: its pnpm-workspace.yaml, its package.json, and the pairs in its
    .npmrc."""

    workspace: Entry
    manifest: Entry
    npmrc: Dict[str, str]

    def table(self, name: str) -> Tuple[str, Any]:
        """Returns the file that has a setting, and its value. pnpm-workspace.yaml comes first."""
        if name in self.workspace:
            return WORKSPACE_FILE, self.workspace[name]
        own = object_at(self.manifest.get("pnpm") or {}, "pnpm").get(name)
        resolutions = self.manifest.get("resolutions") if name == "overrides" else None
        if resolutions:
            own = {**texts_at(resolutions, "resolutions"), **texts_at(own or {}, "overrides")}
        return MANIFEST, own

    def switch(self, name: str) -> Tuple[str, str]:
        """Returns the file that has a setting that is on or off, and its value."""
        other_name, by_default = SWITCHES[name]
        if name in self.workspace:
            return WORKSPACE_FILE, str(self.workspace[name])
        if other_name in self.npmrc:
            return NPMRC, self.npmrc[other_name]
        return "pnpm's defaults", by_default


def workspace_file(top: str) -> Optional[Entry]:
    """Returns the pnpm-workspace.yaml of a project, if it is there."""
    path = os.path.join(top, WORKSPACE_FILE)
    with taking(path, WORKSPACE_FILE):
        if not is_there(path):
            return None
        text = bytes_of(path)
        return yaml_object(text) if text.strip() else {}


def npmrc_of(top: str) -> Dict[str, str]:
    """Returns what the .npmrc of a project has."""
    path = os.path.join(top, NPMRC)
    with taking(path, NPMRC):
        text = bytes_of(path).decode("utf-8", "replace") if is_there(path) else ""
    pairs = (COMMENT.sub("", line).partition("=") for line in LINE_ENDS.split(text))
    return {unquoted(key): unquoted(value) for key, _, value in pairs}


def settings_of(top: str, manifest: Entry) -> Settings:
    """Returns the settings of a project. Its package.json was read before."""
    return Settings(workspace_file(top) or {}, manifest, npmrc_of(top))


def catalogs_of(workspace: Entry) -> Dict[str, Dict[str, str]]:
    """Returns the catalogs of a pnpm-workspace.yaml by their names."""
    named = objects_at(workspace.get("catalogs") or {}, "catalogs")
    found = {name: texts_at(it, f"catalogs: {name}") for name, it in named.items()}
    if workspace.get("catalog"):
        found["default"] = texts_at(workspace["catalog"], "catalog")
    return found


def overrides_of(settings: Settings) -> Place:
    """Returns the overrides of a project in the form that a lock file has: `$NAME` becomes what the
    project requires, and `catalog:` the range in the catalog."""
    file, found = settings.table("overrides")
    manifest, catalogs = settings.manifest, catalogs_of(settings.workspace)
    required = {
        name: spec
        for kind in KINDS
        for name, spec in texts_at(manifest.get(kind) or {}, kind).items()
    }
    texts = texts_at(found or {}, "overrides")
    overrides = {}
    for key, spec in texts.items():
        if spec.startswith("$"):
            spec = required.get(spec[1:], spec)
        if spec.startswith(CATALOG):
            catalog = catalogs.get(spec[len(CATALOG) :] or "default", {})
            spec = catalog.get(name_and_rest(parent_and_name(key)[1])[0], spec)
        overrides[key] = spec
    return file, overrides


def patches_of(value: Any) -> Dict[str, str]:
    """Returns the paths of patches by their keys. A lock file also has their checksums, or only
    these; then the path is empty."""
    found = {}
    for key, it in object_at(value or {}, "patchedDependencies").items():
        path = it.get("path", "") if isinstance(it, dict) else it
        found[key] = os.path.normpath(path) if isinstance(path, str) else ""
    return found


# ---- what differs


def stale_texts(name: str, locked: Dict[str, str], place: Place) -> Iterator[Finding]:
    """Yields the findings about texts that differ between a lock file and a file of settings."""
    file, texts = place
    for key in {**locked, **texts}:
        if locked.get(key) != texts.get(key):
            own, there = texts.get(key, ""), locked.get(key, "")
            yield StaleSetting(f"{name}.{key}", own, there, file, (name, key))


def stale_catalogs(lock: Entry, settings: Settings) -> Iterator[Finding]:
    """Yields the findings about ranges of catalogs. A lock file has only those that something
    uses."""
    catalogs = catalogs_of(settings.workspace)
    for catalog, entries in objects_at(lock.get("catalogs") or {}, "catalogs").items():
        for name, entry in objects_at(entries, f"catalogs: {catalog}").items():
            locked, now = str(entry.get("specifier")), catalogs.get(catalog, {}).get(name, "")
            if locked != now:
                at = ("catalogs", catalog, name)
                yield StaleSetting(".".join(at), now, locked, WORKSPACE_FILE, at)


def stale_patches(lock: Entry, settings: Settings) -> Iterator[Finding]:
    """Yields the findings about patches. A lock file of pnpm 11 has no paths."""
    name = "patchedDependencies"
    locked = lock.get(name) or {}
    file, found = settings.table(name)
    patches = patches_of(found)
    is_of_paths = any(isinstance(it, dict) for it in object_at(locked, name).values())
    if locked and not is_of_paths:
        locked, patches = dict.fromkeys(locked, "patch"), dict.fromkeys(patches, "patch")
    yield from stale_texts(name, patches_of(locked), (file, patches))


def stale_switches(lock: Entry, settings: Settings) -> Iterator[Finding]:
    """Yields the findings about settings that are on or off."""
    locked = object_at(lock.get("settings") or {}, "settings")
    for name in SWITCHES:
        file, now = settings.switch(name)
        there = locked.get(name, "false" if name == IF_ON else now)
        if there != now:
            at = ("settings", name)
            yield StaleSetting(f"settings.{name}", now, str(there), file, at)


def ignored_in(lists: Any) -> Dict[str, str]:
    """Returns the patterns of the optional dependencies that pnpm leaves out."""
    return {text_at(it, IGNORED): "ignored" for it in list_at(lists or [], IGNORED)}


def stale_extensions(lock: Entry, settings: Settings) -> Iterator[Finding]:
    """Yields the findings about package extensions. A lock file has only their checksum."""
    file, own = settings.table(EXTENSIONS)
    locked = str(lock.get(f"{EXTENSIONS}Checksum") or "")
    if bool(own) != bool(locked):
        at = (f"{EXTENSIONS}Checksum",)
        yield StaleSetting(EXTENSIONS, "set" if own else "", locked, file, at)


def stale_settings(lock: Entry, settings: Settings) -> Iterator[Finding]:
    """Yields the findings about settings that differ from those of the lock file."""
    yield from stale_catalogs(lock, settings)
    locked = texts_at(lock.get("overrides") or {}, "overrides")
    yield from stale_texts("overrides", locked, overrides_of(settings))
    file, ignored = settings.table(IGNORED)
    yield from stale_texts(IGNORED, ignored_in(lock.get(IGNORED)), (file, ignored_in(ignored)))
    yield from stale_extensions(lock, settings)
    yield from stale_patches(lock, settings)
    yield from stale_switches(lock, settings)


# ---- where they are stated


def keys_of_setting(at: Keys, file: str) -> List[Keys]:
    """Returns the keys in a file that may lead to a setting, by its keys in the lock file. They
    lead to the setting itself, or to the list or table that it is in."""
    name, *inner = at
    keys: List[Keys]
    if name == "settings":
        keys = [tuple(inner)]
    elif name == "catalogs":
        keys = keys_of_catalog(*inner)
    else:
        table = name.removesuffix("Checksum")
        keys = [(table, *inner), (table,)]
    if file != MANIFEST:
        return keys
    resolutions: List[Keys] = [("resolutions", *it[1:]) for it in keys if it[0] == "overrides"]
    return [("pnpm", *keys[0]), *resolutions[:1], *(("pnpm", *it) for it in keys[1:])]


def keys_of_catalog(catalog: str, name: str) -> List[Keys]:
    """Returns the keys that may lead to an entry of a catalog."""
    keys: List[Keys] = [("catalogs", catalog, name)]
    return keys + ([("catalog", name)] if catalog == "default" else [])
