"""What replaces requirements in a `bun.lock` and in the package.json of its project: overrides,
catalogs and patches."""

from typing import Dict, NamedTuple, Tuple

from ..files import Entry, object_at, objects_at, texts_at
from ..model import Keys
from ..node.specifiers import CATALOG

PATCHES = "patchedDependencies"


class Replacements(NamedTuple):
    """What the lock file has to replace requirements: overrides by names, and the ranges of
    catalogs. The default catalog has no name."""

    overrides: Dict[str, str]
    catalogs: Dict[str, Dict[str, str]]

    def by_catalog(self, spec: str, name: str) -> str:
        """Returns what is required of a name. If it is a catalog, returns the range there."""
        if not spec.startswith(CATALOG):
            return spec
        return self.catalogs.get(spec[len(CATALOG) :].strip(), {}).get(name, spec)


def catalogs_in(entry: Entry) -> Dict[str, Dict[str, str]]:
    """Returns the catalogs of a file that have a name."""
    named = objects_at(entry.get("catalogs") or {}, "catalogs")
    return {name: texts_at(it, f"catalogs: {name}") for name, it in named.items()}


def replacements_of(lock: Entry) -> Replacements:
    """Returns what a lock file has to replace requirements."""
    catalogs = {**catalogs_in(lock), "": texts_at(lock.get("catalog", {}), "catalog")}
    return Replacements(texts_at(lock.get("overrides", {}), "overrides"), catalogs)


def replaced_by(manifest: Entry) -> Dict[str, Dict[str, str]]:
    """Returns what the package.json of a project has to replace requirements, by the names of these
    tables in the lock file. Bun doesn't accept overrides inside of others."""
    tables = (object_at(manifest.get(it) or {}, it) for it in ("resolutions", "overrides"))
    texts = {key: it for table in tables for key, it in table.items() if isinstance(it, str)}
    found = {"overrides": {key[3:] if key[:3] == "**/" else key: it for key, it in texts.items()}}
    workspaces = manifest.get("workspaces")
    inner = workspaces if isinstance(workspaces, dict) else {}
    found["catalog"] = texts_at(inner.get("catalog") or manifest.get("catalog") or {}, "catalog")
    named = catalogs_in({"catalogs": inner.get("catalogs") or manifest.get("catalogs")})
    found.update({f"catalogs.{name}": it for name, it in named.items()})
    return {**found, PATCHES: texts_at(manifest.get(PATCHES) or {}, PATCHES)}


def locked_replacements(lock: Entry) -> Dict[str, Tuple[Keys, Dict[str, str]]]:
    """Returns the same tables of a lock file, each with the keys that lead to it."""
    found: Dict[str, Tuple[Keys, Dict[str, str]]] = {}
    for name in ("overrides", "catalog", PATCHES):
        found[name] = (name,), texts_at(lock.get(name) or {}, name)
    for name, catalog in catalogs_in(lock).items():
        found[f"catalogs.{name}"] = ("catalogs", name), catalog
    return found
