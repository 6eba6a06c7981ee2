"""What a Cargo.toml has: a package with its requirements, and what a workspace provides for its
members."""

import os
from typing import Any, Dict, Iterator, List, NamedTuple, Optional, Tuple

from ..files import Entry, WrongShape, bytes_of, list_at, object_at, taking, text_at, toml_object
from .sources import CRATES_IO, Source, source_of
from .validity import refuse_invalid

KINDS = ("dependencies", "dev-dependencies", "build-dependencies")
MANIFEST = "Cargo.toml"

# The source of a dependency that refers to a workspace in another file.
INHERITED = "workspace = true"

SOURCES = ("path", "git", "branch", "tag", "rev", "registry", "registry-index")

# The version of a package without one, for Cargo.
NO_VERSION = "0.0.0"


class Dependency(NamedTuple):
    """A dependency of a manifest.

    - `name` is that of the package, and `other_name` the name that the manifest gives to it, if
      any.
    - `has_registry` says whether the requirement is for a registry. Otherwise it is only for a path
      or for git.
    - `table` is the table that it is in.
    - `stated_source` is its source as it is written, and `source` the same as Cargo compares it.
    - `features` are those that it is to have.
    """

    name: str
    other_name: Optional[str]
    requirement: str
    has_registry: bool
    table: str
    stated_source: str = ""
    source: Source = CRATES_IO
    is_optional: bool = False
    features: Tuple[str, ...] = ()

    @property
    def key(self) -> str:
        """The name by which the manifest refers to the package."""
        return self.other_name or self.name

    @property
    def is_development(self) -> bool:
        """Whether it is a development dependency, perhaps for a target."""
        return self.table.rpartition(".")[2] == "dev-dependencies"


class Manifest(NamedTuple):
    """The manifest of a package: its directory, name, version, dependencies and features, and the
    library that it links. If it has no name, it is only that of a workspace."""

    folder: str
    name: Optional[str]
    version: str
    dependencies: List[Dependency]
    features: Dict[str, List[str]]
    links: str = ""


class Inherited(NamedTuple):
    """What a workspace provides for its members, and its directory."""

    folder: str
    dependencies: Entry
    package: Entry


NOTHING_INHERITED = Inherited("", {}, {})


def tables_of(manifest: Entry) -> Iterator[Tuple[str, Entry]]:
    """Yields the tables of dependencies, including those for a target."""
    for kind in KINDS:
        for spelled in (kind, kind.replace("-", "_")) if "-" in kind else (kind,):
            if spelled in manifest:
                yield kind, object_at(manifest[spelled], kind)
    for target, inner in object_at(manifest.get("target", {}), "target").items():
        for kind, table in tables_of({**object_at(inner, f"target: {target}"), "target": {}}):
            yield f"target.{target}.{kind}", table


def patches_of(manifest: Entry) -> Iterator[Tuple[str, Entry]]:
    """Yields the tables of packages that replace others: `[patch]` by sources, and `[replace]`."""
    for source, table in object_at(manifest.get("patch", {}), "patch").items():
        yield f"patch.{source}", object_at(table, f"patch: {source}")
    if "replace" in manifest:
        yield "replace", object_at(manifest["replace"], "replace")


def dependency_of(
    key: str, value: Any, table: str, inherited: Inherited = NOTHING_INHERITED, folder: str = ""
) -> Dependency:
    """Returns a dependency of a table. Its value is a requirement, or a table that may refer to
    that of the workspace."""
    where = f"{table}: {key}"
    if isinstance(value, str):
        return Dependency(key, None, value, True, table, features=("default",))
    entry = object_at(value, where)
    if entry.get("workspace") is True:
        if key not in inherited.dependencies:
            raise WrongShape(f": {where} isn't one of the workspace's dependencies")
        own = dependency_of(key, inherited.dependencies[key], table, folder=inherited.folder)
        features = (*own.features, *features_in(entry, where, False))
        return own._replace(is_optional=entry.get("optional") is True, features=features)
    package = text_at(entry.get("package", key), f"{where}: package")
    requirement = text_at(entry.get("version", "*"), f"{where}: version")
    has_registry = "version" in entry or not ("path" in entry or "git" in entry)
    stated = ", ".join(
        f'{it} = "{text_at(entry[it], f"{where}: {it}")}"' for it in SOURCES if it in entry
    )
    return Dependency(
        package,
        key if package != key else None,
        requirement,
        has_registry,
        table,
        stated,
        source_of(entry, folder),
        entry.get("optional") is True,
        features_in(entry, where, True),
    )


def features_in(entry: Entry, where: str, has_default: bool) -> Tuple[str, ...]:
    """Returns the features that a dependency is to have. `default` is among them by default, or
    only if the manifest says so."""
    for spelled in ("default-features", "default_features"):
        has_default = bool(entry.get(spelled, has_default))
    features = list_at(entry.get("features", []), f"{where}: features")
    own = (text_at(it, f"{where}: features") for it in features)
    return (*own, "default") if has_default else tuple(own)


def package_of(manifest: Entry) -> Entry:
    """Returns the package table of a manifest. Up to edition 2021 it may be called `project`."""
    return object_at(manifest.get("package", manifest.get("project", {})), "package")


def workspace_of(manifest: Entry) -> Entry:
    """Returns the workspace table of a manifest; an empty one if it has none."""
    return object_at(manifest.get("workspace", {}), "workspace")


def workspace_table(manifest: Entry) -> Entry:
    """Returns the dependencies that a workspace provides for its members."""
    return object_at(workspace_of(manifest).get("dependencies", {}), "workspace: dependencies")


def inherited_of(manifest: Entry, folder: str) -> Inherited:
    """Returns what a workspace's manifest provides for the members."""
    package = object_at(workspace_of(manifest).get("package", {}), "workspace: package")
    return Inherited(folder, workspace_table(manifest), package)


def manifest_of(entry: Entry, inherited: Inherited, folder: str) -> Manifest:
    """Returns a manifest. Its dependencies and its version may be those of the workspace."""
    package = package_of(entry)
    version = package.get("version")
    if isinstance(version, dict) and version.get("workspace") is True:
        version = inherited.package.get("version")
    dependencies = [
        dependency_of(key, value, table, inherited, folder)
        for table, values in tables_of(entry)
        for key, value in values.items()
    ]
    name = text_at(package["name"], "package: name") if "name" in package else None
    features = object_at(entry.get("features", {}), "features")
    named = {
        key: [text_at(it, f"features: {key}") for it in list_at(value, f"features: {key}")]
        for key, value in features.items()
    }
    version = version if isinstance(version, str) else NO_VERSION
    refuse_invalid(entry, package, dict(tables_of(entry)), folder)
    links = package.get("links")
    links = links if isinstance(links, str) else ""
    return Manifest(os.path.abspath(folder), name, version, dependencies, named, links)


def read(path: str) -> Entry:
    """Returns the contents of a Cargo.toml."""
    with taking(path, MANIFEST):
        return toml_object(bytes_of(path))


def by_table(entry: Entry) -> Dict[Tuple[str, str], Dependency]:
    """Returns the requirements of a manifest by table and key, including what a workspace provides
    for its members, and what replaces packages. A dependency that refers to a workspace in another
    file has no requirement. A file without any table of a manifest is rejected."""
    package_of(entry)
    if not {"package", "workspace", "target", "patch", "replace", *KINDS}.intersection(entry):
        raise WrongShape("")
    inherited = inherited_of(entry, "")
    found: Dict[Tuple[str, str], Dependency] = {}
    of_workspace = ("workspace.dependencies", inherited.dependencies)
    for table, values in (*tables_of(entry), of_workspace, *patches_of(entry)):
        for key, value in values.items():
            is_elsewhere = isinstance(value, dict) and value.get("workspace") is True
            if is_elsewhere and key not in inherited.dependencies:
                found[table, key] = Dependency(key, None, "*", False, table, INHERITED)
            else:
                found[table, key] = dependency_of(key, value, table, inherited)
    return found
