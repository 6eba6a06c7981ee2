"""The requirements of a manifest: a package.json, a pnpm-workspace.yaml or a Cargo.toml."""

import json
import re
from typing import Any, Dict, Iterator, NamedTuple, Optional, Tuple

from semver_parser import Dialect

from ..cargo.manifests import Dependency, by_table
from ..files import (
    Entry,
    WrongShape,
    json_object,
    object_at,
    objects_at,
    text_at,
    texts_at,
    toml_object,
    yaml_object,
)
from ..satisfaction import is_met, is_range
from ..node.specifiers import (
    alias_of,
    git_range_of,
    is_elsewhere,
    is_no_range,
    name_and_rest,
    range_of,
)
from ..pnpm.specifiers import parent_and_name
from ..yarn.resolutions import STEP
from .cargo import beside_requirements

NAMES = ("package.json", "Cargo.toml", "pnpm-workspace.yaml")
"""The files that are manifests."""

KINDS_OF_NPM = ("dependencies", "devDependencies", "optionalDependencies", "peerDependencies")
ALSO_OF_NPM = ("acceptDependencies", "resolutions")
METAS = ("peerDependenciesMeta", "dependenciesMeta")

KINDS_OF_CARGO = re.compile(r"(?:target\..*\.)?(?:dev-|build-)?dependencies", re.S)

# What distinguishes a pnpm-workspace.yaml from a Cargo.toml, in which no colon follows a key.
OF_PNPM = re.compile(rb"(?:\A|\n)[A-Za-z]+:(?=\s)")

WORKSPACE = "workspace:"

Key = Tuple[str, str]
"""The table of a requirement, and its key there."""


class Requirement(NamedTuple):
    """A requirement: how it is printed; the name of the package, if it is known; its source, if it
    is stated; and the range, if it is one or may be meant as one."""

    text: str
    name: Optional[str] = None
    source: str = ""
    range: Optional[str] = None


class Manifest(NamedTuple):
    """The requirements of a manifest by table and key, and their dialect. A file that isn't there
    has none."""

    requirements: Dict[Key, Requirement]
    dialect: Optional[Dialect]


NOWHERE = Manifest({}, None)


def manifest_of(text: bytes) -> Manifest:
    """Returns the manifest in a text. JSON is read as npm's, YAML as pnpm's, and TOML as
    Cargo's."""
    if text.lstrip()[:1] == b"{":
        return Manifest(dict(package_json_requirements(json_object(text))), Dialect.NPM)
    if OF_PNPM.search(text):
        return Manifest(dict(pnpm_workspace_requirements(yaml_object(text))), Dialect.NPM)
    return Manifest(dict(cargo_toml_requirements(toml_object(text))), Dialect.CARGO)


def is_kind(table: str) -> bool:
    """Returns whether a table has dependencies. A requirement may move from one such table to
    another one."""
    return table in KINDS_OF_NPM or KINDS_OF_CARGO.fullmatch(table) is not None


# ---- one requirement


def cargo_requirement(need: Dependency) -> Requirement:
    """Returns a requirement of a Cargo.toml."""
    wanted = need.requirement if need.has_registry else None
    package = f'package = "{need.name}"' if need.other_name is not None else ""
    text = ", ".join(filter(None, (wanted, package, need.stated_source)))
    return Requirement(text, need.name, need.stated_source, wanted)


def npm_requirement(name: str, spec: str) -> Requirement:
    """Returns a requirement of npm, yarn or pnpm. The name of a package at a URL is not known."""
    wanted_spec = workspace_specifier(spec)
    alias, at_git, wanted = alias_of(wanted_spec), git_range_of(spec), range_of(wanted_spec)
    is_none = is_met(wanted, "0.0.0", Dialect.NPM) is None and is_no_range(wanted_spec)
    own_name = None if is_elsewhere(wanted_spec) else name if alias is None else alias[0]
    source = "" if at_git is None else at_git[0]
    return Requirement(spec, own_name, source, None if is_none else wanted)


def workspace_specifier(spec: str) -> str:
    """Returns what `workspace:RANGE` and `workspace:NAME@RANGE` require of a workspace. Returns
    other specifiers unchanged, such as a path, or one for the version of the workspace, which isn't
    in the manifest."""
    if not spec.startswith(WORKSPACE):
        return spec
    rest = spec[len(WORKSPACE) :]
    name, within = name_and_rest(rest)
    if name and within and is_range(within, Dialect.NPM):
        return f"npm:{name}@{within}"
    return rest if rest and is_range(rest, Dialect.NPM) else spec


def override_requirement(key: str, spec: str) -> Requirement:
    """Returns what an override replaces a requirement by. `-` removes it, and `$NAME` refers to
    what the project requires."""
    is_other = spec == "-" or spec.startswith("$")
    return Requirement(spec) if is_other else npm_requirement(name_and_rest(key)[0], spec)


def object_requirement(value: Any) -> Requirement:
    """Returns a value that is not a requirement. It is compared as a text."""
    return Requirement(json.dumps(value, ensure_ascii=False, sort_keys=True))


def cargo_toml_requirements(entry: Entry) -> Iterator[Tuple[Key, Requirement]]:
    """Yields the requirements of a Cargo.toml, and what it has besides."""
    for key, need in by_table(entry).items():
        yield key, cargo_requirement(need)
    for it in beside_requirements(entry):
        yield (it.table, it.key), Requirement(it.text, range=it.range or None)


# ---- the tables of npm, yarn, pnpm and Bun


def package_json_requirements(entry: Entry) -> Iterator[Tuple[Key, Requirement]]:
    """Yields the requirements of a package.json. A file with keys of another kind of file is
    rejected."""
    for key in ("lockfileVersion", "workspace_members"):
        if key in entry:
            raise WrongShape(f": it has {key}")
    for table in (*KINDS_OF_NPM, *ALSO_OF_NPM):
        yield from table_requirements(entry, table, table)
    # Old manifests have a list of engines, which npm ignores.
    if isinstance(entry.get("engines"), dict):
        yield from table_requirements(entry, "engines", "engines")
    for table in METAS:
        for name, meta in objects_at(entry.get(table, {}), table).items():
            yield (table, name), object_requirement(meta)
    overrides = object_at(entry.get("overrides", {}), "overrides")
    yield from override_requirements(overrides, "", "overrides")
    pnpm = object_at(entry.get("pnpm", {}), "pnpm")
    for name, spec in texts_at(pnpm.get("overrides", {}), "pnpm.overrides").items():
        yield ("pnpm.overrides", name), override_requirement(parent_and_name(name)[1], spec)
    yield from catalog_requirements(entry, "")
    if isinstance(entry.get("workspaces"), dict):
        yield from catalog_requirements(entry["workspaces"], "workspaces.")


def pnpm_workspace_requirements(entry: Entry) -> Iterator[Tuple[Key, Requirement]]:
    """Yields the requirements of a pnpm-workspace.yaml."""
    yield from catalog_requirements(entry, "")
    for name, spec in texts_at(entry.get("overrides") or {}, "overrides").items():
        yield ("overrides", name), override_requirement(parent_and_name(name)[1], spec)


def table_requirements(entry: Entry, key: str, table: str) -> Iterator[Tuple[Key, Requirement]]:
    """Yields the requirements of a table of names. In resolutions the keys are paths of names."""
    for path, spec in texts_at(entry.get(key) or {}, table).items():
        is_path = table == "resolutions"
        name = name_and_rest(STEP.findall(path)[-1])[0] if is_path and path.strip("/") else path
        yield (table, path), npm_requirement(name, spec)


def catalog_requirements(entry: Entry, outer: str) -> Iterator[Tuple[Key, Requirement]]:
    """Yields the requirements of catalogs."""
    yield from table_requirements(entry, "catalog", f"{outer}catalog")
    catalogs = object_at(entry.get("catalogs") or {}, f"{outer}catalogs")
    for name in catalogs:
        yield from table_requirements(catalogs, name, f"{outer}catalogs.{name}")


def override_requirements(entry: Entry, path: str, where: str) -> Iterator[Tuple[Key, Requirement]]:
    """Yields the overrides of npm, each by the keys that lead to it."""
    for key, value in entry.items():
        inner = f"{path} > {key}" if path else key
        if isinstance(value, dict):
            yield from override_requirements(value, inner, f"{where}: {key}")
        else:
            name = path.rpartition(" > ")[2] if key == "." else key
            text = text_at(value, f"{where}: {key}")
            yield ("overrides", inner), override_requirement(name, text)
