"""What a Cargo.toml has besides requirements: the Rust version that it needs, its features, and the
features that it requires of others."""

import json
from typing import Any, Dict, Iterator, NamedTuple, Tuple

from ..cargo.manifests import tables_of, workspace_table
from ..files import Entry, object_at

RUST = "rust-version"
OF_FEATURES = ("features", "default-features")


class Beside(NamedTuple):
    """An entry that is not a requirement: its table and key, its text, and its range, if it has
    one."""

    table: str
    key: str
    text: str
    range: str = ""


def text_of(value: Any) -> str:
    """Returns a value that is not a requirement as a text."""
    return json.dumps(value, ensure_ascii=False, sort_keys=True, default=str)


def rust_versions(entry: Entry, table: str) -> Iterator[Beside]:
    """Yields the Rust version that a package needs, or that its workspace has for its members. Its
    range contains this version and all later ones."""
    if RUST in entry:
        needed = entry[RUST]
        is_own = isinstance(needed, str)
        yield Beside(table, RUST, needed if is_own else text_of(needed), f">={needed}" * is_own)


def feature_lists(table: str, values: Dict[str, Any]) -> Iterator[Beside]:
    """Yields the features that a table of dependencies requires."""
    for name, value in values.items():
        for key in OF_FEATURES:
            if isinstance(value, dict) and key in value:
                yield Beside(f"{table}.{name}", key, text_of(value[key]))


def beside_requirements(entry: Entry) -> Iterator[Beside]:
    """Yields what a Cargo.toml has besides requirements."""
    yield from rust_versions(object_at(entry.get("package", {}), "package"), "package")
    workspace = object_at(entry.get("workspace", {}), "workspace")
    shared = object_at(workspace.get("package", {}), "workspace: package")
    yield from rust_versions(shared, "workspace.package")
    for name, value in object_at(entry.get("features", {}), "features").items():
        yield Beside("features", name, text_of(value))
    tables: Tuple[Tuple[str, Dict[str, Any]], ...] = (
        *tables_of(entry),
        ("workspace.dependencies", workspace_table(entry)),
    )
    for table, values in tables:
        yield from feature_lists(table, values)
