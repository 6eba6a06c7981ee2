"""The errors in a Cargo.toml that take one line here each. The verdict of cargo 1.95.0 counts.
Nothing else of a manifest is validated."""

import os
import re
from typing import Any, Dict, Iterator, List

from semver_parser import Dialect

from ..files import Entry, WrongShape
from ..satisfaction import is_version

EDITIONS, RESOLVERS = ("2015", "2018", "2021", "2024"), ("1", "2", "3")

# The minor version of Rust from which on there is an edition.
OLDEST = {"2018": 31, "2021": 56, "2024": 85}

NAME = re.compile(r"[^\W\d][\w-]*")
RUST_VERSION = re.compile(r"(?:0|[1-9][0-9]{0,8})(?:\.(?:0|[1-9][0-9]{0,8})){0,2}")

# A setting of a `cfg(..)`, whose text is left out, and an expression of settings.
SETTING = r'(?:r#|(?!(?:all|any|not)\b))[A-Za-z_]\w*(?: *= *"")? *'
SETTINGS = rf"(?:{SETTING}(?:, *{SETTING})*(?:, *)?)?"
EXPRESSION = re.compile(
    rf"(?<![\w#])(?:(?:all|any) *\( *{SETTINGS}|not *\( *{SETTING})\)", re.ASCII
)

# How many lists an expression may have, since each may be inside of another one.
MOST_LISTS = 100

ONE_SETTING = re.compile(f" *{SETTING}", re.ASCII)

# The tables that a manifest without a package may not have.
OF_PACKAGE = (
    "dependencies", "dev-dependencies", "build-dependencies", "features", "target", "lib", "bin",
)  # fmt: skip

# Pairs of which a dependency may have at most one.
APART = (("git", "path"), ("git", "registry"), ("registry", "registry-index"))
REFERENCES = ("branch", "tag", "rev")
PLACES = ("version", "path", "git", "workspace")


def wrong_in_package(package: Entry, directory: str) -> Iterator[str]:
    """Yields the errors in the package table."""
    name, version, edition = (package.get(it) for it in ("name", "version", "edition"))
    if isinstance(name, str) and not NAME.fullmatch(name):
        yield f"{name} isn't a valid name of a package"
    if isinstance(version, str) and not is_version(version, Dialect.CARGO):
        yield f"version {version} is invalid"
    if edition is not None and not isinstance(edition, dict) and edition not in EDITIONS:
        yield f"edition {edition} is unknown"
    has_build = "build" in package or os.path.isfile(os.path.join(directory, "build.rs"))
    oldest = package.get("rust-version")
    if isinstance(oldest, str) and not RUST_VERSION.fullmatch(oldest.strip()):
        yield f"rust-version {oldest} is invalid"
    elif isinstance(oldest, str) and is_below(oldest, OLDEST.get(str(edition), 0)):
        yield f"rust-version {oldest} is too low for edition {edition}"
    if "links" in package and not has_build:
        yield "links is there without a build script"
    named = package.get("workspace")
    if isinstance(named, str) and not os.path.isfile(os.path.join(directory, named, "Cargo.toml")):
        yield f"workspace {named} isn't there"


def is_below(rust: str, minor: int) -> bool:
    """Returns whether a version of Rust is below 1 with a minor version."""
    parts = [*map(int, rust.split(".")), 0]
    return (parts[0], parts[1]) < (1, minor)


def wrong_in_workspace(entry: Entry, package: Entry) -> Iterator[str]:
    """Yields the errors in the other tables."""
    workspace = entry.get("workspace")
    resolver = (workspace or {}).get("resolver", package.get("resolver", RESOLVERS[0]))
    if resolver not in RESOLVERS:
        yield f"resolver {resolver} is unknown"
    if not package and workspace is not None:
        yield from (f"{it} is there without a package" for it in OF_PACKAGE if it in entry)
    if workspace is not None and "workspace" in package:
        yield "it has a workspace and names another one"
    if "replace" in entry and "patch" in entry:
        yield "replace and patch are both there"
    for target in entry.get("target", {}):
        if target.count("(") > MOST_LISTS:
            yield f"a target has more than {MOST_LISTS} lists"
        elif not is_target(target):
            yield f"target {target} is invalid"


def is_target(text: str) -> bool:
    """Returns whether a text is the name of a target, or a `cfg(..)`, in which each expression is
    replaced by a setting, the inner ones first, until one is left."""
    if not text.startswith("cfg(") or not text.endswith(")"):
        return re.fullmatch(r"[\w.-]*", text) is not None
    inner, count = re.sub('"[^"]*"', '""', text[len("cfg(") : -1]), 1
    while count:
        inner, count = EXPRESSION.subn(' _ = "" ', inner)
    return ONE_SETTING.fullmatch(inner) is not None


def wrong_in_dependency(table: str, value: Any) -> Iterator[str]:
    """Yields the errors in a dependency."""
    if not isinstance(value, dict):
        return
    references = [it for it in REFERENCES if it in value]
    if not any(it in value for it in PLACES):
        yield "it has neither a version nor a place"
    if "git" not in value:
        yield from (f"{it} is there without git" for it in references)
    elif len(references) > 1:
        yield f"{' and '.join(references)} are both there"
    for one, other in APART:
        if one in value and other in value:
            yield f"{one} and {other} are both there"
    if table.endswith("dev-dependencies") and value.get("optional") is True:
        yield "it is for development and optional"
    features: List[Any] = value.get("features", [])
    yield from (f"feature {it} has a slash or dep:" for it in features if is_no_feature(it))


def is_no_feature(name: Any) -> bool:
    """Returns whether a string is a name that a feature may not have."""
    return isinstance(name, str) and ("/" in name or name.startswith("dep:"))


def refuse_invalid(
    entry: Entry, package: Entry, tables: Dict[str, Entry], directory: str
) -> None:
    """Rejects a manifest that has one of these errors."""
    wrong = [*wrong_in_workspace(entry, package), *wrong_in_package(package, directory)]
    for table, values in tables.items():
        for key, value in values.items():
            wrong += (f"{table}: {key}: {it}" for it in wrong_in_dependency(table, value))
    for name, values in entry.get("features", {}).items():
        wrong += [f"features: {name} has a slash or dep:"] if is_no_feature(name) else []
        wrong += [f"features: {name} requires itself"] if name in values else []
    if wrong:
        raise WrongShape(f": {wrong[0]}")
