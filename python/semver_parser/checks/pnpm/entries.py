"""The entries of the packages in a `pnpm-lock.yaml`: to which one a version leads, and which are
missing. pnpm rejects a lock file in which something that it installs has no entry."""

import re
from typing import Dict, Iterator, List, NamedTuple, Optional, Tuple

from semver_parser import Dialect

from ..files import Entry, objects_at, text_at, texts_at
from ..findings import Finding, Missing, MissingEntry
from ..model import Package, Requirement, Requirer
from ..satisfaction import is_version

LINK = "link:"
"""What is before the path in the version of a workspace or another directory."""


# The key of a package: NAME@VERSION, /NAME/VERSION or /NAME@VERSION. The last two may begin with a
# registry. Peers may follow.
CALLED = re.compile(
    r"(?P<registry>[^/@]*/)?(?P<name>(?:@[^/@]+/)?[^/@]+)(?(registry)[/@]|@)"
    r"(?P<version>[^/(_]+)(?:[(_].*)?",
    re.S,
)


class Entries(NamedTuple):
    """The entries of the packages in a file: their fields; what they depend on, which is separate
    from lockfileVersion 9 on (`snapshots`); and the first number of lockfileVersion."""

    packages: Dict[str, Entry]
    snapshots: Dict[str, Entry]
    form: str

    def key_of(self, text: str, name: str) -> str:
        """Returns the key of the entry to which a version of a name leads."""
        before = text.partition("(")[0]
        if self.form == "9":
            at, colon = before.find("@"), before.find(":")
            is_whole = at == 0 or 0 < at and (colon < 0 or at < colon)
            return text if is_whole else f"{name}@{text}"
        if text.startswith("file:") or "/" in before:
            return text
        return f"/{name}@{text}" if self.form == "6" else f"/{name}/{text}"

    def has(self, text: str, name: str) -> bool:
        """Returns whether a version of a name has an entry."""
        return self.key_of(text, name) in self.snapshots


def called_by(text: str) -> Optional[Tuple[str, str]]:
    """Returns the name and the version in the key of a package. A package at a URL or a path has
    none, such as `github.com/user/numbers/0123` and `example.org/numbers/0123`."""
    called = CALLED.fullmatch(text)
    if called is None or ":" in text[: called.end("version")]:
        return None
    registry, name, version = called.groups()
    if registry not in (None, "/") and not is_version(version, Dialect.NPM):
        return None
    return name, version


def entries_of(lock: Entry) -> Entries:
    """Returns the entries of the packages in a file."""
    form = text_at(lock.get("lockfileVersion"), "lockfileVersion").partition(".")[0]
    packages = objects_at(lock.get("packages") or {}, "packages")
    if form != "9":
        return Entries(packages, packages, form)
    return Entries(packages, objects_at(lock.get("snapshots") or {}, "snapshots"), form)


def depends_of(key: str, entry: Entry) -> Dict[str, str]:
    """Returns what a package depends on: names, each with its version."""
    kinds = ("optionalDependencies", "dependencies")
    each = (texts_at(entry.get(kind) or {}, f"{key}: {kind}") for kind in kinds)
    return {name: text for them in each for name, text in them.items()}


def reached_from(entries: Entries, tops: List[str]) -> List[str]:
    """Returns the keys of the entries to which some keys lead."""
    seen, left = set(tops), list(tops)
    for key in left:
        for name, text in depends_of(key, entries.snapshots[key]).items():
            inner = entries.key_of(text, name)
            if not text.startswith(LINK) and inner in entries.snapshots and inner not in seen:
                seen.add(inner)
                left.append(inner)
    return left


def unreached(entries: Entries, reached: List[str]) -> Iterator[Package]:
    """Yields the packages to which nothing leads."""
    there = {it for key in reached for it in (key, key.partition("(")[0])}
    for key in entries.packages:
        if key not in there:
            name, version = called_by(key) or (key, "")
            yield Package(name, version or None, key, ("packages", key))


def missing_entries(entries: Entries, reached: List[str]) -> Iterator[Finding]:
    """Yields the findings about packages without an entry, or with only one of its two halves,
    among those that are reached."""
    for key in reached:
        own = key.partition("(")[0]
        name, version = called_by(key) or (own, "")
        if own not in entries.packages and key not in entries.packages:
            package = Package(name, version or None, key, ("snapshots", key))
            yield MissingEntry(package, "", "the file has only its snapshot")
        at = ("snapshots" if entries.form == "9" else "packages", key)
        for dependency, text in depends_of(key, entries.snapshots[key]).items():
            inner = entries.key_of(text, dependency)
            if not text.startswith(LINK) and inner not in entries.snapshots:
                yield Missing(Requirement(Requirer(name, version, "", at), dependency, text))
