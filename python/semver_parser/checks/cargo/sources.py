"""The sources of packages, as manifests and lock files write them: a directory, git, or a
registry."""

import os
import re
from typing import NamedTuple, Optional
from urllib.parse import unquote

from ..files import Entry

PATH, GIT, REGISTRY, NAMED = "path", "git", "registry", "named"

INDEX_OF_CRATES_IO = "https://github.com/rust-lang/crates.io-index"

# The names of crates.io in a lock file and in a [patch].
NAMES_OF_CRATES_IO = ("crates-io", "crates.io")

# The source of a package in a lock file: its kind and its URL; and for git the branch, tag or
# revision, and the commit.
LOCKED = re.compile(r"(git|registry|sparse)\+([^?#]*)(?:\?([^#]*))?(?:#.*)?", re.S)

REFERENCES = ("branch", "tag", "rev")

# A commit, or the beginning of one.
COMMIT = re.compile("[0-9a-f]{7,40}")


class Source(NamedTuple):
    """A source: its kind, its directory, URL or name, and the branch, tag or revision of git."""

    kind: str
    place: str
    reference: str = ""

    def text(self, folder: str) -> str:
        """Returns the source as findings print it. A directory is relative to another one."""
        if self == CRATES_IO:
            return NAMES_OF_CRATES_IO[0]
        if self.kind == PATH:
            return os.path.relpath(self.place, folder).replace(os.sep, "/")
        before = "git+" if self.kind == GIT else ""
        return f"{before}{self.place}" + (f"?{self.reference}" if self.reference else "")


def canonical(url: str) -> str:
    """Returns a URL in the form in which Cargo compares it. GitHub's URLs aren't case-sensitive."""
    bare = url.rstrip("/")
    bare = bare.lower() if "//github.com/" in bare.lower() else bare
    return bare[: -len(".git")] if bare.endswith(".git") else bare


CRATES_IO = Source(REGISTRY, canonical(INDEX_OF_CRATES_IO))


def locked_source(text: str) -> Source:
    """Returns the source that a lock file has."""
    found = LOCKED.fullmatch(text)
    if found is None:
        return Source(NAMED, text)
    kind, url, query = found.groups()
    if kind == GIT:
        return Source(GIT, canonical(url), unquote(query or ""))
    return Source(REGISTRY, ("sparse+" if kind == "sparse" else "") + canonical(url))


def is_other_commit(wanted: Source, text: str) -> bool:
    """Returns whether a lock file has another commit than a `rev` names. A `rev` may also be the
    name of a tag, such as `20260101`, so one that has only decimal digits isn't compared."""
    kind, _, rev = wanted.reference.partition("=")
    is_commit = kind == "rev" and COMMIT.fullmatch(rev) is not None and not rev.isdecimal()
    commit = text.partition("#")[2]
    return wanted.kind == GIT and is_commit and bool(commit) and not commit.startswith(rev)


def registry_at(index: str) -> Source:
    """Returns the registry whose index is at a URL."""
    return locked_source(index if index.startswith("sparse+") else f"registry+{index}")


def registry_of(name: str) -> Source:
    """Returns the registry of a name. Only Cargo's settings say what its URL is."""
    return CRATES_IO if name in NAMES_OF_CRATES_IO else Source(NAMED, name)


def source_of(entry: Entry, folder: str) -> Source:
    """Returns the source of a dependency in a directory's manifest, whose fields are texts."""
    if "path" in entry:
        return Source(PATH, directory_at(folder, entry["path"]))
    if "git" in entry:
        reference = next((f"{it}={entry[it]}" for it in REFERENCES if it in entry), "")
        return Source(GIT, canonical(entry["git"]), reference)
    if "registry-index" in entry:
        return registry_at(entry["registry-index"])
    return registry_of(entry["registry"]) if "registry" in entry else CRATES_IO


def patched_source(key: str) -> Source:
    """Returns the source that a key of [patch] is for: a name or a URL."""
    if "://" not in key:
        return registry_of(key)
    return CRATES_IO if canonical(key) == CRATES_IO.place else Source(NAMED, canonical(key))


def directory_at(folder: str, path: str) -> str:
    """Returns the directory at a path in another directory, as Cargo compares directories."""
    return os.path.abspath(os.path.join(folder, path))


def is_patched(wanted: Source, key: Source) -> bool:
    """Returns whether a key of [patch] is for a source: by its name, or by its URL."""
    return key in (wanted, Source(NAMED, wanted.place))


def is_from(wanted: Source, found: Optional[Source]) -> bool:
    """Returns whether a package comes from a source. If the source is a registry whose URL isn't
    known, any registry except crates.io may be it."""
    if wanted.kind == NAMED and found is not None:
        return found.kind in (REGISTRY, NAMED) and found != CRATES_IO
    return wanted == found
