"""The sources of manifests: files, revisions of git, and directories."""

import errno
import os
from typing import Callable, Iterator, List, NamedTuple, Optional, Tuple

from semver_parser import Dialect

from ..directories import is_among, named_below
from ..files import STANDARD_INPUT, Refusal, bytes_of, name_of, taking, unmarked
from ..git import below_in_revision, changed_below, in_revision
from ..program import Misuse, Options
from .manifest import NAMES, NOWHERE, Manifest, manifest_of

WHAT = "package.json, pnpm-workspace.yaml or Cargo.toml"


class Side(NamedTuple):
    """One of the two sides that are compared: its path, its revision of git, if any, and whether a
    file may be missing."""

    path: str
    revision: Optional[str]
    may_lack: bool

    def text(self, place: str = "") -> Optional[bytes]:
        """Returns the content of the file at a place below the path, or at the path itself; None if
        it isn't there and may be missing."""
        path = path_of(self, place)
        if self.revision is not None:
            text = in_revision(self.revision, path)
            with taking(f"{self.revision}:{path}", WHAT):
                return None if text is None else unmarked(text)
        if (self.may_lack or place) and not os.path.lexists(path):
            return None
        with taking(path, WHAT):
            return bytes_of(path, True)

    def manifest(self, place: str, text: Optional[bytes]) -> Manifest:
        """Returns the manifest in the text of the file at a place."""
        if text is None:
            return NOWHERE
        path = path_of(self, place)
        with taking(path if self.revision is None else f"{self.revision}:{path}", WHAT):
            return manifest_of(text)

    def places(self) -> List[str]:
        """Returns the places of the manifests below the path."""
        if self.revision is None:
            return named_below(self.path, NAMES) if os.path.isdir(self.path) else []
        found = below_in_revision(self.revision, self.path)
        return [it for it in found if is_among(it, NAMES)]


def path_of(side: Side, place: str) -> str:
    """Returns the path of a place on a side."""
    return os.path.normpath(os.path.join(side.path, place)) if place else side.path


class Pair(NamedTuple):
    """Two manifests that are compared, their dialect, and their file, if there are several."""

    file: Optional[str]
    old: Manifest
    new: Manifest
    dialect: Dialect


def sides_of(options: Options) -> Tuple[Side, Side]:
    """Returns the two sides that are compared."""
    if "--git" not in options.given:
        old, new = options.files
        return Side(old, None, False), Side(new, None, False)
    *others, path = options.files
    revision = options.given["--git"]
    before, dots, after = revision.partition("..")
    if dots and others:
        raise Misuse(f"{revision} names two revisions, and {others[0]} is a third one")
    second: Optional[str] = others[0] if others else None
    if dots:
        revision, second = before or "HEAD", after or "HEAD"
    return Side(path, revision, True), Side(path, second, True)


def is_of_directories(old: Side, new: Side) -> bool:
    """Returns whether all manifests below directories are compared. A directory in a revision need
    not exist now."""
    if old.revision is None and new.revision is None:
        found = [os.path.isdir(it.path) for it in (old, new)]
        if found[0] != found[1]:
            directory, other = (old, new) if found[0] else (new, old)
            if other.path != STANDARD_INPUT and not os.path.exists(other.path):
                raise Refusal(other.path, f"it can't be read: {os.strerror(errno.ENOENT)}")
            raise Misuse(f"{directory.path} is a directory, and {name_of(other.path)} isn't")
        return found[0]
    if os.path.isdir(old.path) or os.path.isfile(old.path):
        return os.path.isdir(old.path)
    return bool(old.places() or new.places())


def pair_of(old: Side, new: Side, place: str, file: Optional[str]) -> Optional[Pair]:
    """Returns the two manifests at a place. Below directories, returns None if nothing changed."""
    text, other_text = old.text(place), new.text(place)
    if file is not None and text == other_text:
        return None
    one, other = old.manifest(place, text), new.manifest(place, other_text)
    dialect = one.dialect or other.dialect
    if dialect is None:
        raise Refusal(path_of(new, place), "both sides lack it")
    if other.dialect not in (None, dialect):
        raise Misuse("one file is npm's and the other Cargo's")
    return Pair(file, one, other, dialect)


def places_of(old: Side, new: Side) -> List[str]:
    """Returns the places below two directories where something may differ."""
    before, after = set(old.places()), set(new.places())
    if not before | after:
        raise Refusal(new.path, "it is a directory without a manifest")
    both = before & after
    if old.revision is not None:
        both.intersection_update(changed_below(old.revision, new.revision, new.path))
    return sorted((before ^ after) | both)


def pairs_of(options: Options, refuse: Callable[[Refusal], None]) -> Iterator[Pair]:
    """Yields the manifests that are compared. Below directories, each that is rejected is reported
    by itself."""
    old, new = sides_of(options)
    is_several = is_of_directories(old, new)
    for place in places_of(old, new) if is_several else [""]:
        try:
            pair = pair_of(old, new, place, path_of(new, place) if is_several else None)
        except Refusal as error:
            if not is_several:
                raise
            refuse(error)
            continue
        if pair is not None:
            yield pair
