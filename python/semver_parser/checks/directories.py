"""The files below a directory, except those that git ignores or that a tool put there."""

import os
from typing import Iterator, List, NoReturn, Tuple

from .files import Refusal
from .git import files_in_work_tree

# Directories whose contents a tool puts there.
MADE = ("node_modules", ".git", "target")


def is_among(place: str, names: Tuple[str, ...]) -> bool:
    """Returns whether a file below a directory has one of these names, and no tool put it there."""
    *folders, name = place.split("/")
    return name in names and not set(MADE).intersection(folders)


def named_below(directory: str, names: Tuple[str, ...]) -> List[str]:
    """Returns the files with these names below a directory, relative to it, except those that git
    ignores or that a tool put there."""
    places = (it for it in files_below(directory) if is_among(it, names))
    return sorted(it for it in places if os.path.isfile(os.path.join(directory, it)))


def files_below(directory: str) -> List[str]:
    """Returns the files below a directory that git doesn't ignore; all files if there is no git, or
    outside of its work trees."""
    try:
        os.scandir(directory or ".").close()
    except OSError as error:
        refuse_unread(error)
    listed = files_in_work_tree(directory)
    return list(walked(directory)) if listed is None else listed


def refuse_unread(error: OSError) -> NoReturn:
    """Rejects a directory that can't be read."""
    path = os.path.normpath(os.fsdecode(error.filename or "."))
    raise Refusal(path, f"it can't be read: {error.strerror}")


def walked(directory: str) -> Iterator[str]:
    """Yields the files below a directory, except those that a tool put there."""
    for folder, inner, names in os.walk(directory, onerror=refuse_unread):
        inner[:] = [it for it in inner if it not in MADE]
        for name in names:
            yield os.path.relpath(os.path.join(folder, name), directory).replace(os.sep, "/")
