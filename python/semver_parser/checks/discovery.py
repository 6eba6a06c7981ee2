"""The lock files that the paths of the command line stand for."""

import os
from typing import Dict, List, NamedTuple, Optional

from .directories import named_below
from .files import STANDARD_INPUT, Refusal
from .tools import LOCK_FILES, TOOLS

# The tools by the names of their lock files, and the lock files of each manifest.
BY_NAME = {name: tool for tool in TOOLS for name in tool.lock_files}
FOR: Dict[str, List[str]] = {}
for it in TOOLS:
    for manifest in it.manifests:
        FOR.setdefault(manifest, []).extend(it.lock_files)


class Discovery(NamedTuple):
    """The lock files to check, notes about those that are left out, paths for which nothing is
    checked, and whether each line begins with its file."""

    paths: List[str]
    notes: List[str]
    refusals: List[Refusal]
    is_several: bool


def discover(named: List[str]) -> Discovery:
    """Returns the lock files that paths stand for."""
    paths: Dict[str, str] = {}
    notes: List[str] = []
    refusals: List[Refusal] = []
    directories = [it for it in named if it != STANDARD_INPUT and os.path.isdir(it)]
    for path in named:
        try:
            for each in locks_at(path, path in directories, notes):
                paths.setdefault(os.path.normpath(each), each)
        except Refusal as error:
            refusals.append(error)
    is_several = len(named) != 1 or len(paths) > 1 or bool(directories)
    return Discovery(sorted(paths.values()), notes, refusals, is_several)


def locks_at(path: str, is_directory: bool, notes: List[str]) -> List[str]:
    """Returns the lock files that a path stands for. If there are none, the path is rejected, so
    that what is named never passes unchecked."""
    if is_directory:
        found = [it for it in found_in(path) if not is_left_out(it, notes)]
        if not found:
            raise Refusal(path, "none of its lock files is checked")
        return found
    if os.path.basename(path) in FOR and os.path.isfile(path):
        return locks_for(path, notes)
    why = why_unread(path, True)
    if why is not None:
        raise Refusal(path, f"it isn't checked, {why}")
    return [path]


def why_unread(path: str, is_named: bool) -> Optional[str]:
    """Returns why the tool of a lock file reads another one instead; None if it doesn't."""
    tool = BY_NAME.get(os.path.basename(path))
    return None if tool is None else tool.read_instead(path, is_named)


def is_left_out(path: str, notes: List[str]) -> bool:
    """Returns whether a lock file that wasn't named is left out, and adds a note about that."""
    why = why_unread(path, False)
    if why is not None:
        notes.append(f"{path}: left out, {why}")
    return why is not None


def found_in(directory: str) -> List[str]:
    """Returns the lock files below a directory. The directory is rejected if there are none, or if
    it or one below can't be read."""
    places = named_below(directory, tuple(LOCK_FILES))
    if not places:
        raise Refusal(directory, "it is a directory without a lock file")
    return [os.path.normpath(os.path.join(directory, place)) for place in places]


def locks_for(path: str, notes: List[str]) -> List[str]:
    """Returns the lock files for a manifest: those in the nearest directory that has one, from its
    own upward in the repository. A manifest without any is rejected, such as that of a library."""
    directory, name = os.path.split(path)
    while True:
        found = (os.path.join(directory, it) for it in dict.fromkeys(FOR[name]))
        there = [os.path.normpath(it) for it in found if os.path.isfile(it)]
        there = [it for it in there if not is_left_out(it, notes)]
        if there:
            return there
        is_top = os.path.exists(os.path.join(directory, ".git"))
        if is_top or os.path.samefile(directory or ".", os.path.join(directory, "..")):
            raise Refusal(path, "no lock file is for it")
        directory = os.path.normpath(os.path.join(directory, ".."))
