"""What git reports about the files of a repository."""

import os
import re
import subprocess
from typing import List, Optional, Tuple

from .files import Refusal


# What git prints, in English, outside of its work trees, and for a directory that it can't read. If
# there is a link to a repository that is gone, it prints the first without the parents.
NO_WORK_TREE = "not a git repository (or any"
NOT_OPENED = re.compile(r"warning: could not open directory '(.*)': (.*)")


def run(arguments: List[str], directory: str) -> "subprocess.CompletedProcess[bytes]":
    """Runs git in a directory."""
    command = ["git", "-C", directory or ".", *arguments]
    return subprocess.run(command, capture_output=True, env={**os.environ, "LC_ALL": "C"})


def output_of(arguments: List[str], directory: str) -> Tuple[Optional[bytes], str]:
    """Returns what git prints in a directory. If it fails, returns None and why."""
    try:
        done = run(arguments, directory)
    except OSError as error:
        return None, f"git can't be run: {error.strerror}"
    return (None, said_by(done)) if done.returncode else (done.stdout, "")


def said_by(done: "subprocess.CompletedProcess[bytes]") -> str:
    """Returns what git printed on standard error, as one line."""
    return " ".join(done.stderr.decode("utf-8", "replace").split())


def top_of(directory: str) -> Optional[str]:
    """Returns the top of the work tree that has a directory; None if there is none."""
    shown, _ = output_of(["rev-parse", "--show-toplevel"], directory)
    return None if shown is None else os.fsdecode(shown.rstrip(b"\n")) or None


def files_in_work_tree(directory: str) -> Optional[List[str]]:
    """Returns the files below a directory that git doesn't ignore; None without git and outside of
    its work trees. If git refuses to list the files, the directory is rejected, since it isn't
    known what git ignores."""
    try:
        done = run(["ls-files", "-z", "-co", "--exclude-standard"], directory)
    except OSError:
        return None
    why = said_by(done)
    if done.returncode:
        if NO_WORK_TREE in why:
            return None
        raise Refusal(directory, f"git doesn't list its files: {why}")
    for line in done.stderr.decode("utf-8", "surrogateescape").splitlines():
        found = NOT_OPENED.fullmatch(line)
        if found is not None:
            path = os.path.normpath(os.path.join(directory, found.group(1)))
            raise Refusal(path, f"it can't be read: {found.group(2)}")
    return paths_of(done.stdout)


def paths_of(listed: bytes) -> List[str]:
    """Returns paths that git ends by a zero byte."""
    return [os.fsdecode(it) for it in listed.split(b"\0") if it]


def nearest(path: str) -> Tuple[str, str]:
    """Returns the nearest directory above a path that exists, and the path relative to it."""
    directory, name = os.path.split(path)
    while directory and not os.path.isdir(directory):
        directory, inner = os.path.split(directory)
        name = os.path.join(inner, name)
    return directory, name


def in_revision(revision: str, path: str) -> Optional[bytes]:
    """Returns the content of a file in a revision; None if the revision doesn't have it. The
    directory of the file need not exist now."""
    directory, name = nearest(path)
    refuse_unknown(revision, path, directory)
    listed, why = output_of(
        ["ls-tree", "-z", "--name-only", revision, "--", f"./{name}"], directory
    )
    if listed is not None and not listed:
        return None
    shown, why = output_of(["show", "--end-of-options", f"{revision}:./{name}"], directory)
    if shown is None:
        raise Refusal(path, f"git doesn't show it: {why}")
    return shown


def refuse_unknown(revision: str, path: str, directory: str) -> None:
    """Rejects a revision that git doesn't know."""
    known, why = output_of(
        ["rev-parse", "--quiet", "--verify", "--end-of-options", f"{revision}^{{tree}}"], directory
    )
    if known is None:
        raise Refusal(path, f"git doesn't show it: {why or 'there is no such revision'}")


def changed_below(old: str, new: Optional[str], directory: str) -> List[str]:
    """Returns the files below a directory, relative to it, that differ between two revisions, or
    between a revision and the files of the work tree that git knows."""
    top, name = nearest(os.path.join(directory, ""))
    revisions = [old] if new is None else [old, new]
    options = ["-z", "--name-only", "--no-renames", "--no-ext-diff", "--relative"]
    listed, why = output_of(["diff", *options, *revisions, "--", f"./{name}"], top)
    if listed is None:
        raise Refusal(directory, f"git doesn't compare it: {why}")
    return from_on(name, paths_of(listed))


def from_on(name: str, paths: List[str]) -> List[str]:
    """Returns paths relative to the directory with this name."""
    return [os.path.relpath(it, name) if name else it for it in paths]


def below_in_revision(revision: str, directory: str) -> List[str]:
    """Returns the files below a directory in a revision, relative to it."""
    top, name = nearest(os.path.join(directory, ""))
    refuse_unknown(revision, directory, top)
    listed, _ = output_of(["ls-tree", "-r", "-z", "--name-only", revision, f"./{name}"], top)
    return from_on(name, [] if listed is None else paths_of(listed))
