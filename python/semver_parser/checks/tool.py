"""The interface of a tool: how its lock files are recognized, read, located and repaired.

Each tool is a package with an object of a class below `Tool`. Only the list in `tools` names them.
"""

import os
from typing import Any, Callable, Dict, Iterator, List, NamedTuple, Optional, Set, Tuple, TypeVar

from .files import STANDARD_INPUT, Entry, json_object
from .findings import Finding
from .judge import Scheme
from .model import Keys, LockFile, Scope

Offsets = Iterator[Tuple[Keys, int]]
"""The keys of entries of a file, each with the offset where the entry begins."""

Argument = TypeVar("Argument")
Value = TypeVar("Value")


class Input:
    """A lock file that is read: its path and its content, the package.json of `--package-json`, and
    which of its requirements are checked."""

    def __init__(self, path: str, text: bytes, named: Optional[str], scope: Scope) -> None:
        self.path, self.text, self.named, self.scope = path, text, named, scope
        self.known: Dict[Callable[..., Any], Any] = {}

    def once(self, function: Callable[[Argument], Value], argument: Argument) -> Value:
        """Returns what a function returns. It is called only once for the file."""
        if function not in self.known:
            self.known[function] = function(argument)
        value: Value = self.known[function]
        return value

    def parsed(self, parse: Callable[[bytes], Value]) -> Value:
        """Returns the content as a function parses it."""
        return self.once(parse, self.text)

    @property
    def json(self) -> Entry:
        """The content as an object of JSON."""
        return self.parsed(json_object)

    @property
    def directory(self) -> Optional[str]:
        """The directory of the file; None for standard input."""
        return None if self.path == STANDARD_INPUT else os.path.dirname(self.path)


class Statement(NamedTuple):
    """Where a manifest may state a requirement or a setting: its path, and keys, of which the first
    that is there counts."""

    path: str
    keys: List[Keys]


class Tool:
    """A tool that writes lock files.

    - `name` is its printed name, and `repair` is the command that writes a lock file anew.
    - `kind` is its name in the table of what commands repair, if that isn't its printed one.
    - `lock_files` has the names of its lock files, and `manifests` the names of the files that
      belong to them.
    - `scheme` is how it reads versions and specifiers.
    """

    name = kind = ""
    lock_files: Tuple[str, ...] = ()
    manifests: Tuple[str, ...] = ()
    repair = ""
    scheme = Scheme()
    takes_package_json = False

    def recognizes(self, file: Input) -> bool:
        """Returns whether the tool wrote a file, by its content."""
        raise NotImplementedError

    def read(self, file: Input) -> LockFile:
        """Returns the contents of a lock file, with the manifests of its project."""
        raise NotImplementedError

    def offsets(self, text: bytes, wanted: Set[Keys]) -> Offsets:
        """Yields the entries of a file that are wanted, and perhaps others, with their offsets."""
        return iter(())

    def statement(self, finding: Finding, file: Input) -> Optional[Statement]:
        """Returns where a manifest may state what a finding is about."""
        return None

    def advise(self, finding: Finding) -> None:
        """Adds advice to a finding if the command of the tool doesn't repair it."""

    def read_instead(self, path: str, is_named: bool) -> Optional[str]:
        """Returns why the tool doesn't read the lock file at a path, as the end of a note; None if
        it does. A file that is named is read, unless the tool can't read it."""
        return None
