"""The contents of a `yarn.lock`: its packages, each with the requirements that its keys are for,
and with its own requirements.

One reader reads both notations. They are indented by two blanks for each level. A line has a key,
and then a value; or the lines below it have an object.
"""

import json
import re
from sys import intern
from typing import Any, Dict, Iterator, List, Optional, Tuple, Union
from urllib.parse import unquote

from ..files import Unreadable, WrongShape, utf8
from ..model import OPTIONAL, USUAL, Package, Requirement, Requirer
from ..node.specifiers import name_and_rest

Tree = Dict[str, Union[str, "Tree"]]

# A text in quotes, or one up to a blank or a comma.
TOKEN = re.compile(r'"(?:[^"\\]|\\.)*"|[^\s,"][^\s,"]*')

BLANKS = re.compile(" *")

# The name of a package in its URL at a registry, such as https://example.org/NAME/-/FILE.
NAME_AT = re.compile(r"/((?:@[^/]+/)?[^/]+)/-/")

# What is before the source of a package that yarn 2 or later patches. In it `:` is `%3A`.
PATCH = "patch:"

MET_BY = (USUAL, OPTIONAL)

# What only yarn's lock files have.
MARK = re.compile(rb"yarn lockfile v1|\n__metadata:")
METADATA = "__metadata"

# The version that a workspace of the project has in a lock file.
WORKSPACE = "0.0.0-use.local"


# A line such as nearly all: its indent, a key, and then only a colon, or a value. A quoted text has
# no escape.
QUOTED = r'"([^"\\\x00-\x1f]*)"'
COMMON_LINE = re.compile(
    rf'( *)(?:{QUOTED}|([^\s,":#?][^\s,":]*))(?:(:)|:? +(?:{QUOTED}|([^\s"](?:.*\S)?)))'
)


def lines_of(text: str) -> Iterator[Tuple[int, int, str, str, bool]]:
    """Yields the lines of a file: the number, indent, key and value of each, and whether an object
    follows. yarn 2 and later write a key of more than 1,024 characters after `? `, and its colon on
    the next line."""
    key = ""
    for number, line in enumerate(text.splitlines(), 1):
        usual = None if key else COMMON_LINE.fullmatch(line)
        if usual is not None:
            indent, quoted_key, bare_key, colon, quoted_value, bare_value = usual.groups()
            name, value = intern(bare_key or quoted_key), quoted_value or bare_value or ""
            yield number, len(indent), name, value, colon is not None
            continue
        bare = line.strip()
        if not bare or bare.startswith("#"):
            continue
        if bool(key) != bare.startswith(":"):
            raise Unreadable(f"it isn't a yarn.lock: line {number}", number)
        if bare.startswith("? "):
            key = bare[2:]
            continue
        yield (number, len(line) - len(line.lstrip(" ")), *cut(key + bare, number))
        key = ""
    if key:
        raise Unreadable(f"it isn't a yarn.lock: line {number}", number)


def tree_of(text: bytes) -> Tree:
    """Returns the tree that the lines of a file make by their indents."""
    tree: Tree = {}
    open_trees: List[Tuple[int, Tree]] = [(-1, tree)]
    for _, depth, key, value, has_more in lines_of(utf8(text)):
        while open_trees[-1][0] >= depth:
            open_trees.pop()
        if has_more:
            inner: Tree = {}
            open_trees[-1][1][key] = inner
            open_trees.append((depth, inner))
        else:
            open_trees[-1][1][key] = value
    return tree


def cut(line: str, number: int) -> Tuple[str, str, bool]:
    """Returns the key of a line, its value, and whether an object follows it. Several keys of one
    package are joined by a line feed: yarn 1 puts quotes around each, and later versions around
    all."""
    keys: List[str] = []
    at = 0
    while True:
        found = TOKEN.match(line, at)
        if found is None:
            raise Unreadable(f"it isn't a yarn.lock: line {number}", number)
        word, at = found.group(), found.end()
        if not word.startswith('"') and word.endswith(":"):
            word, at = word[:-1], at - 1
        keys.append(unquoted(word, number))
        if not line.startswith(",", at):
            break
        at = after_blanks(line, at + 1)
    rest = line[at:]
    key = "\n".join(keys)
    if rest == ":":
        return key, "", True
    value = (rest[1:] if rest.startswith(":") else rest).strip()
    if not value:
        raise Unreadable(f"it isn't a yarn.lock: line {number}", number)
    return key, unquoted(value, number), False


def after_blanks(line: str, at: int) -> int:
    """Returns the offset after the blanks of a line that may begin at an offset."""
    found = BLANKS.match(line, at)
    assert found is not None
    return found.end()


def unquoted(word: str, number: int) -> str:
    """Returns the text of a word, which may be in quotes."""
    if not word.startswith('"'):
        return word
    try:
        text = json.loads(word)
    except ValueError:
        raise Unreadable(f"it isn't a yarn.lock: line {number}", number) from None
    assert isinstance(text, str)
    return text


class YarnFile:
    """A yarn.lock: its packages, the requirements that the keys of each are for, and the package
    for each of these."""

    def __init__(self, tree: Tree) -> None:
        self.is_berry = METADATA in tree
        self.packages: List[Package] = []
        self.patterns: Dict[str, List[str]] = {}
        self.by_pattern: Dict[str, Package] = {}
        between = ", " if self.is_berry else "\n"
        for key, fields in tree.items():
            if key != METADATA:
                # A name alone is for the tag `latest`, as yarn 1 has it.
                patterns = [it if "@" in it[1:] else f"{it}@latest" for it in key.split(between)]
                package = package_of(key, fields, patterns)
                self.packages.append(package)
                self.patterns[key] = patterns
                self.by_pattern.update((bare(it), package) for it in patterns)

    def name_of(self, package: Package) -> str:
        """Returns the name in the first key of a package, which may differ from its own name."""
        return name_and_rest(self.patterns[package.at[0]][0])[0]

    def keyed(self, package: Package) -> Package:
        """Returns a package with the name in its first key."""
        name = self.name_of(package)
        return package if name == package.name else package._replace(name=name)

    def requirer(self, package: Package) -> Requirer:
        """Returns a package as a requirer."""
        return Requirer(self.name_of(package), package.version or "", "", package.at)

    def key_for(self, name: str, spec: str) -> Optional[str]:
        """Returns the key for a requirement. yarn 2 and later write `npm:` before a range."""
        key = f"{name}@{bare(spec) if '::' in spec else spec}"
        if key not in self.by_pattern:
            key = f"{name}@npm:{spec}"
        return key if key in self.by_pattern else None

    def found(self, name: str, spec: str) -> Optional[Package]:
        """Returns the package whose key is for a requirement."""
        key = self.key_for(name, spec)
        return None if key is None else self.by_pattern[key]

    def own(self) -> List[Package]:
        """Returns the packages except for workspaces."""
        return [it for it in self.packages if not it.is_own]


def bare(pattern: str) -> str:
    """Returns a requirement without the place that a link or a patch belongs to."""
    return pattern.partition("::")[0]


def package_of(key: str, fields: Any, patterns: List[str]) -> Package:
    """Returns a package with the version that yarn installs. If its own name is not known, it has
    that of its first key."""
    if not isinstance(fields, dict):
        raise WrongShape(f": {key} isn't an object")
    version = fields.get("version")
    if not isinstance(version, str):
        raise WrongShape(f": {key}: version isn't a string")
    name = own_name(fields) or name_and_rest(patterns[0])[0]
    _, reference = name_and_rest(source_of(str(fields.get("resolution", ""))))
    installed = version_of(reference) or version
    if installed == WORKSPACE:
        return Package(name, None, name, (key,), "", True, fields)
    return Package(name, installed, "", (key,), str(fields.get("resolved", "")), False, fields)


def own_name(fields: Tree) -> Optional[str]:
    """Returns a package's own name, if it is known. In yarn 1 it is only in a URL."""
    name_at = NAME_AT.search(str(fields["resolved"])) if "resolved" in fields else None
    if name_at is not None:
        return unquote(name_at.group(1))
    return name_and_rest(source_of(str(fields.get("resolution", ""))))[0] or None


def source_of(text: str) -> str:
    """Returns the `NAME@REST` that is patched in `NAME@patch:SOURCE#PATCH`. Returns other texts
    unchanged."""
    rest = spec_of(text) if PATCH in text else ""
    while rest.startswith(PATCH):
        text = unquote(rest[len(PATCH) :].partition("#")[0])
        rest = spec_of(text)
    return text


def version_of(reference: str) -> Optional[str]:
    """Returns the version in a resolution, if the package comes from a registry."""
    bare = reference.partition("::")[0]
    return bare[4:] if bare.startswith("npm:") else None


def requirements_of(package: Package, requirer: Requirer) -> Iterator[Requirement]:
    """Yields what a package requires."""
    for kind in MET_BY:
        stated = package.entry.get(kind, {})
        if not isinstance(stated, dict):
            raise WrongShape(f": {requirer.name}: {kind} isn't an object")
        for name, spec in stated.items():
            if not isinstance(spec, str):
                raise WrongShape(f": {requirer.name}: {kind}: {name} isn't a string")
            yield Requirement(requirer, name, spec, kind=kind)


def spec_of(pattern: str) -> str:
    """Returns what a pattern requires."""
    return name_and_rest(pattern)[1]
