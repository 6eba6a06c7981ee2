"""The specifiers of the tools of npm's registry: ranges, tags, URLs and paths, and whether a
version satisfies each."""

import posixpath
import re
from functools import lru_cache
from typing import Optional, Tuple
from urllib.parse import unquote

from semver_parser import Dialect

from ..findings import NotChecked
from ..judge import INVALID_RANGE, NO_VERSION, RIGHT, UNSATISFIED, Scheme, Verdict
from ..model import Requirement
from ..satisfaction import is_met, range_in

# What npm reads as a URL or a path.
ELSEWHERE = re.compile(r"(?!npm:)(?:git\+)?[a-z]+:|\.|.*/|.*\.(?:tgz|tar|tar\.gz)\Z", re.I | re.S)

# For npm a tag isn't a range, and has only characters that a URL has unescaped. npm reads some of
# these loosely as a version or a range, such as `01.2.3` and `1.2.3beta`.
TAG = re.compile(r"[\w.!~*'()-]+", re.A)
PART = r"(?:\d+|[xX*])"
PRE = r"-?[\dA-Za-z-]+(?:\.[\dA-Za-z-]+)*"
LOOSE = re.compile(rf"~?v*{PART}(?:\.{PART}(?:\.{PART}(?:{PRE})?)?)?", re.A)

# A git URL with a range.
GIT_RANGE = re.compile(r"(?!file:|[./~])([^#]*[/:][^#]*)#(?:.*::)?semver:([^:]*)(?:::.*)?", re.S)

# The path of a directory, relative to its requirer.
DIRECTORY = re.compile(r"(?:file:(?!/|~/)|(?=\.))(.*)", re.S)

# How a specifier begins that refers to a catalog. npm has no catalogs.
CATALOG = "catalog:"

# Why a specifier that isn't a range isn't checked. The first pattern that matches counts.
REASONS = (
    ("workspace", re.compile(r"workspace:", re.I)),
    ("catalog", re.compile(r"catalog:", re.I)),
    ("patch", re.compile(r"patch:", re.I)),
    ("link", re.compile(r"link:|portal:", re.I)),
    ("path", re.compile(r"file:|\.|/|~/|(?![^/]*:).*\.(?:tgz|tar|tar\.gz)\Z", re.I | re.S)),
    ("git", re.compile(r"git[+:@]|ssh:|(?:github|gitlab|bitbucket|gist):", re.I)),
    ("git", re.compile(r"https?:[^#]*\.git(?:#|\Z)|(?![^/]*:).*/", re.I | re.S)),
    ("URL", re.compile(r"https?:", re.I)),
    ("protocol", re.compile(r"(?!npm:)[a-z]+:", re.I)),
)


def name_and_rest(text: str) -> Tuple[str, str]:
    """Returns the name in `NAME@REST`, which may begin with `@`, and the rest, which may be
    empty."""
    at = text.find("@", 1)
    return (text, "") if at < 0 else (text[:at], text[at + 1 :])


def alias_of(spec: str) -> Optional[Tuple[str, str]]:
    """Returns the name and the range of `npm:NAME@RANGE`. The range may be empty. Returns None if
    it isn't an alias."""
    if ":" not in spec or spec[:4].lower() != "npm:" or len(spec) == 4:
        return None
    return name_and_rest(spec[4:])


def has_name(name: str, spec: str) -> bool:
    """Returns whether a package has the name that an alias requires. Other specifiers require no
    name."""
    alias = alias_of(spec)
    return alias is None or alias[0] == name


@lru_cache(maxsize=None)
def is_any(spec: str) -> bool:
    """Returns whether npm accepts every package, even without a valid version."""
    alias = alias_of(spec)
    wanted = spec if alias is None else alias[1]
    return not wanted or wanted.strip() == "*"


def git_range_of(spec: str) -> Optional[Tuple[str, str]]:
    """Returns the URL and the range of `URL#semver:RANGE`; None for another specifier."""
    found = GIT_RANGE.fullmatch(spec) if alias_of(spec) is None else None
    return None if found is None else (found.group(1), unquote(found.group(2)))


def range_of(spec: str) -> str:
    """Returns the range in a specifier, or the specifier itself."""
    named = alias_of(spec) or (git_range_of(spec) if "#" in spec else None)
    return spec if named is None else named[1]


def is_archive(spec: str) -> bool:
    """Returns whether a specifier is the URL of an archive."""
    return spec.startswith(("http:", "https:")) and spec.endswith((".tgz", ".tar", ".tar.gz"))


def directory_at(spec: str, place: str) -> Optional[str]:
    """Returns the place of the directory that a specifier at a place requires. Returns None if it
    requires no directory, or if its path begins at the root or at the user's home."""
    found = DIRECTORY.fullmatch(spec)
    if found is None or spec.endswith((".tgz", ".tar", ".tar.gz")):
        return None
    path = posixpath.normpath(posixpath.join(place, unquote(found.group(1))))
    return "" if path == "." else path


def is_elsewhere(spec: str) -> bool:
    """Returns whether npm reads a specifier as a URL or a path. An alias is neither."""
    return alias_of(spec) is None and ELSEWHERE.match(spec) is not None


def is_no_range(spec: str) -> bool:
    """Returns whether npm reads a specifier that isn't a range as something else: a tag, a URL or a
    path. An alias has a range or a tag, and a git URL may have a range."""
    if git_range_of(spec) is not None:
        return False
    wanted = range_of(spec).strip()
    is_tag = TAG.fullmatch(wanted) is not None and LOOSE.fullmatch(wanted) is None
    return is_tag or is_elsewhere(spec)


def is_fetched(specifier: str) -> bool:
    """Returns whether npm fetches what a specifier requires from a URL, a repository or a path."""
    return is_no_range(specifier) and reason_of(specifier) in ("git", "URL", "path")


def reason_of(spec: str) -> str:
    """Returns a word for why a specifier isn't checked. It is a tag if it is nothing else."""
    return next((reason for reason, begins in REASONS if begins.match(spec)), "tag")


@lru_cache(maxsize=None)
def may_overlap(spec: str, within: str) -> bool:
    """Returns whether two ranges have a version in common. If one of them is invalid, they may have
    one."""
    one, other = (range_in(it, Dialect.NPM) for it in (spec, within))
    return one is None or other is None or not one.isdisjoint(other)


def is_within(spec: str, within: str) -> bool:
    """Returns whether all versions of a range are in another one. Both have to be valid."""
    one, other = (range_in(it, Dialect.NPM) for it in (spec, within))
    return one is not None and other is not None and one <= other


def verdict_on(version: Optional[str], spec: str) -> Optional[Verdict]:
    """Returns the verdict on the version of a package for a specifier. A package at a URL may have
    no version."""
    met = is_met(range_of(spec), version or "", Dialect.NPM)
    if met is None:
        return Verdict(NotChecked, reason_of(spec)) if is_no_range(spec) else INVALID_RANGE
    if version is None:
        return Verdict(NotChecked, "no version") if is_elsewhere(spec) else NO_VERSION
    return RIGHT if met else UNSATISFIED


class NodeScheme(Scheme):
    """How the tools of npm's registry read specifiers. A tool may convert each to the form that npm
    reads."""

    dialect = Dialect.NPM

    def npm_form(self, specifier: str, requirement: Requirement) -> str:
        """Returns a specifier in the form that npm reads."""
        return specifier

    def has_name(self, specifier: str, requirement: Requirement) -> bool:
        """Returns whether the package has the name that an alias requires."""
        name = requirement.found.name if requirement.found else None
        return has_name(name or "", self.npm_form(specifier, requirement))

    def verdict(self, specifier: str, requirement: Requirement) -> Optional[Verdict]:
        """Returns the verdict on the package that is found. A package without a version isn't
        checked."""
        wanted = self.npm_form(specifier, requirement)
        found = requirement.found
        if found is not None and found.version is None:
            why = "workspace" if found.is_own else "no version"
            return Verdict(NotChecked, reason_of(specifier) if is_no_range(specifier) else why)
        return verdict_on(found.version if found else None, wanted)
