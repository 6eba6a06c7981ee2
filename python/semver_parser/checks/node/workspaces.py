"""The workspaces of a project: the directories that the patterns of a manifest find."""

import os
import re
from functools import lru_cache
from typing import Any, Iterable, Iterator, List, NamedTuple, Tuple

from ..files import list_at, text_at
from .patterns import MODULES, alternatives, expression, places_at


class Patterns(NamedTuple):
    """The patterns of workspaces, and those of directories that are excluded."""

    taken: Tuple[str, ...]
    left_out: Tuple[str, ...]


def patterns_in(value: Any, where: str, key: str = "packages") -> List[str]:
    """Returns the patterns in a manifest, which are a list, or a list in an object."""
    listed = value.get(key, []) if isinstance(value, dict) else value
    return [text_at(it, where) for it in list_at(listed or [], where)]


def directories_of(texts: Iterable[str], top: str) -> List[str]:
    """Returns the directories below a directory that patterns find. Patterns that begin with `!`
    exclude directories, wherever they are in the list."""
    found, left_out = set(), set()
    for text in texts:
        if text[:1] == "!":
            left_out.update(places_at(text[1:], top))
        else:
            found.update(places_at(text, top))
    return sorted(found - left_out)


def directories_around(directory: str) -> Iterator[str]:
    """Yields the directories around a directory, the nearest first, up to the top of the repository
    that they are in."""
    outer = os.path.dirname(os.path.abspath(directory))
    while outer != os.path.dirname(outer):
        yield outer
        if os.path.exists(os.path.join(outer, ".git")):
            return
        outer = os.path.dirname(outer)


def place_in(directory: str, outer: str) -> str:
    """Returns the path of a directory from one around it, as patterns match it."""
    return os.path.relpath(os.path.abspath(directory), outer).replace(os.sep, "/")


# ---- npm's rules, by which the order counts


def patterns_of(texts: Iterable[str]) -> Patterns:
    """Returns patterns by the rules of npm, in which the order counts. A pattern with `!` excludes
    what it matches, unless it also matches a later pattern."""
    taken: List[str] = []
    left_out: List[str] = []
    for text in texts:
        bare = text.lstrip("!")
        pattern = re.sub(r"\A\.?/+|/+\Z", "", bare)
        if (len(text) - len(bare)) % 2:
            left_out.append(pattern)
        else:
            left_out = [it for it in left_out if not is_matched(it, pattern)]
            taken.append(pattern)
    return Patterns(tuple(taken), tuple(left_out))


@lru_cache(maxsize=None)
def is_matched(pattern: str, place: str) -> bool:
    """Returns whether a pattern matches a place."""
    return any(expression(each).fullmatch(place) for each in alternatives(pattern))


def is_workspace(patterns: Patterns, place: str) -> bool:
    """Returns whether a place in a lock file is a workspace by these patterns."""
    if MODULES in place.split("/") or is_left_out(patterns, place):
        return False
    return any(is_matched(it, place) for it in patterns.taken)


def is_left_out(patterns: Patterns, place: str) -> bool:
    """Returns whether patterns exclude a place."""
    texts = (place, f"{place}/")
    return any(is_matched(it, text) for it in patterns.left_out for text in texts)


def places_in(patterns: Patterns, directory: str) -> List[str]:
    """Returns the directories below a directory that are workspaces by these patterns, in order."""
    found = {place for it in patterns.taken for place in places_at(it, directory)}
    return [place for place in sorted(found) if not is_left_out(patterns, place)]


def name_by_directory(place: str) -> str:
    """Returns the name that a package without one gets from its directory."""
    *_, above, last = ["", *place.split("/")]
    return f"{above}/{last}" if above.startswith("@") else last
