"""Patterns of workspaces, as minimatch reads them: what they match, and which directories below the
project they find. As for npm and yarn, they find none in a `node_modules`.

`**` doesn't follow links, since these may lead in circles.
"""

import os
import re
from functools import lru_cache
from typing import Iterator, List, NoReturn, Pattern

from ..files import WrongShape

# Braces with a list such as `{a,b}`, or with a sequence such as `{1..3}`, `{01..10..3}` or `{a..c}`.
LIST = r"[^{},]*(?:,[^{},]*)+"
SEQUENCE = r"(?:-?\d+\.\.-?\d+|[A-Za-z]\.\.[A-Za-z])(?:\.\.-?\d+)?"
BRACES = re.compile(rf"\{{({LIST}|{SEQUENCE})\}}", re.A)
PADDED = re.compile(r"-?0\d", re.A)

MAGIC = re.compile(r"[*?\[(]")
ANYWHERE = "**"
MODULES = "node_modules"

# How many patterns one with braces may stand for, and how long a number in them may be.
MOST, LONGEST = 1000, 18

# The parts of a pattern without braces.
PART = re.compile(r"(?:\A|(?<=/))\*\*(?:/|\Z)|[?*+@!]\([^()]*\)|\[[!^]?\]?[^\]/]*\]|.", re.S)

# How often a list may match, by the character before it.
TIMES = {"?": "?", "*": "*", "+": "+", "@": ""}

NOTHING = re.compile(r"(?!)")


# ---- what they match


def alternatives(pattern: str) -> List[str]:
    """Returns the patterns that one with braces stands for: `{a,b}/*` stands for `a/*` and `b/*`,
    and `p{1..3}` for `p1`, `p2` and `p3`."""
    patterns = [pattern]
    while any(BRACES.search(it) for it in patterns):
        patterns = [inner for it in patterns for inner in without_braces(it)]
        if len(patterns) > MOST:
            refuse_more()
    return patterns


def refuse_more() -> NoReturn:
    """Rejects a pattern that stands for too many others."""
    raise WrongShape(f": workspaces: a pattern is for more than {MOST:,} others")


def without_braces(pattern: str) -> List[str]:
    """Returns the patterns that one stands for, with its first braces expanded."""
    found = BRACES.search(pattern)
    if found is None:
        return [pattern]
    before, after, inside = pattern[: found.start()], pattern[found.end() :], found.group(1)
    texts = inside.split(",") if "," in inside else sequence(*inside.split(".."))
    return [before + it + after for it in texts]


def sequence(first: str, last: str, step: str = "1") -> List[str]:
    """Returns the texts of a sequence from a number or a letter to another one. If one of two
    numbers begins with 0, all of them have the same length."""
    if max(map(len, (first, last, step))) > LONGEST:
        refuse_more()
    is_of_letters = first.isalpha()
    begin, end = (ord(it) if is_of_letters else int(it) for it in (first, last))
    by = abs(int(step))
    if by == 0 or abs(end - begin) // by >= MOST:
        refuse_more()
    numbers = range(begin, end - 1, -by) if end < begin else range(begin, end + 1, by)
    if is_of_letters:
        return [chr(it).replace("\\", "") for it in numbers]
    is_padded = any(PADDED.match(it) for it in (first, last, step))
    width = max(len(first), len(last)) if is_padded else 0
    return [f"{it:0{width}}" if width else str(it) for it in numbers]


@lru_cache(maxsize=None)
def expression(pattern: str) -> Pattern[str]:
    """Returns the regular expression for a pattern without braces. A pattern with `[z-a]` matches
    nothing."""
    parts = (matched(it.group(), it.start(), pattern) for it in PART.finditer(pattern))
    try:
        return re.compile("".join(parts), re.S)
    except re.error:
        return NOTHING


def matched(part: str, at: int, pattern: str) -> str:
    """Returns the regular expression for a part of a pattern. Only a part that begins with a dot
    matches a name that does."""
    no_dot = r"(?!\.)" if at == 0 or pattern[at - 1] == "/" else ""
    if part == "**/":
        return r"(?:(?!\.)[^/]+/)*"
    if part == ANYWHERE:
        return r"(?:(?!\.)[^/]+(?:/(?!\.)[^/]+)*)?"
    if part[1:2] == "(":
        return with_a_list(part, no_dot)
    if len(part) > 1:
        inside = re.sub(r"([\\\[&|~])", r"\\\1", part[1:-1])
        return f"{no_dot}[^{inside[1:]}]" if inside[0] in "!^" else f"{no_dot}[{inside}]"
    return {"*": f"{no_dot}[^/]*", "?": f"{no_dot}[^/]"}.get(part, re.escape(part))


def with_a_list(part: str, no_dot: str) -> str:
    """Returns the regular expression for a part with a list of patterns, such as `@(a|b)` and
    `!(c)`."""
    listed = "|".join(expression(it).pattern for it in part[2:-1].split("|"))
    if part[0] == "!":
        return rf"{no_dot}(?!(?:{listed})(?:/|\Z))[^/]*"
    return f"(?:{listed}){TIMES[part[0]]}"


# ---- what they find


def places_at(pattern: str, top: str) -> List[str]:
    """Returns the directories below a directory that a pattern finds."""
    if "\0" in pattern:
        raise WrongShape(": workspaces: no folder has such a name")
    parts = map(parts_of, alternatives(pattern))
    found = (place for it in parts for place in places_below(top, "", it))
    places = {os.path.normpath(place).replace(os.sep, "/") for place in found}
    return sorted(places - {"."})


def parts_of(pattern: str) -> List[str]:
    """Returns the parts of a pattern. Several `**` in a row count as one."""
    parts = [it for it in pattern.split("/") if it not in ("", ".")]
    if ".." in parts and ANYWHERE in parts:
        raise WrongShape(f": workspaces: {pattern} is for directories outside of the project")
    return [it for it, after in zip(parts, [*parts[1:], ""]) if (it, after) != (ANYWHERE,) * 2]


def places_below(top: str, place: str, parts: List[str]) -> Iterator[str]:
    """Yields the directories that the parts of a pattern find below a place."""
    if not parts:
        yield place
        return
    first, *rest = parts
    if first == ANYWHERE:
        yield from places_below(top, place, rest)
        rest = parts
    for name in names_in(top, place, first) if MAGIC.search(first) else [first]:
        inner = f"{place}/{name}" if place else name
        if name != MODULES and os.path.isdir(os.path.join(top, inner)):
            yield from places_below(top, inner, rest)


def names_in(top: str, place: str, part: str) -> List[str]:
    """Returns the names of the directories in a directory that a part of a pattern matches."""
    is_deep = part == ANYWHERE
    matches = expression("*" if is_deep else part).fullmatch
    with os.scandir(os.path.join(top, place) or ".") as entries:
        found = [it.name for it in entries if it.is_dir(follow_symlinks=not is_deep)]
    return [name for name in found if matches(name)]
