"""The resolutions in a package.json of yarn, which replace the requirements of packages."""

import re
from typing import Any, Dict, Iterable, List, NamedTuple, Tuple

from ..files import Entry, texts_at
from ..node.specifiers import name_and_rest

# A step in the path of a resolution: a name, and perhaps a range.
STEP = re.compile(r"(?:@[^/]+/)?[^/]+")


class Resolution(NamedTuple):
    """A resolution of a name: its index in the file, the replacement, and whether it is certain
    that it applies, whoever requires the name. That is so for `**/` before the name, or a name
    alone, which means the same in yarn 1."""

    number: int
    spec: str
    is_anywhere: bool


Resolutions = Dict[str, Dict[Tuple[str, str, str], List[Resolution]]]
"""Resolutions by the names at the ends of their paths, and then by a group: the name of the
requirer, its place, and the specifier. Each of these is empty if it may be any."""


def by_key(value: Any) -> Dict[str, str]:
    """Returns the resolutions of yarn 1 by their keys. A list has its indices as keys, and what is
    neither a list nor an object has no resolutions. `null` and `false` accept every version."""
    listed = dict(enumerate(value)) if isinstance(value, list) else value
    found = listed.items() if isinstance(listed, dict) else ()
    return texts_at({str(key): text or "" for key, text in found}, "resolutions")


def resolutions_of(manifest: Entry, is_berry: bool) -> Resolutions:
    """Returns the resolutions of a package.json. A step with `*` may be any package."""
    resolutions: Resolutions = {}
    value = manifest.get("resolutions", {})
    texts = texts_at(value, "resolutions") if is_berry else by_key(value)
    for number, (path, spec) in enumerate(texts.items()):
        *outer, last = STEP.findall(path) or [path]
        name, within = name_and_rest(last)
        parent, place = name_and_rest("".join(outer[-1:]))
        is_known = outer in ([], ["**"]) or (outer[:-1] == ["**"] and "*" not in parent)
        is_anywhere = is_known and not place and not within
        if "*" in parent:
            parent = place = ""
        group = (parent, without_protocol(place), without_protocol(within))
        found = resolutions.setdefault(name, {}).setdefault(group, [])
        found.append(Resolution(number, spec, is_anywhere))
    return resolutions


def without_protocol(spec: str) -> str:
    """Returns a specifier without the `npm:` that yarn 2 and later write before a range."""
    return spec[4:] if spec.startswith("npm:") and "@" not in spec[5:] else spec


def resolutions_for(
    resolutions: Resolutions, name: str, spec: str, parents: Iterable[str], place: str = ""
) -> List[Resolution]:
    """Returns the resolutions for a requirement of a package with one of these names, perhaps at a
    place, in the order of the file. Of those for the same, only the first counts."""
    groups = resolutions.get(name)
    if groups is None:
        return []
    wanted = [("", "", "")]
    wanted += [(parent, at, "") for parent in dict.fromkeys(parents) for at in {"", place}]
    wanted += [(parent, at, without_protocol(spec)) for parent, at, _ in wanted]
    found = {it for group in wanted for it in groups.get(group, ())[:1]}
    return sorted(found)


def specs_for(
    resolutions: Resolutions, name: str, spec: str, parents: Iterable[str], place: str = ""
) -> List[str]:
    """Returns what replaces a requirement of a package."""
    found = resolutions_for(resolutions, name, spec, parents, place)
    return list(dict.fromkeys(it.spec for it in found))
