"""What changed between the requirements of two manifests."""

from typing import Dict, Iterator, List, NamedTuple, Optional, Tuple

from semver_parser import Dialect, RangeError, compare_ranges

from .manifest import Key, Manifest, Requirement, is_kind

SAME = "the same versions"
ANOTHER = "another package"

NOTHING = "<0.0.0-0"
"""How a set without versions is printed."""


class Change(NamedTuple):
    """A requirement that changed or moved to another table. The releases and the pre-releases that
    are lost, gained and shared are ranges. If there are none, `note` says why."""

    name: str
    table: str
    new_table: Optional[str]
    old: Optional[str]
    new: Optional[str]
    note: str
    lost: Optional[str] = None
    lost_pre_releases: Optional[str] = None
    gained: Optional[str] = None
    gained_pre_releases: Optional[str] = None
    shared: Optional[str] = None
    shared_pre_releases: Optional[str] = None

    @property
    def differs(self) -> bool:
        """Whether more changed than how a range is written."""
        return self.note != SAME or self.new_table is not None


WHOLE = Change._fields[6:]
"""The fields with the versions of a change, in the order in which they are printed."""

FIELDS = {"lost": WHOLE[:2], "gained": WHOLE[2:4]}
"""The fields with what a requirement loses and gains."""


def changes(old: Manifest, new: Manifest, dialect: Dialect) -> Iterator[Change]:
    """Yields what changed, in the order of the old manifest, and then what was added."""
    moved = moves(old, new)
    for key, requirement in old.requirements.items():
        new_key = moved.get(key, key)
        other = new.requirements.get(new_key)
        if other is None:
            yield Change(key[1], key[0], None, requirement.text, None, "removed")
        elif other != requirement or new_key != key:
            yield change(key, new_key, requirement, other, dialect)
    arrived = set(moved.values())
    for key, requirement in new.requirements.items():
        if key not in old.requirements and key not in arrived:
            yield Change(key[1], key[0], None, None, requirement.text, "added")


def moves(old: Manifest, new: Manifest) -> Dict[Key, Key]:
    """Returns the requirements that moved from one kind of dependencies to another one."""
    added = gone_from(new, old)
    return {
        key: other
        for name, keys in gone_from(old, new).items()
        for key, other in zip(keys, added.get(name, []))
    }


def gone_from(one: Manifest, other: Manifest) -> Dict[str, List[Key]]:
    """Returns the keys of dependencies that only the first of two manifests has, by their names."""
    found: Dict[str, List[Key]] = {}
    for key in one.requirements:
        if key not in other.requirements and is_kind(key[0]):
            found.setdefault(key[1], []).append(key)
    return found


def change(key: Key, new_key: Key, old: Requirement, new: Requirement, dialect: Dialect) -> Change:
    """Returns the change of a requirement. A tag, a URL or a path has no versions, and those of two
    different packages aren't compared."""
    note, ranges = comparison(old, new, dialect)
    new_table = None if new_key == key else new_key[0]
    return Change(key[1], key[0], new_table, old.text, new.text, note, *ranges)


def comparison(
    old: Requirement, new: Requirement, dialect: Dialect
) -> Tuple[str, List[Optional[str]]]:
    """Returns the note of a change, and its versions, if there are any."""
    if None not in (old.name, new.name) and old.name != new.name:
        return ANOTHER, []
    if old.text == new.text:
        return SAME, []
    if old.range is None or new.range is None:
        return "not a range", []
    if old.source != new.source:
        return ANOTHER, []
    try:
        compared = compare_ranges(old.range, new.range, dialect=dialect)
    except RangeError:
        return "invalid range", []
    ranges = [
        None if text == NOTHING else text
        for versions in (compared.lost, compared.gained, compared.shared)
        for text in (versions.printed_releases, versions.printed_pre_releases)
    ]
    return SAME if compared.is_equal else "" if compared.overlaps else "nothing shared", ranges
