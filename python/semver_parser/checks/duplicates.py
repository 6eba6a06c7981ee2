"""What `--duplicates` lists: packages of which a lock file has several versions, and packages that
the project and its workspaces require by different ranges. Neither is wrong."""

from typing import Dict, Iterable, Iterator, List

from semver_parser import Dialect

from .findings import DifferentRange, Duplicate, Finding
from .model import Keys, LockFile, Package, Requirement
from .satisfaction import range_in


def several_versions(packages: Iterable[Package]) -> Iterator[Finding]:
    """Yields the packages of which there are several versions."""
    by_name: Dict[str, Dict[str, Keys]] = {}
    for it in packages:
        if it.name is not None and it.version is not None:
            by_name.setdefault(it.name, {}).setdefault(it.version, it.at)
    for name, versions in by_name.items():
        if len(versions) > 1:
            yield Duplicate(name, tuple(versions), list(versions.values())[-1])


def is_same(one: str, other: str, dialect: Dialect) -> bool:
    """Returns whether two requirements are for the same versions."""
    first, second = range_in(one, dialect), range_in(other, dialect)
    return one == other if first is None or second is None else first == second


def different_ranges(required: Iterable[Requirement], dialect: Dialect) -> Iterator[Finding]:
    """Yields the findings about requirements whose range differs from the first one for the same
    name."""
    firsts: Dict[str, Requirement] = {}
    for it in required:
        first = firsts.setdefault(it.name, it)
        is_other = it.requirer.name != first.requirer.name
        if is_other and not is_same(it.specifier, first.specifier, dialect):
            yield DifferentRange(it, first)


def duplicates_in(lock: LockFile, dialect: Dialect) -> List[Finding]:
    """Returns the findings about duplicates in a lock file, whose ranges are in a dialect."""
    return [*several_versions(lock.packages), *different_ranges(lock.stated(), dialect)]
