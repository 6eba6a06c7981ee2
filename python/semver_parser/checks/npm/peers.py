"""Which mismatched peers `npm ci` leaves as they are.

npm looks for a place for a peer in the directories around its requirer. It begins with the first
directory whose package does not have the same peer itself. No other version has a place there if
that package needs the one that is there, or if it brings in a package that has that one as a peer.

Then npm only warns, unless the project or a workspace requires the peer, or brought in its
requirer. For npm, nobody brought in a linked directory that is not a workspace. Overrides don't
apply to what such a directory requires, and that only replaces packages without overrides.
"""

from functools import cached_property
from typing import Callable, Container, Dict, Iterable, Iterator, List, Set

from ..model import PEERS, Requirement
from ..node.specifiers import is_elsewhere, is_no_range, is_within, may_overlap, range_of
from .lock import folders, inside, is_top


class Peers:
    """The requirements of the packages of a lock file: which of them are satisfied, who requires
    each package, and which packages have overrides."""

    def __init__(
        self,
        required: Dict[str, List[Requirement]],
        fits: Callable[[Requirement], bool],
        tops: Iterable[str],
        with_rule: Container[str],
    ) -> None:
        self.required, self.fits, self.tops = required, fits, {"", *tops}
        self.with_rule = with_rule
        self.known: Dict[str, List[Requirement]] = {}

    @cached_property
    def into(self) -> Dict[str, List[Requirement]]:
        """The requirements that lead to the package at each place."""
        found: Dict[str, List[Requirement]] = {}
        for each in self.required.values():
            for ask in each:
                if ask.found is not None:
                    found.setdefault(ask.found.place, []).append(ask)
        return found

    def fitting(self, place: str) -> List[Requirement]:
        """Returns the requirements that lead to the package at a place and that it satisfies."""
        if place not in self.known:
            self.known[place] = [it for it in self.into.get(place, ()) if self.fits(it)]
        return self.known[place]

    def is_left(self, ask: Requirement) -> bool:
        """Returns whether npm leaves a mismatched peer as it is: no version satisfies both the peer
        and another requirement that needs the package that is there, or that package can't be
        replaced."""
        if ask.kind != PEERS or ask.found is None or ask.requirer.place in self.tops:
            return False
        if is_elsewhere(ask.specifier):
            return False
        place, there = ask.requirer.place, ask.found.place
        if is_top(place) and there in self.with_rule:
            return True
        others = self.others(self.first_folder(place, ask.name), ask, there)
        is_needed = any(is_apart(it.specifier, ask.specifier) for it in others)
        return is_needed and (is_top(place) or not self.is_of_project(place))

    def may_be_left(self, peer: Requirement) -> bool:
        """Returns whether npm may leave a mismatched peer as it is: not every version that satisfies
        it also satisfies what the package that is there satisfies."""
        if peer.kind != PEERS or peer.found is None:
            return False
        others = self.fitting(peer.found.place)
        return not all(is_within(range_of(peer.specifier), range_of(it.specifier)) for it in others)

    def first_folder(self, place: str, name: str) -> str:
        """Returns the first of a place and the directories around it whose package has no peer of a
        name."""
        around = (it for it in folders(place) if it in self.required)
        return next((it for it in around if not it or not self.has_peer(it, name)), "")

    def has_peer(self, place: str, name: str) -> bool:
        """Returns whether a package has a peer of a name."""
        return any(it.kind == PEERS and it.name == name for it in self.required[place])

    def is_of_project(self, place: str) -> bool:
        """Returns whether the project or a workspace requires a package, or a package that has it
        as a peer."""
        into = self.into.get(place, ())
        own = (it.requirer.place in self.tops and it.kind != PEERS for it in into)
        return any(own) or any(it.requirer.place in self.tops for it in self.entries(place))

    def entries(self, place: str) -> Iterator[Requirement]:
        """Yields the satisfied requirements that bring in a package: they are for the package, or
        for one that has it as a peer, and are no peers themselves."""
        for each in self.having(place):
            for ask in self.fitting(each):
                if ask.kind != PEERS or is_top(ask.requirer.place):
                    yield ask

    def having(self, place: str) -> Set[str]:
        """Returns the places of a package and of those that have it as a peer, directly or through
        others."""
        found: Set[str] = set()
        left = [place]
        while left:
            at = left.pop()
            if at not in found:
                found.add(at)
                left += [it.requirer.place for it in self.fitting(at) if it.kind == PEERS]
        return found

    def others(self, folder: str, peer: Requirement, there: str) -> List[Requirement]:
        """Returns the requirements that keep a peer from a place in a directory if no version
        satisfies both. If the package that is there is further up, these are all others that lead
        to it from the directory. Otherwise they count only if the package of the directory is one
        of its requirers, or brings in a package that has it as a peer."""
        into = self.fitting(there)
        if there != inside(folder, peer.name):
            return [it for it in into if folder in folders(it.requirer.place)]
        entries = ((it.requirer.place, it.name, it.found) for it in self.entries(there))
        own = [found for at, name, found in entries if self.first_folder(at, name) == folder]
        return [it for it in into if peer.found in own or it.kind == PEERS] if own else []


def is_apart(spec: str, other: str) -> bool:
    """Returns whether no version satisfies both of two specifiers. A URL or a path is satisfied
    only by what is there."""
    if is_elsewhere(spec):
        return True
    return not is_no_range(spec) and not may_overlap(range_of(spec), range_of(other))
