"""The peers that contradict what the project requires: no version satisfies both.

`npm install` then ends with ERESOLVE, or it writes a lock file that `npm ci` rejects.
"""

from typing import Callable, Dict, Iterable, Iterator, List, Set, Tuple

from ..files import Entry
from ..model import PEERS, Requirement, Requirer
from ..node.specifiers import is_no_range, may_overlap, range_of
from .lock import WORKSPACES, Packages, has_to_be_there, is_top

Asks = Dict[str, List[Requirement]]


class Contradictions:
    """The peers of the project, its workspaces and what the project requires that no version
    satisfies together with what the project requires, or with another of these peers.

    `workspaces` has the package.json files of the workspaces by their places: the lock file may
    lack some of them.
    """

    def __init__(
        self,
        packages: Packages,
        asks: Asks,
        workspaces: Dict[str, Entry],
        fits: Callable[[Requirement], bool],
    ) -> None:
        self.packages = {**workspaces, **packages}
        new = {it: stated_peers(it, workspaces[it]) for it in workspaces if it not in asks}
        self.asks, self.workspaces, self.fits = {**asks, **new}, workspaces, fits

    def found(self) -> Set[Tuple[str, str]]:
        """Returns the places of those that have such peers, each with the name of the peer."""
        own = [it for it in self.asks.get("", ()) if it.kind != WORKSPACES]
        peers = list(self.peers_of(["", *self.workspaces]))
        brought = (it.found.place for it in own if it.found is not None and self.fits(it))
        peers += self.peers_of(it for it in brought if not is_top(it))
        by_name: Dict[str, Set[str]] = {}
        for it in (*own, *filter(self.is_needed, peers)):
            by_name.setdefault(it.name, set()).add(it.specifier)
        return {
            (peer.requirer.place, peer.name)
            for peer in peers
            if any(are_apart(it, peer.specifier) for it in by_name.get(peer.name, ()))
        }

    def peers_of(self, places: Iterable[str]) -> Iterator[Requirement]:
        """Yields the peers of the packages at some places."""
        return (it for place in places for it in self.asks.get(place, ()) if it.kind == PEERS)

    def is_needed(self, peer: Requirement) -> bool:
        """Returns whether a peer isn't optional."""
        place = peer.requirer.place
        return has_to_be_there(place, self.packages[place], peer.kind, peer.name)


def stated_peers(place: str, manifest: Entry) -> List[Requirement]:
    """Returns the peers in a package.json."""
    requirer, peers = Requirer(place, "", place), manifest.get(PEERS, {})
    return [Requirement(requirer, name, spec, kind=PEERS) for name, spec in peers.items()]


def are_apart(one: str, other: str) -> bool:
    """Returns whether two specifiers are ranges without a common version."""
    are_ranges = not (is_no_range(one) or is_no_range(other))
    return are_ranges and not may_overlap(range_of(one), range_of(other))
