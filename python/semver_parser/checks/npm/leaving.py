"""What `npm ci` leaves as it is, though it doesn't satisfy a requirement. That is listed only with
`--strict`."""

from functools import cached_property
from typing import Callable, Optional, Set, Tuple

from semver_parser import Dialect

from ..findings import (
    Finding,
    InvalidRange,
    Missing,
    MissingMember,
    NoVersion,
    OfFound,
    OfRequirement,
    Overridden,
    TwoVersions,
    Unsatisfied,
)
from ..model import PEERS, Left, Requirement
from ..node.specifiers import is_fetched
from ..satisfaction import is_met, range_in
from .lock import Packages, folder_round, folders, inside, is_outside, is_top, locked_in
from .overrides import Rule, names_by_range
from .peers import Peers

UNMET = (Unsatisfied, Overridden)

# The advice for what npm install doesn't repair: what is required below workspaces, since npm
# doesn't check it; a package that npm only leaves out, since one further up satisfies the
# requirement; and a package that hides the one that npm would add.
ANEW = "remove the lock file and node_modules, and have npm write a new lock file"

# The advice for a mismatched peer that npm may keep.
PEER = "run npm install; if npm keeps the mismatched peer, change what requires it"

# The advice if an override whose key has a range applies: npm may reject what it then writes.
WITHOUT_RANGE = "give the override a key without a range, and have npm write the lock file anew"

# The advice if no version satisfies both a peer and what the project requires.
AGREE = "make the requirement and the peer dependency agree, or set legacy-peer-deps=true in .npmrc"


class Leaving:
    """Decides which findings are about something that npm leaves as it is, and what to change.
    Without `peers`, npm leaves no peer. `apart` has the places and names of peers that contradict
    what the project requires."""

    def __init__(
        self,
        packages: Packages,
        peers: Optional[Peers],
        rules: Rule,
        look: Callable[[], Set[str]],
        apart: Set[Tuple[str, str]],
    ) -> None:
        self.packages, self.peers, self.locked = packages, peers, locked_in(packages)
        self.rules, self.look = rules, look
        self.by_range = names_by_range(rules)
        self.apart, self.names_apart = {place for place, _ in apart}, {name for _, name in apart}

    @cached_property
    def looked(self) -> Set[str]:
        """The places whose requirements npm checks."""
        return self.look()

    def left(self, finding: Finding) -> Left:
        """Returns why npm leaves what a finding is about as it is, if it does, and an advice."""
        if isinstance(finding, MissingMember) and finding.about in self.apart:
            return Left("", AGREE, True)
        if not isinstance(finding, (*UNMET, Missing, InvalidRange, NoVersion)):
            return Left()
        assert isinstance(finding, OfRequirement)
        it = finding.requirement
        if is_outside(it.requirer.place):
            return Left("outside")
        if self.is_brought_along(it):
            return Left("bundled")
        found = self.left_with_version(finding) if isinstance(finding, UNMET) else Left()
        is_apart = it.name in self.names_apart and (it.kind == PEERS or not it.requirer.place)
        if is_apart and not found.excuse:
            return Left("", AGREE, True)
        is_below = not is_top(it.requirer.place) and it.requirer.place not in self.looked
        return found._replace(advice=ANEW) if is_below and not found.advice else found

    def left_with_version(self, finding: OfFound) -> Left:
        """Returns why npm leaves a package with the wrong version, if it does, and an advice."""
        it = finding.requirement
        advice = WITHOUT_RANGE if it.name in self.by_range else ""
        if self.may_stay(finding) or self.is_hiding(finding):
            if isinstance(finding, Overridden):
                return Left("override", advice)
            advice = ANEW
        # If there are overrides, npm also leaves what has the version of the one that it fetches.
        if self.rules.inner and is_fetched(finding.specifier):
            advice = TwoVersions.advice
        if self.peers is None:
            return Left("", advice)
        if self.peers.may_be_left(it):
            advice = PEER
        return Left("conflicting peer" if self.peers.is_left(it) else "", advice)

    def may_stay(self, finding: OfFound) -> bool:
        """Returns whether npm may leave the package that a finding is about: a package of the name
        further up satisfies the requirement or its override."""
        it, specifier = finding.requirement, finding.specifier
        if it.found is None or is_top(it.found.place):
            return False
        around = (inside(at, it.name) for at in folders(folder_round(it.found.place)))
        places = [at for at in around if at != it.found.place and at in self.packages]
        versions = (self.packages[at].get("version") for at in places)
        return any(is_met(specifier, str(version), Dialect.NPM) for version in versions)

    def is_hiding(self, finding: OfFound) -> bool:
        """Returns whether the package that a finding is about hides each one that npm would add. npm
        adds a package one directory further up if nothing has its name there. Then it removes the
        one inside, unless that is newer."""
        it, place = finding.requirement, finding.requirement.requirer.place
        if it.found is None or not place or it.found.place != inside(place, it.name):
            return False
        around = (each for each in folders(place) if each != place and each in self.packages)
        if inside(next(around, ""), it.name) in self.packages:
            return False
        wanted = range_in(finding.specifier, Dialect.NPM, "included")
        newer = range_in(f">{it.found.version}", Dialect.NPM, "included")
        return wanted is not None and newer is not None and wanted.isdisjoint(newer)

    def is_brought_along(self, it: Requirement) -> bool:
        """Returns whether a package bundles what it requires, or what is found comes from another
        package's own lock file."""
        place = it.requirer.place
        if is_top(place):
            return False
        bundled = self.packages[place].get("bundleDependencies")
        if place in self.locked or (isinstance(bundled, list) and it.name in bundled):
            return True
        if it.found is None or not self.locked or is_top(it.found.place):
            return False
        return not self.locked.isdisjoint(folders(folder_round(it.found.place)))
