"""A world of packages made from a seed: releases with their requirements, all of which are
satisfied."""

import random
from typing import Dict, Iterator, List, NamedTuple, Set, Tuple

Need = Tuple[str, "Release"]
"""A range, and the release that is chosen for it."""

Releases = Dict[str, List["Release"]]
"""The releases of each name, the newest one first."""


class Shape(NamedTuple):
    """How many names releases require, how often they require an older release, and which names: a
    power above 1 prefers the first names, and one below 1 the last."""

    counts: Tuple[int, ...] = (0, 1, 2, 2, 3, 5)
    older: float = 0.2
    powers: Tuple[float, ...] = (1.0, 5.0)


class Release(NamedTuple):
    """A release of a package: its name, its version, and its requirements by name."""

    name: str
    version: str
    needs: Dict[str, Need]
    peers: List[str]


class World(NamedTuple):
    """The releases, and what the project requires."""

    releases: Releases
    needs: Dict[str, Need]

    def all_releases(self) -> Iterator[Release]:
        """Yields each release."""
        for releases in self.releases.values():
            yield from releases


def range_for(release: Release, chance: random.Random) -> str:
    """Returns a range that a release satisfies, in one of the forms that most packages use."""
    major, minor, _ = release.version.split(".")
    ranges = (f"^{release.version}", f"^{major}.{minor}.0", f"^{major}.0.0", f"~{major}.{minor}.0")
    return chance.choices((*ranges, f"{major}.x"), (4, 3, 3, 1, 1))[0]


def needs_of(
    count: int, names: List[str], releases: Releases, shape: Shape, chance: random.Random
) -> Dict[str, Need]:
    """Returns requirements of some names."""
    needs: Dict[str, Need] = {}
    for _ in range(count if names else 0):
        name = names[int(len(names) * chance.random() ** chance.choice(shape.powers))]
        own = releases[name]
        release = chance.choice(own) if chance.random() < shape.older else own[0]
        needs[name] = (range_for(release, chance), release)
    return needs


def world_of(count: int, seed: int, shape: Shape = Shape()) -> World:
    """Returns a world with `count` names, each of which requires some of those before it."""
    chance = random.Random(seed)
    names: List[str] = []
    releases: Releases = {}
    for index in range(count):
        scope = f"@scope-{index % 50}/" if index % 5 == 0 else ""
        name = f"{scope}package-{index}"
        releases[name] = [
            Release(
                name,
                f"{major}.{chance.randrange(30)}.{chance.randrange(20)}",
                needs_of(chance.choice(shape.counts), names, releases, shape, chance),
                [chance.choice(names[:40])] if names and chance.random() < 0.1 else [],
            )
            for major in range(chance.choice((1, 1, 1, 2, 2, 3)), 0, -1)
        ]
        names.append(name)
    return World(releases, needs_of(60, names, releases, shape._replace(older=0.0), chance))


def rooted(world: World) -> World:
    """Returns a world in which the project also requires the newest release of each name that
    nothing else requires, and from which the older releases that nothing requires are removed."""
    all_needs = (it for each in world.all_releases() for _, it in each.needs.values())
    required = {(it.name, it.version) for it in all_needs}
    newest = (each[0] for each in world.releases.values())
    tops = [it for it in newest if (it.name, it.version) not in required]
    found: Set[Tuple[str, str]] = set()
    left = [*tops, *(it for _, it in world.needs.values())]
    while left:
        here = left.pop()
        if (here.name, here.version) not in found:
            found.add((here.name, here.version))
            left += [it for _, it in here.needs.values()]
    kept = {
        name: [it for it in each if (name, it.version) in found]
        for name, each in world.releases.items()
    }
    needs = {**world.needs, **{it.name: (f"^{it.version}", it) for it in tops}}
    return World({name: each for name, each in kept.items() if each}, needs)
