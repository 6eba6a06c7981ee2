"""Compares the checker with Cargo: workspaces that use crates from a directory, with the Cargo.lock
that Cargo writes, and edits of the manifests, of that file and of the graph, which `cargo metadata
--locked` accepts or rejects."""

import json
from pathlib import Path
from typing import Any, Dict, Iterator, List, Tuple

from cargo_edits import A_CHECKSUM, AN_EDGE_MORE, damaged, edited
from cargo_worlds import (
    Crate,
    Maker,
    Need,
    World,
    cargo,
    crate_folder,
    graph_at,
    manifest_of,
    texts_of,
    write_manifests,
    write_package,
    write_world,
)
from differences import AS_WRITTEN, Differences, Missing, is_refused, listed_in
from repairs import Repairs, repair
from semver_parser.checks.findings import MissingMember

# What Cargo prints if it can't repair a lock file. It also reads the manifests at paths that the
# lock file lacks, which the checker doesn't.
FAILURES = {
    "the registry doesn't have what is required": "no matching package|failed to select a version",
    "a checksum isn't that of the registry": "checksum for .* changed between lock files",
}
OF_UNREAD = {"a manifest that isn't read is invalid": "failed to parse manifest|duplicate key"}


def compare_as_written(top: Path, name: str, found: Differences, shown: object) -> None:
    """Compares a file that Cargo wrote, for which the checker has to list nothing."""
    found.count(f"{name} as written")
    if is_refused(top / name):
        found.add(AS_WRITTEN, shown)


def compare(what: str, is_taken: bool, path: Path, found: Differences, shown: object) -> None:
    """Compares whether Cargo accepts a lock file or a graph, and whether the checker does."""
    found.count(f"{what}: Cargo {'accepts' if is_taken else 'rejects'} it")
    if is_taken == is_refused(path):
        who = "rejected here, but Cargo accepts it" if is_taken else "only Cargo rejects it"
        found.add(f"{what}: {who}", shown)


def shown_of(world: World, lock: str, **more: Any) -> Dict[str, Any]:
    """Returns a world as it is kept."""
    return {**more, "manifests": texts_of(world), "lock": lock}


def edit_manifests(
    top: Path, world: World, maker: Maker, found: Differences, changes: int
) -> None:
    """Edits the manifests, one at a time."""
    lock = (top / "Cargo.lock").read_text()
    for _ in range(changes):
        what, other = edited(world, maker)
        write_manifests(top, other)
        taken = graph_at(top) is not None
        compare(what, taken, top / "Cargo.lock", found, shown_of(other, lock))
        mend(top, other, lock, found)
    write_manifests(top, world)


def mend(top: Path, world: World, lock: str, found: Differences) -> None:
    """Runs the repair that the checker proposes."""
    path = top / "Cargo.lock"
    before = path.read_text()
    lacks = any(it.kind in (Missing.kind, MissingMember.kind) for it in listed_in(path))
    repair(
        path,
        Repairs(
            program="cargo",
            environment={"CARGO_HOME": str(top / "home")},
            flags=["--offline", "--quiet"],
            failures={**FAILURES, **OF_UNREAD} if lacks else FAILURES,
            is_taken=lambda: graph_at(top) is not None,
        ),
        found,
        shown_of(world, lock),
    )
    path.write_text(before)


def damage_lock(
    top: Path, world: World, maker: Maker, found: Differences, changes: int
) -> None:
    """Damages the Cargo.lock, in one place at a time.

    Cargo also knows what crates of the registry require, which isn't in the file. It rejects a
    version for that reason, and ignores an edge that leads to no package or to several if nothing
    requires it.
    """
    path = top / "Cargo.lock"
    lock = path.read_text()
    for _ in range(changes):
        what, text, is_of_registry = damaged(lock, maker)
        path.write_text(text)
        taken, refused = graph_at(top) is not None, is_refused(path)
        if what == A_CHECKSUM and not taken and not refused:
            found.choose("Cargo compares checksums with those of the registry", what)
        elif is_of_registry and taken == refused and (refused is False or what == AN_EDGE_MORE):
            found.count(f"{what}: Cargo {'accepts' if taken else 'rejects'} it")
            found.choose("Cargo.lock has no requirements of crates", shown_of(world, text))
        else:
            compare(what, taken, path, found, shown_of(world, text))
        mend(top, world, text, found)
    path.write_text(lock)


# ---- the graph that Cargo resolved


def needs_changed(needs: List[Need], maker: Maker) -> Tuple[int, List[Need]]:
    """Returns requirements of which one is replaced, and its index."""
    index = maker.chance.randrange(len(needs))
    other = needs[index]._replace(requirement=maker.requirement_for(needs[index].name))
    return index, [*needs[:index], other, *needs[index + 1 :]]


def crates_in(graph: Dict[str, List[Dict[str, object]]]) -> Iterator[Crate]:
    """Yields the crates of the registry in a graph."""
    yield from ((str(it["name"]), str(it["version"])) for it in graph["packages"])


def change_graph(
    top: Path, graph: str, world: World, maker: Maker, found: Differences, changes: int
) -> None:
    """Changes requirements of crates of the registry, one at a time, in their manifests and in the
    graph."""
    known = [it for it in crates_in(json.loads(graph)) if world.crates.get(it)]
    for crate in maker.chance.sample(known, min(len(known), changes)):
        needs = world.crates[crate]
        index, others = needs_changed(needs, maker)
        write_package(crate_folder(top, crate), manifest_of(*crate, others))
        made = json.loads(graph)
        for package in made["packages"]:
            if (package["name"], package["version"]) == crate:
                for it in package["dependencies"]:
                    if (it["rename"] or it["name"]) == needs[index].key:
                        it["req"] = others[index].requirement
        path = top / "graph.json"
        path.write_text(json.dumps(made))
        text = manifest_of(*crate, others)
        taken = graph_at(top) is not None
        shown = {"crate": text, "lock": (top / "Cargo.lock").read_text()}
        compare("a requirement in the graph changed", taken, path, found, shown)
        write_package(crate_folder(top, crate), manifest_of(*crate, needs))


def run(top: Path, count: int, seed: int, changes: int) -> Differences:
    """Compares `count` worlds, each with some edits, damages and changes of its graph."""
    found, made = Differences("Cargo"), 0
    for number in range(count * 20):
        if made == count:
            break
        maker = Maker(seed * 1000003 + number)
        world = maker.world()
        folder = top / "cargo" / str(number)
        folder.mkdir(parents=True)
        write_world(folder, world)
        if cargo(folder, "generate-lockfile") is None:
            found.count("worlds that Cargo rejects")
            continue
        made += 1
        graph = graph_at(folder)
        assert graph is not None
        (folder / "graph.json").write_text(graph)
        shown = shown_of(world, (folder / "Cargo.lock").read_text())
        for name in ("Cargo.lock", "graph.json"):
            compare_as_written(folder, name, found, shown)
        edit_manifests(folder, world, maker, found, changes)
        damage_lock(folder, world, maker, found, changes)
        change_graph(folder, graph, world, maker, found, changes)
    found.counts["worlds"] = made
    return found
