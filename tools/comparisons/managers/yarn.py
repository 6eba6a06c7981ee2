"""Compares the checker with yarn 1: worlds for which yarn writes lock files, and edits of manifests
and of lock files, which `yarn install --frozen-lockfile` accepts or rejects.

For yarn 1, only the project is frozen: what its workspaces and packages require, and the file
lacks, it takes from the registry. The checker lists that only with --strict.
"""

import shutil
import subprocess
from pathlib import Path
from typing import Any, Dict, List, Optional, Set, Tuple

from differences import AS_WRITTEN, PROJECT, Differences, Finding, Missing, Unsatisfied, findings_in
from projects import environment, write_project
from registry import Registry
from repairs import Repairs, repair
from semver_parser import Range, RangeError
from semver_parser.checks.findings import TwoVersions
from semver_parser.checks.node.specifiers import alias_of
from worlds import Maker, World
from yarn_edits import ANOTHER_ARCHIVE, damaged, edited

LOCK = "yarn.lock"
PROGRAM = "yarnpkg"
WRITTEN = "as written"
WAITING = 120

# What yarn prints if it can't repair a lock file.
FAILURES = {
    "the registry doesn't have what is required": "Couldn't find (package|any versions)|: Not found",
}


class Yarn:
    """Yarn with a registry, in directories below another one."""

    def __init__(self, top: Path, registry: Registry) -> None:
        self.top, self.registry = top, registry

    @property
    def flags(self) -> List[str]:
        """Returns the flags for a quiet installation from the registry."""
        quiet = ["--non-interactive", "--no-progress", "--silent", "--ignore-scripts"]
        return [*quiet, f"--registry={self.registry.url}", f"--cache-folder={self.top}/cache"]

    def installs(self, folder: Path, *arguments: str) -> bool:
        """Returns whether yarn installs a project."""
        ended = subprocess.run(
            [PROGRAM, "install", *self.flags, *arguments], cwd=folder, env=environment(self.top),
            timeout=WAITING, stdin=subprocess.DEVNULL, stdout=subprocess.DEVNULL,
            stderr=subprocess.DEVNULL, check=False,
        )  # fmt: skip
        return ended.returncode == 0

    def takes(self, folder: Path) -> bool:
        """Returns whether yarn accepts a lock file as it is."""
        return self.installs(folder, "--frozen-lockfile")


def shown_of(world: World, lock: str) -> Dict[str, Any]:
    """Returns a world as it is kept."""
    return {"manifests": world.manifests, "lock": lock}


def is_only_resolved(world: World, finding: Finding) -> bool:
    """Returns whether the project requires what a finding is about only by a resolution."""
    manifest, name = world.manifests[""], finding.record.dependency
    tables = (manifest.get(it, {}) for it in ("dependencies", "devDependencies", "optionalDependencies"))
    return name in manifest.get("resolutions", {}) and not any(name in it for it in tables)


def choice_of(what: str, finding: Finding, world: World) -> Optional[str]:
    """Returns why a finding is listed, although yarn accepts the project, by a row of
    DIFFERENCES.md: it is about an alias, about an archive of another version after that damage, or
    about an entry that only a workspace, a package or a resolution requires, and that yarn
    ignores."""
    record = finding.record
    wanted = record.range or ""
    if wanted.startswith("npm:"):
        return "yarn doesn't compare an alias"
    if finding.kind == TwoVersions.kind and what == ANOTHER_ARCHIVE:
        return "yarn doesn't compare an archive of another version"
    if finding.kind == Unsatisfied.kind:
        if record.requirer != PROJECT or is_only_resolved(world, finding):
            return "yarn ignores an entry that the project itself does not require"
    return None


def is_absent(world: World, name: str, wanted: str, seen: Set[Tuple[str, str]]) -> bool:
    """Returns whether the registry of a world lacks what is required, or what that requires in
    turn. What was `seen` isn't looked for again."""
    if (name, wanted) in seen or "://" in wanted:
        return False
    seen.add((name, wanted))
    name, wanted = alias_of(wanted) or (name, wanted)
    releases = world.releases.get(name, {})
    try:
        version = Range(wanted, dialect="npm").highest(list(releases))
    except RangeError:
        return not releases
    if version is None:
        return True
    kinds = (releases[version].get(it, {}) for it in ("dependencies", "optionalDependencies"))
    required = (each for kind in kinds for each in kind.items())
    return any(is_absent(world, other, text, seen) for other, text in required)


def is_nowhere(finding: Finding, world: World) -> bool:
    """Returns whether a finding is about something that is missing, and that yarn can't take from
    the registry, either."""
    record = finding.record
    is_missing = finding.kind == Missing.kind
    return is_missing and is_absent(world, record.dependency or "", record.range or "", set())


def compare(
    what: str, folder: Path, world: World, lock: str, yarn: Yarn, found: Differences
) -> None:
    """Compares whether yarn accepts a project and whether the checker does."""
    shutil.rmtree(folder, ignore_errors=True)
    write_project(folder, world)
    (folder / LOCK).write_text(lock)
    taken = yarn.takes(folder)
    found.count(f"{what}: yarn {'accepts' if taken else 'rejects'} it")
    findings = findings_in(folder / LOCK)
    listed = [it for it in findings if not it.excuse]
    choices = {choice_of(what, it, world) for it in listed}
    if what == WRITTEN and taken and listed:
        found.add(AS_WRITTEN, shown_of(world, lock))
    elif taken and listed and None not in choices:
        for choice in sorted(it for it in choices if it is not None):
            found.choose(choice, shown_of(world, lock))
    elif not taken and not listed and any(is_nowhere(it, world) for it in findings):
        found.choose("the registry doesn't have what is missing", shown_of(world, lock))
    elif taken == bool(listed):
        who = "rejected here, but yarn accepts it" if taken else "only yarn rejects it"
        found.add(f"{what}: {who}", shown_of(world, lock))
    mend(folder, world, lock, yarn, found)


def mend(folder: Path, world: World, lock: str, yarn: Yarn, found: Differences) -> None:
    """Runs the repair that the checker proposes."""
    repair(
        folder / LOCK,
        Repairs(
            program=PROGRAM,
            environment=environment(yarn.top),
            flags=yarn.flags,
            failures=FAILURES,
            is_taken=lambda: yarn.takes(folder),
        ),
        found,
        shown_of(world, lock),
    )


def lock_of(folder: Path, world: World, yarn: Yarn) -> Optional[str]:
    """Returns the lock file that yarn writes, or None if it rejects the project."""
    write_project(folder, world)
    if not yarn.installs(folder):
        return None
    path = folder / LOCK
    return path.read_text() if path.exists() else None


def run(top: Path, count: int, seed: int, changes: int) -> Differences:
    """Compares `count` worlds, each with some edits and some damages."""
    found, registry, made = Differences("yarn 1"), Registry(), 0
    for number in range(count * 10):
        if made == count:
            break
        maker = Maker(seed * 1000003 + number, registry.archive_at, False)
        world = maker.world()
        folder = top / "yarn" / str(number)
        folder.mkdir(parents=True)
        registry.serve(world.releases)
        yarn = Yarn(folder, registry)
        lock = lock_of(folder / "first", world, yarn)
        if lock is None:
            found.count("worlds that yarn rejects")
            continue
        made += 1
        other = folder / "other"
        compare(WRITTEN, other, world, lock, yarn, found)
        for _ in range(changes):
            what, changed = edited(world, maker)
            compare(what, other, changed, lock, yarn, found)
            what, text = damaged(lock, maker)
            compare(what, other, world, text, yarn, found)
        shutil.rmtree(folder, ignore_errors=True)
    found.counts["worlds"] = made
    return found
