"""Compares the checker with npm: worlds for which npm writes lock files, and edited copies of
these. It compares the status of both. For `npm ci`, it runs what that does before it touches
node_modules."""

import json
import os
import random
import re
import subprocess
from pathlib import Path
from typing import Any, Iterator, List, NamedTuple, Optional

from differences import (
    AS_WRITTEN,
    PROJECT,
    Differences,
    Finding,
    Unsatisfied,
    findings_in,
    listed_in,
)
from npm_edits import Edited, edited, kinds_of
from projects import environment, write_project
from registry import Json, Registry, in_order
from repairs import Repairs, repair
from semver_parser import Dialect, Version
from semver_parser.checks.findings import AnotherPackage, OfRequirement, TwoVersions
from semver_parser.checks.model import PEERS
from semver_parser.checks.npm import NPM
from semver_parser.checks.node.specifiers import range_of
from semver_parser.checks.npm.lock import (
    Packages,
    folders,
    inside,
    name_by_place,
    package_at,
    packages_of,
    requirements_at,
    with_manifest,
)
from semver_parser.checks.satisfaction import is_met, range_in
from worlds import Maker, World

HERE = os.path.dirname(os.path.abspath(__file__))
LOCK = "package-lock.json"
WAITING = 60
FLAGS = ["--package-lock-only", "--no-audit", "--no-fund", "--ignore-scripts"]

# A choice that counts also for a lock file as npm wrote it, since only the registry has the reason.
LEFT_OUT = "what is optional and can't be installed"

# What npm prints if it can't repair a lock file.
FAILURES = {
    "the registry doesn't have what is required": "code (E404|ETARGET)",
    "an archive or a repository isn't there": "code (ECONNREFUSED|ENOENT)|An unknown git error",
    "peers conflict": "code ERESOLVE",
}

# How npm names the release that it would add to a lock file, use instead of another one, or that it
# looks for in vain.
ADDED = r"Missing: |Invalid: .* does not satisfy |ETARGET: No matching version found for "
REFUSED = re.compile(rf"(?:{ADDED})(.[^@]*)@(.*?)(?: from lock file|\.)?")


class Case(NamedTuple):
    """A project with a lock file: its directory, what was edited in it, if anything, its
    package.json files and its lock file."""

    folder: Path
    edit: str
    world: World
    lock: Json


class Answer(NamedTuple):
    """npm's result for a project: why it rejects the project (nothing if it accepts it), whose
    requirements it checks, and the optional dependencies that it leaves out, each with its
    dependent and its name."""

    refused: List[str]
    looked: List[str]
    left_out: List[List[str]]


class Npm:
    """npm's own libraries, which return for a directory what `npm ci` would do."""

    def __init__(self, registry: Registry, top: Path) -> None:
        found = subprocess.run(["npm", "root", "-g"], capture_output=True, text=True, check=True)
        npm = os.path.join(found.stdout.strip(), "npm")
        program = ["node", os.path.join(HERE, "npm-ci.js"), npm, registry.url, str(top / "cache")]
        self.environment = environment(top)
        self.flags = [*FLAGS, f"--registry={registry.url}"]
        self.process = subprocess.Popen(
            program, text=True, env=self.environment, stdin=subprocess.PIPE,
            stdout=subprocess.PIPE, stderr=subprocess.DEVNULL,
        )  # fmt: skip

    def answer(self, folder: Path) -> Answer:
        """Returns npm's result for a project."""
        assert self.process.stdin is not None and self.process.stdout is not None
        self.process.stdin.write(f"{folder}\n")
        self.process.stdin.flush()
        return Answer(**json.loads(self.process.stdout.readline()))


def lock_by_npm(folder: Path, version: int, registry: Registry, top: Path) -> Optional[Json]:
    """Returns the lock file that npm writes, or None if it rejects the project."""
    flags = [*FLAGS, "--silent", f"--lockfile-version={version}", f"--registry={registry.url}"]
    ended = subprocess.run(
        ["npm", "install", *flags], cwd=folder, env=environment(top), timeout=WAITING,
        stdin=subprocess.DEVNULL, stdout=subprocess.DEVNULL, stderr=subprocess.DEVNULL, check=False,
    )  # fmt: skip
    path = folder / LOCK
    return json.loads(path.read_text()) if ended.returncode == 0 and path.exists() else None


def cases_of(
    folder: Path, lock: Json, world: World, registry: Registry, maker: Maker, edits: int
) -> List[Case]:
    """Returns the project as it is written, and edited copies of it."""
    cases = [Case(folder, "", world, lock)]
    for number in range(edits):
        it: Edited = edited(lock, world, registry, maker)
        other = folder.with_name(f"{folder.name}-{number}")
        write_project(other, it.world)
        (other / LOCK).write_text(json.dumps(it.lock))
        cases.append(Case(other, it.what, it.world, it.lock))
    return cases


# ---- the comparison


def choice_of(finding: Finding, it: Case, answer: Answer) -> Optional[str]:
    """Returns why a finding is listed although npm accepts the project: a row of DIFFERENCES.md, or
    the fact that it can't be known without a network. Returns None if there is no such reason."""
    record = finding.record
    requirer = "" if record.requirer in (PROJECT, None) else record.requirer
    wanted, name = record.range or "", record.dependency or ""
    if finding.kind in (AnotherPackage.kind, TwoVersions.kind):
        return "names and archives"
    is_optional = packages_of(it.lock, None).get(requirer, {}).get("optional") is True
    if [requirer, name] in answer.left_out or is_optional:
        return LEFT_OUT
    if requirer not in answer.looked:
        return "what is required below workspaces"
    releases = it.world.releases.get(name, {})
    if not any(is_met(wanted, version, Dialect.NPM) for version in releases):
        return "what no registry has"
    if any(is_met(wanted, version, Dialect.NPM) for version in above(finding, it.lock)):
        return "what fits is further up"
    if finding.kind == Unsatisfied.kind and is_hiding(finding, it):
        return "a package that hides the one that npm would add"
    return "a peer whose newest version has no place" if is_left_peer(finding, it) else None


def choice_as_written(finding: Finding, _: Case, answer: Answer) -> Optional[str]:
    """Returns why a finding is listed for a lock file as npm wrote it and accepts it, if only the
    registry has the reason. No other choice counts there."""
    record = finding.record
    requirer = "" if record.requirer in (PROJECT, None) else record.requirer
    if [requirer, record.dependency or ""] in answer.left_out:
        return LEFT_OUT
    is_peer = isinstance(finding, OfRequirement) and finding.requirement.kind == PEERS
    return "a peer that npm keeps by what the registry has" if is_peer else None


def is_hiding(finding: Finding, it: Case) -> bool:
    """Returns whether a package is inside of what requires it, nothing has its name in the next
    package around that, and it is newer than the version that npm picks."""
    packages, record = packages_of(it.lock, None), finding.record
    requirer, name = "" if record.requirer == PROJECT else record.requirer or "", record.dependency or ""
    around = [each for each in folders(requirer) if each in packages or not each]
    if record.place != inside(requirer, name) or len(around) < 2:
        return False
    picked = picked_for(record.range or "", list(it.world.releases.get(record.package or "", {})))
    if picked is None or version_in(picked) > version_in(record.version or ""):
        return False
    return inside(around[1], name) not in packages


def version_in(text: str) -> Version:
    """Returns the version that a text has for npm."""
    return Version.parse(text, dialect=Dialect.NPM)


def mend(it: Case, answer: Answer, npm: Npm, found: Differences) -> None:
    """Runs the repair that the checker proposes."""
    repair(
        it.folder / LOCK,
        Repairs(
            program="npm",
            environment=npm.environment,
            flags=npm.flags,
            failures=FAILURES,
            is_taken=lambda: not npm.answer(it.folder).refused,
            is_rejected=lambda: has_overrides_or_peers(it),
        ),
        found,
        shown(it, answer.refused),
    )


def has_overrides_or_peers(it: Case) -> bool:
    """Returns whether a project has overrides, or something that requires a peer."""
    lock = json.loads((it.folder / LOCK).read_text())
    packages = with_manifests(it._replace(lock=lock)).values()
    return "overrides" in it.world.manifests[""] or any(entry.get(PEERS) for entry in packages)


def is_left_peer(finding: Finding, it: Case) -> bool:
    """Returns whether a peer doesn't fit, and the version that npm picks for it doesn't fit
    everything else that requires the installed package and is satisfied by it."""
    packages = with_manifests(it)
    found = {place: package_at(packages, place, False) for place in packages}
    required = [
        each
        for place, entry in packages.items()
        for each in requirements_at(place, entry, found, {})
    ]
    record = finding.record
    into = [each for each in required if each.found and each.found.place == record.place]
    mine = (PEERS, record.requirer, record.dependency)
    others = [(each.kind, each.requirer.name, each.name) for each in into]
    if finding.kind != Unsatisfied.kind or mine not in others:
        return False
    releases = it.world.releases.get(record.package or "", {})
    picked = picked_for(record.range or "", list(releases))
    ranges = [range_of(each.specifier) for each in into]
    version = record.version or ""
    needed = [each for each in ranges if is_met(each, version, Dialect.NPM)]
    return picked is not None and not all(is_met(each, picked, Dialect.NPM) for each in needed)


def picked_for(wanted: str, versions: List[str]) -> Optional[str]:
    """Returns the version that npm takes from the registry for a range: the latest one, or else the
    highest."""
    latest = max(versions, key=in_order, default="")
    if is_met(wanted, latest, Dialect.NPM):
        return latest
    found = range_in(wanted, Dialect.NPM)
    return None if found is None else found.highest(versions)


def with_manifests(it: Case) -> Packages:
    """Returns the packages of a lock file with the requirements of their package.json files, since
    a lock file with lockfileVersion 1 doesn't have peers."""
    packages = packages_of(it.lock, it.world.manifests[""])
    for place, entry in packages.items():
        releases = it.world.releases.get(entry.get("name", name_by_place(place)), {})
        manifest = it.world.manifests.get(place, releases.get(entry.get("version", "")))
        if manifest is not None:
            packages[place] = with_manifest(entry, manifest)
    return packages


def choice_of_refusal(it: Case, answer: Answer, as_written: Answer) -> Optional[str]:
    """Returns why npm rejects a project for which nothing is listed, by a row of DIFFERENCES.md. It
    finds no version for a peer that it would otherwise leave as it is; or the peer is that of a
    workspace that is gone; or it rejects the project in the same way as npm wrote it, and would add
    what has an override by a range, and what that requires."""
    if set(answer.refused) <= set(not_found_in(it)):
        return "a conflicting peer that no registry has"
    if any(is_of_gone_workspace(each, it) for each in findings_in(it.folder / LOCK)):
        return "a peer of a workspace that is gone"
    lines = [REFUSED.fullmatch(line) for line in answer.refused]
    releases = [line.groups() for line in lines if line is not None]
    known = set(names_by_range(it.world.manifests[""].get("overrides", {})))
    for name, version in releases * len(releases):
        manifest = it.world.releases.get(name, {}).get(version, {})
        if name in known:
            known.update(each for kind in kinds_of(manifest) for each in manifest[kind])
    is_known = len(releases) == len(lines) and all(name in known for name, _ in releases)
    is_written_so = set(answer.refused) <= set(as_written.refused)
    return "an override of a range" if is_known and is_written_so else None


def not_found_in(it: Case) -> Iterator[str]:
    """Yields what npm reports about each conflicting peer if the registry has no version for it."""
    for finding in findings_in(it.folder / LOCK):
        record = finding.record
        if finding.excuse == "conflicting peer":
            yield f"ETARGET: No matching version found for {record.dependency}@{record.range}."


def is_of_gone_workspace(finding: Finding, it: Case) -> bool:
    """Returns whether a finding is about a peer of a workspace whose directory is gone."""
    requirer = finding.record.requirer or ""
    is_gone = requirer.startswith("packages/") and requirer not in it.world.manifests
    return is_gone and finding.excuse == "conflicting peer"


def names_by_range(overrides: Json) -> Iterator[str]:
    """Yields the names of the overrides whose keys have a range."""
    for key, value in overrides.items():
        name, at, _ = key[1:].partition("@")
        if at:
            yield key[:1] + name
        if isinstance(value, dict):
            yield from names_by_range(value)


def above(finding: Finding, lock: Json) -> List[str]:
    """Returns the versions of the required package that are further up than the one that is
    found."""
    packages, name = packages_of(lock, None), finding.record.dependency
    around = folders(finding.record.requirer or "")
    places = [f"{folder}/node_modules/{name}".lstrip("/") for folder in around]
    found = [packages[it]["version"] for it in places if "version" in packages.get(it, {})]
    return found[1:]


def compare(it: Case, answer: Answer, as_written: Answer, found: Differences) -> None:
    """Compares the results of npm and of the checker for a project. `as_written` is npm's result
    before the edit."""
    listed = listed_in(it.folder / LOCK)
    found.count(f"projects with {it.edit}" if it.edit else "projects as npm wrote them")
    if bool(answer.refused) == bool(listed):
        found.count("both reject" if listed else "both accept")
    elif answer.refused:
        choice = choice_of_refusal(it, answer, as_written)
        if choice is None:
            found.add("only npm rejects", shown(it, answer.refused))
        else:
            found.choose(choice, shown(it, answer.refused))
    else:
        reason = choice_of if it.edit else choice_as_written
        choices = {reason(each, it, answer) for each in listed}
        why = shown(it, [[each.kind, *each.record] for each in listed])
        for choice in choices:
            if choice is None:
                found.add("only the checker rejects" if it.edit else AS_WRITTEN, why)
            else:
                found.choose(choice, why)


def leave_over(it: Case, found: Differences) -> None:
    """Compares whether npm and the checker ignore a lock file in a workspace."""
    for place in it.world.manifests:
        if place.startswith("packages/") and not it.edit:
            path = it.folder / place / LOCK
            path.write_text("{}")
            found.count("lock files in workspaces")
            if NPM.read_instead(str(path), True) is None:
                found.add("a lock file in a workspace", shown(it, place))
            path.unlink()


def shown(it: Case, why: Any) -> Json:
    """Returns what is printed about a project, without archives and their checksums."""
    packages = {
        place: {key: value for key, value in entry.items() if key not in ("resolved", "integrity")}
        for place, entry in it.lock.get("packages", it.lock.get("dependencies", {})).items()
    }
    projects = {place or ".": manifest for place, manifest in it.world.manifests.items()}
    return {"why": why, "edit": it.edit, "manifests": projects, "packages": packages}


def run(top: Path, count: int, seed: int, edits: int) -> Differences:
    """Compares `count` worlds, each with some edited copies."""
    found, registry = Differences("npm"), Registry()
    npm = Npm(registry, top)
    made = 0
    for number in range(count * 10):
        if made == count:
            break
        maker = Maker(seed * 1000003 + number, registry.archive_at, True)
        world = maker.world()
        registry.serve(world.releases)
        folder = top / "npm" / str(number)
        write_project(folder, world)
        lock = lock_by_npm(folder, random.Random(number).choice((1, 2, 3, 3)), registry, top)
        if lock is None:
            found.count("worlds that npm rejects")
            continue
        made += 1
        cases = cases_of(folder, lock, world, registry, maker, edits)
        answers = [npm.answer(it.folder) for it in cases]
        for it, answer in zip(cases, answers):
            compare(it, answer, answers[0], found)
            leave_over(it, found)
            mend(it, answer, npm, found)
    found.counts["worlds"] = made
    return found
