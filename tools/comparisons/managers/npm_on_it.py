"""Compares npm as it is with npm that uses the JavaScript package instead of `semver`.

npm_on_it.py PACKAGE COUNT SEED runs npm's commands in COUNT projects with a registry on the
loopback address, once with npm as it is and once with a copy of npm's tree that has the package. It
compares their output and the files that they leave. Exits with 1 if something differs, except in
each tenth project, where node-semver reads strings with `loose`.
"""

import json
import os
import random
import re
import shutil
import subprocess
import sys
import tempfile
from concurrent.futures import ThreadPoolExecutor
from pathlib import Path
from typing import Dict, List, NamedTuple, Tuple

from projects import environment, write_project
from registry import Json, Registry
from worlds import Maker, World

WAITING = 120
QUIET = ["--no-fund", "--no-update-notifier", "--no-progress", "--ignore-scripts"]
COMMANDS = (
    ("install",),
    ("ls", "--all"),
    ("ls", "--all", "--json"),
    ("outdated",),
    ("outdated", "--json"),
    ("pack", "--dry-run"),
    ("dedupe", "--dry-run"),
    ("audit",),
    ("audit", "fix", "--dry-run"),
    ("install", "--package-lock-only"),
    ("version", "preminor", "--no-git-tag-version"),
    ("version", "patch", "--no-git-tag-version", "--allow-same-version"),
    ("pack",),
)
LOOSE_RANGES = (">=1.2, <2", "01.x", "^1.2.3beta", ">=01.2.3 <3")
"""Ranges that are valid only with `loose`, which npm's commands use."""


class Tree(NamedTuple):
    """npm's tree, and its name in the report."""

    name: str
    program: Path


def copy_of_npm(top: Path, package: Path) -> Tree:
    """Makes a copy of npm's tree that has the package instead of `semver`."""
    root = subprocess.run(["npm", "root", "-g"], capture_output=True, text=True, check=True)
    copy = top / "npm"
    shutil.copytree(Path(root.stdout.strip()) / "npm", copy, symlinks=True)
    for place in list(copy.rglob("node_modules/semver")):
        shutil.rmtree(place)
        shutil.copytree(package, place)
        manifest = json.loads((place / "package.json").read_text())
        (place / "package.json").write_text(json.dumps({**manifest, "name": "semver"}))
    return Tree("here", copy / "bin" / "npm-cli.js")


def npm_itself() -> Tree:
    """Returns npm as it is installed."""
    root = subprocess.run(["npm", "root", "-g"], capture_output=True, text=True, check=True)
    return Tree("npm", Path(root.stdout.strip()) / "npm" / "bin" / "npm-cli.js")


def plain(text: str, folder: Path) -> str:
    """Returns the output of a command without what differs between runs."""
    text = text.replace(str(folder), "PROJECT")
    text = re.sub(r"in \d+(\.\d+)?m?s\b", "in TIME", text)
    text = re.sub(r"\S*_logs/\S*", "LOG", text)
    return re.sub(r"\d{4}-\d\d-\d\dT[\d:._]+Z", "DATE", text)


def state(folder: Path) -> Dict[str, str]:
    """Returns the manifests and lock files in a project."""
    files = [it for it in folder.rglob("*.json") if it.is_file()]
    return {str(it.relative_to(folder)): it.read_text() for it in sorted(files)}


def run(tree: Tree, folder: Path, registry: Registry, top: Path) -> List[Tuple[str, str]]:
    """Runs the commands in a project. Returns each with its output, its status and the files."""
    results = []
    for command in COMMANDS:
        flags = [*QUIET, f"--registry={registry.url}"]
        ended = subprocess.run(
            ["node", str(tree.program), *command, *flags], cwd=folder, check=False, text=True,
            env=environment(top / tree.name), timeout=WAITING, stdin=subprocess.DEVNULL,
            capture_output=True,
        )  # fmt: skip
        wrote = plain(ended.stdout + ended.stderr, folder)
        found = {"status": ended.returncode, "wrote": wrote, "files": state(folder)}
        results.append((" ".join(command), plain(json.dumps(found, indent=1), folder)))
    return results


def advisories(world: World, chance: random.Random) -> Json:
    """Returns the advisories of the registry: for most packages, all versions up to a high one."""
    found = {}
    for number, (name, versions) in enumerate(sorted(world.releases.items()), 1):
        if chance.random() < 0.7:
            bound = chance.choice(sorted(versions)[-2:])
            found[name] = [{
                "id": number, "url": f"https://example.com/{number}", "title": f"flaw {number}",
                "severity": "high", "vulnerable_versions": f"<{bound} || {bound}", "cwe": [],
                "cvss": {"score": 0, "vectorString": None},
            }]  # fmt: skip
    return found


def loosen(world: World, chance: random.Random) -> None:
    """Makes the project require a package by a range that is valid only with `loose`."""
    name = chance.choice(sorted(world.releases))
    manifest = world.manifests[""]
    for kind in ("dependencies", "devDependencies", "optionalDependencies", "peerDependencies"):
        manifest.get(kind, {}).pop(name, None)
    manifest.setdefault("dependencies", {})[name] = chance.choice(LOOSE_RANGES)


def main(package: Path, count: int, seed: int) -> int:
    """Compares the commands in `count` projects. Returns the status."""
    registry, differences, loose, ran, failed = Registry(), 0, 0, 0, 0
    with tempfile.TemporaryDirectory() as made, ThreadPoolExecutor() as pool:
        top = Path(made)
        trees = [npm_itself(), copy_of_npm(top, package)]
        for number in range(count):
            maker = Maker(seed * 1000003 + number, registry.archive_at, True)
            world = maker.world()
            is_loose = number % 10 == 9
            if is_loose:
                loosen(world, maker.chance)
            registry.serve(world.releases)
            registry.serve_advisories(advisories(world, maker.chance))
            folders = [top / tree.name / f"project-{number}" for tree in trees]
            for folder in folders:
                write_project(folder, world)
            beside = [pool.submit(run, *each, registry, top) for each in zip(trees, folders)]
            results = [each.result() for each in beside]
            for (command, theirs), (_, ours) in zip(*results):
                ran += 1
                failed += json.loads(theirs)["status"] != 0
                if theirs == ours:
                    continue
                loose += is_loose
                if not is_loose:
                    differences += 1
                    print(f"npm {command} of project {number}: npm itself\n{theirs}\nhere\n{ours}")
    print(f"seed {seed}: {count} projects, {ran} commands, {failed} of which end with an error:")
    print(f"  {differences} differ, and {loose} with a range that is valid only with `loose`")
    return int(differences > 0)


if __name__ == "__main__":
    os.environ.pop("NODE_PATH", None)
    sys.exit(main(Path(sys.argv[1]).resolve(), int(sys.argv[2]), int(sys.argv[3])))
