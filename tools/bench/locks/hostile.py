"""Lock files that are made to take long: something usual, thousands of times."""

import json
from pathlib import Path
from typing import Any, Callable, Dict, List, Tuple

COUNT = 3000

Made = Tuple[Path, int]
"""A lock file, and the status of checking it."""


def write_npm(folder: Path, overrides: Dict[str, str], packages: Dict[str, Any]) -> Path:
    """Writes a package-lock.json next to a package.json with overrides. Returns its path."""
    own: Dict[str, Any] = {"name": "project", "version": "1.0.0", **packages.pop("")}
    manifest = {**own, "overrides": overrides}
    lock = {"lockfileVersion": 3, "packages": {"": own, **packages}}
    (folder / "package.json").write_text(json.dumps(manifest))
    (folder / "package-lock.json").write_text(json.dumps(lock))
    return folder / "package-lock.json"


def write_overrides(folder: Path, wanted: List[str], keys: List[str]) -> Path:
    """Writes a file of packages that require another one, each by one of some ranges, and overrides
    of that package with other ranges. Returns its path."""
    names = [f"package-{number}" for number in range(len(wanted))]
    packages: Dict[str, Any] = {"": {"dependencies": {name: "1.0.0" for name in names}}}
    for name, spec in zip(names, wanted):
        packages[f"node_modules/{name}"] = {"version": "1.0.0", "dependencies": {"part": spec}}
    packages["node_modules/part"] = {"version": "2.0.0"}
    return write_npm(folder, {f"part@{it}": "2.0.0" for it in keys}, packages)


def of_overrides(folder: Path) -> Made:
    """Makes thousands of overrides of one name, each for the requirement of one package."""
    versions = [f"1.0.{number}" for number in range(COUNT)]
    return write_overrides(folder, versions, versions), 0


def of_ranges(folder: Path) -> Made:
    """Makes thousands of overrides of one name by ranges, none of which applies to a
    requirement."""
    wanted = [f"^2.0.0 || ~4.{number}.0" for number in range(COUNT)]
    return write_overrides(folder, wanted, [f"~1.{number}.0" for number in range(COUNT)]), 0


def of_chain(folder: Path) -> Made:
    """Makes thousands of overrides of one name, each of which installs what the next one applies
    to. npm 10.8.2 follows three of them."""
    packages: Dict[str, Any] = {"": {"dependencies": {"whole": "1.0.0"}}}
    packages["node_modules/whole"] = {"version": "1.0.0", "dependencies": {"part": "1.0.0"}}
    packages["node_modules/part"] = {"version": "1.0.3"}
    overrides = {f"part@1.0.{number}": f"1.0.{number + 1}" for number in range(COUNT)}
    return write_npm(folder, overrides, packages), 0


def of_copies(folder: Path) -> Made:
    """Makes thousands of packages of one name with an override for each. The package that requires
    such a package comes after it in the file, so npm takes its override from the directory that it
    is in."""
    packages: Dict[str, Any] = {"": {"dependencies": {}}}
    for number in range(COUNT):
        name, version = f"package-{number}", f"1.{number}.7"
        packages[""]["dependencies"][name] = "1.0.0"
        packages[f"node_modules/{name}"] = {"version": "1.0.0", "dependencies": {"whole": "1.0.0"}}
        inside = f"node_modules/{name}/node_modules"
        packages[f"{inside}/part"] = {"version": version}
        packages[f"{inside}/whole"] = {"version": "1.0.0", "dependencies": {"part": version}}
    overrides = {f"part@~1.{number}.0": f"1.{number}.7" for number in range(COUNT)}
    return write_npm(folder, overrides, packages), 0


MAKERS: List[Tuple[str, Callable[[Path], Made]]] = [
    ("3,000 overrides of one name", of_overrides),
    ("3,000 overrides of one name by ranges", of_ranges),
    ("a chain of 3,000 overrides", of_chain),
    ("3,000 overrides, each for one of 3,000 copies", of_copies),
]
