"""Times check-lock-file on large lock files that it makes, and prints tables. For each checkout
that is named, they have the CPU seconds of the best of three runs, and the most memory of these
runs.

- In the files of the first table nothing is wrong, and each package is required.
- In the files of the second table some versions are wrong; the table has each format.
- The files of the third table are made to take long.

usage: measure.py CHECKOUT..
"""

import os
import re
import subprocess
import sys
import tempfile
from multiprocessing import Pool
from pathlib import Path
from typing import Callable, Iterable, List, NamedTuple, Optional, Sequence, Tuple, TypeVar

import files
import hostile
from world import Shape, World, rooted, world_of

Value = TypeVar("Value")

SEED = 1
RUNS = 3


class Lock(NamedTuple):
    """A lock file that was made: what it is, its path, and how many packages it has."""

    what: str
    path: Path
    packages: int


def write_lines(path: Path, lines: Iterable[str]) -> Path:
    """Writes a file. Returns its path."""
    path.write_text("".join(lines))
    return path


def count_of(world: World) -> int:
    """Returns how many releases a world has."""
    return sum(len(each) for each in world.releases.values())


def of_npm(folder: Path) -> Lock:
    """Makes a large package-lock.json."""
    packages = files.write_npm(folder, rooted(world_of(105000, SEED)), {})
    return Lock("package-lock.json", folder / "package-lock.json", packages)


def of_overrides(folder: Path) -> Lock:
    """Makes a package-lock.json next to a package.json with 50 overrides, none of them for a
    dependency of the project itself."""
    world = rooted(world_of(2000, SEED, Shape((10, 20), 0.0, (0.1,))))
    names = [name for name in world.releases if name not in world.needs][-50:]
    overrides = {name: world.releases[name][0].version for name in names}
    packages = files.write_npm(folder, world, {"overrides": overrides})
    return Lock("package-lock.json, 50 overrides", folder / "package-lock.json", packages)


def of_yarn(folder: Path, lines_of: Callable[[World], Iterable[str]], what: str) -> Lock:
    """Makes a large yarn.lock."""
    world = rooted(world_of(140000, SEED))
    files.write_manifest(folder, world, {})
    path = write_lines(folder / "yarn.lock", lines_of(world))
    return Lock(what, path, len(files.keys_of(world, "")))


def of_yarn_1(folder: Path) -> Lock:
    """Makes a large yarn.lock of yarn 1."""
    return of_yarn(folder, files.yarn_1_lines, "yarn.lock, yarn 1")


def of_yarn_4(folder: Path) -> Lock:
    """Makes a large yarn.lock of yarn 4."""
    return of_yarn(folder, files.yarn_4_lines, "yarn.lock, yarn 4")


def of_pnpm(folder: Path) -> Lock:
    """Makes a large pnpm-lock.yaml."""
    world = rooted(world_of(22000, SEED))
    files.write_manifest(folder, world, {})
    path = write_lines(folder / "pnpm-lock.yaml", files.pnpm_lines(world))
    return Lock("pnpm-lock.yaml", path, count_of(world))


def of_cargo(folder: Path) -> Lock:
    """Makes a large Cargo.lock. Cargo removes what nothing requires."""
    world = rooted(world_of(20000, SEED))
    write_lines(folder / "Cargo.toml", files.cargo_manifest_lines(world))
    path = write_lines(folder / "Cargo.lock", files.cargo_lock_lines(world))
    return Lock("Cargo.lock", path, count_of(world))


def of_metadata(folder: Path) -> Lock:
    """Makes the output of `cargo metadata` for a large graph."""
    path = folder / "metadata.json"
    return Lock("`cargo metadata`", path, files.write_metadata(path, world_of(20000, SEED)))


MAKERS = (of_npm, of_overrides, of_yarn_1, of_yarn_4, of_pnpm, of_cargo, of_metadata)


# For each lock file the file that is changed, and how: ten versions, or what requires them.
CHANGES = {
    "package-lock.json": ("package-lock.json", rb'(\n      "version": ")[^"]+'),
    "yarn.lock": ("yarn.lock", rb'(\n  version:? "?)[0-9.]+'),
    "pnpm-lock.yaml": ("pnpm-lock.yaml", rb"(\n        version: )[0-9.]+"),
    "Cargo.lock": ("Cargo.toml", rb'(-[0-9]+ = ")[^"]+'),
    "metadata.json": ("metadata.json", rb'("req":")[^"]+'),
}
FORMATS = ("text", "tsv", "json", "github", "sarif")


def change(path: Path) -> None:
    """Changes a lock file, so that it has versions that don't satisfy what is required."""
    name, pattern = CHANGES[path.name]
    changed = path.with_name(name)
    changed.write_bytes(re.sub(pattern, rb"\g<1>0.0.1", changed.read_bytes(), count=10))


def run(
    program: str, path: Path, options: Sequence[str] = (), wanted: int = 0
) -> Optional[Tuple[float, float]]:
    """Returns the CPU seconds and the megabytes of one run of a program, which has to list nothing,
    or something; None if it doesn't have the options."""
    command = [program, *options, str(path)]
    child = subprocess.Popen(command, stdout=subprocess.PIPE, stderr=subprocess.DEVNULL)
    assert child.stdout is not None
    listed = child.stdout.read()
    _, status, usage = os.wait4(child.pid, 0)
    seconds = usage.ru_utime + usage.ru_stime
    if options and os.waitstatus_to_exitcode(status) == 2:
        return None
    if os.waitstatus_to_exitcode(status) != wanted or bool(listed) != bool(wanted):
        sys.exit(f"{program} {path.name}: status {status}: {listed[:300].decode()}")
    return seconds, usage.ru_maxrss / 1000


def cells_of(program: str, path: Path, options: Sequence[str] = (), wanted: int = 0) -> str:
    """Returns the cells of a program: the seconds of its best run, and the most megabytes."""
    runs = [it for _ in range(RUNS) if (it := run(program, path, options, wanted)) is not None]
    if not runs:
        return " - | - |"
    seconds, megabytes = min(it[0] for it in runs), max(it[1] for it in runs)
    return f" {seconds:.1f} | {megabytes:,.0f} |"


def main(checkouts: List[str]) -> None:
    """Prints the tables."""
    programs = [f"{checkout}/python/bin/check-lock-file" for checkout in checkouts]
    with tempfile.TemporaryDirectory() as top:
        locks = print_right(programs, Path(top))
        print_by_format(programs, locks)
        print_hostile(programs, Path(top))


def apart(function: Callable[[Path], Value], path: Path) -> Value:
    """Calls a function in another process, since a program begins with as much memory as the
    process that starts it."""
    with Pool(1) as other_process:
        return other_process.apply(function, (path,))


def made(make: Callable[[Path], Lock], folder: Path) -> Lock:
    """Returns a lock file that is made in a directory."""
    folder.mkdir()
    return apart(make, folder)


def print_head(first: str, programs: List[str]) -> None:
    """Prints the head of a table."""
    columns = first.count("|") - 1
    print("\n" + first + " s | MB of memory |" * len(programs))
    print("|" + "---|" * columns + "---|---|" * len(programs), flush=True)


def print_right(programs: List[str], top: Path) -> List[Lock]:
    """Prints the table of files in which nothing is wrong. Returns the files."""
    print_head("| file | packages | MB |", programs)
    locks = []
    for number, make in enumerate(MAKERS):
        lock = made(make, top / str(number))
        locks.append(lock)
        size = lock.path.stat().st_size / 1e6
        print(f"| {lock.what} | {lock.packages:,} | {size:.1f} |", end="", flush=True)
        for program in programs:
            print(cells_of(program, lock.path), end="", flush=True)
        print()
    return locks


def print_by_format(programs: List[str], locks: List[Lock]) -> None:
    """Prints the table of the same files with something wrong, by format."""
    print_head("| file, ten versions wrong | format |", programs)
    for lock in locks:
        apart(change, lock.path)
        for name in FORMATS:
            print(f"| {lock.what} | {name} |", end="", flush=True)
            for program in programs:
                print(cells_of(program, lock.path, ("--format", name), 1), end="", flush=True)
            print()


def print_hostile(programs: List[str], top: Path) -> None:
    """Prints the table of files that are made to take long."""
    print_head("| file | MB |", programs)
    for what, make in hostile.MAKERS:
        folder = top / what.replace(" ", "-")
        folder.mkdir()
        path, wanted = make(folder)
        size = sum(it.stat().st_size for it in folder.iterdir()) / 1e6
        print(f"| {what} | {size:.1f} |", end="", flush=True)
        for program in programs:
            print(cells_of(program, path, wanted=wanted), end="", flush=True)
        print()


main(sys.argv[1:])
