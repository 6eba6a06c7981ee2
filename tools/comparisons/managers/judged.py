"""Has npm, yarn 1 and Cargo judge the projects in python/cases/judged: judged.py [--as-written]
[CASE]...

For each case, the tool's frozen install has to end as the table there says, and check-lock-file has
to agree, unless DIFFERENCES.md of the checkers names the case as a known difference. If
check-lock-file proposes a command, it is run, and has to repair the project.

With `--as-written`, the tool writes each lock file anew. If it accepts that, check-lock-file may
list nothing, unless it does so for the case itself by a known difference.
"""

import json
import os
import re
import shutil
import subprocess
import sys
import tempfile
from pathlib import Path
from typing import Dict, Iterator, List, NamedTuple, Tuple

from differences import TOP
from projects import environment
from registry import Registry
from semver_parser.checks.discovery import discover
from semver_parser.checks.model import Scope
from semver_parser.checks.repairs import command_for
from semver_parser.checks.reports import Wanted, report_on

CASES = Path(TOP, "python", "cases", "judged")
DIFFERENCES = Path(TOP, "python", "semver_parser", "checks", "DIFFERENCES.md")
HERE, REPOSITORY = "http://registry.example", "http://git.example"
"""What stands for the URLs of the registry and of the git repository in the files of a case."""

AT = "2026-01-01T00:00:00Z"
"""The time of each commit of that repository, so that they are always the same."""

# The commands that write lock files, and the names of these.
WRITING = {
    "npm": ["npm", "install"],
    "yarn": ["yarn", "install"],
    "cargo": ["cargo", "generate-lockfile"],
}
LOCK_FILES = ("package-lock.json", "npm-shrinkwrap.json", "yarn.lock", "Cargo.lock")

WAITING = 300
ACCEPTS, REJECTS, NOT_RUN = "accepts", "rejects", "not-run"

QUIET = ["--ignore-scripts", "--no-audit", "--no-fund"]
QUIET_YARN = ["--non-interactive", "--no-progress", "--ignore-scripts"]
VENDORED = (
    '[source.crates-io]\nreplace-with = "made"\n[source.made]\ndirectory = "{}"\n'
)


class Case(NamedTuple):
    """A line of the table: the directory, the verdict of the tool, and the status of the checker."""

    name: str
    verdict: str
    status: int


def cases_in(table: Path) -> Iterator[Case]:
    """Yields the cases of the table."""
    for line in table.read_text().splitlines():
        if line and not line.startswith("#"):
            name, verdict, status = line.split()
            yield Case(name, verdict, int(status))


def put(name: str, folder: Path, registry: Registry) -> None:
    """Writes the project of a case to a directory, and has the registry serve its packages. In
    files named `.case` the name ends before that."""
    shutil.copytree(CASES / name, folder)
    repository = folder.parent / "git"
    for path in [it for it in folder.rglob("*") if it.is_file()]:
        text = path.read_text().replace(HERE, registry.url)
        path.write_text(text.replace(REPOSITORY, f"file://{repository}"))
        if path.suffix == ".case":
            path.rename(path.with_suffix(""))
    served = folder / "registry.json"
    registry.serve(json.loads(served.read_text()) if served.exists() else {})
    if (folder / "git").exists():
        put_commits(folder / "git", repository)
    if (folder / "Cargo.lock").exists():
        put_crates(folder)


def place_of(folder: Path) -> Path:
    """Returns the directory in which the frozen install of a project runs: the one that its file
    `where` names, or else that of the project."""
    named = folder / "where"
    return folder / named.read_text().strip() if named.exists() else folder


def put_commits(contents: Path, repository: Path) -> None:
    """Makes a git repository with a commit of the contents of each directory, in order, and removes
    these directories."""
    names = {"NAME": "judged", "EMAIL": "judged@example.org", "DATE": AT}
    who = {f"GIT_{each}_{key}": it for each in ("AUTHOR", "COMMITTER") for key, it in names.items()}

    def git(*arguments: str) -> None:
        command = ["git", "-C", str(repository), *arguments]
        subprocess.run(command, env={**os.environ, **who}, check=True)

    repository.mkdir()
    git("init", "--quiet", "--initial-branch=main", ".")
    for commit in sorted(contents.iterdir()):
        shutil.copytree(commit, repository, dirs_exist_ok=True)
        git("add", ".")
        git("commit", "--quiet", "--message", commit.name)
    shutil.rmtree(contents)


def put_crates(folder: Path) -> None:
    """Writes the crates of a case into a directory that Cargo uses instead of crates.io, and the
    sources of each package."""
    served, vendor = folder / "crates.json", folder.parent / "vendor"
    shutil.rmtree(vendor, ignore_errors=True)
    vendor.mkdir()
    for crate, text in (json.loads(served.read_text()) if served.exists() else {}).items():
        name, _, version = crate.partition(" ")
        at = vendor / f"{name}-{version}"
        at.mkdir()
        head = f'[package]\nname = "{name}"\nversion = "{version}"\n'
        (at / "Cargo.toml").write_text(head + text.replace("\\n", "\n"))
        (at / ".cargo-checksum.json").write_text(json.dumps({"files": {}}))
    for manifest in (*folder.rglob("Cargo.toml"), *vendor.rglob("Cargo.toml")):
        source = manifest.parent / "src"
        if "[package]" in manifest.read_text() and not source.exists():
            source.mkdir()
            (source / "lib.rs").write_text("")
            (manifest.parent / "build.rs").write_text("fn main() {}\n")
    home = folder.parent / "home"
    home.mkdir(exist_ok=True)
    (home / "config.toml").write_text(VENDORED.format(vendor))


class Tools:
    """The tools, with a registry, and with their caches below a directory."""

    def __init__(self, top: Path, registry: Registry) -> None:
        self.top, self.registry = top, registry

    def frozen(self, folder: Path) -> List[str]:
        """Returns the frozen install of the tool whose lock file is in a directory; nothing for a
        tool that isn't run."""
        if (folder / "package-lock.json").exists() or (folder / "npm-shrinkwrap.json").exists():
            return ["npm", "ci"]
        if (folder / "yarn.lock").exists():
            return ["yarn", "install", "--frozen-lockfile"]
        return ["cargo", "build", "--locked"] if (folder / "Cargo.lock").exists() else []

    def run(self, command: List[str], folder: Path) -> Tuple[bool, str]:
        """Runs a command of a tool. Returns whether it succeeds, and what it prints."""
        program, *arguments = command
        registry, more = f"--registry={self.registry.url}", []
        if program == "npm":
            more = [*QUIET, registry]
        elif program == "yarn":
            program = "yarnpkg"
            more = [*QUIET_YARN, registry, f"--cache-folder={self.top}/yarn"]
        ended = subprocess.run(
            [program, *arguments, *more], cwd=folder, env=self.environment(), timeout=WAITING,
            stdin=subprocess.DEVNULL, capture_output=True, text=True, check=False,
        )  # fmt: skip
        return ended.returncode == 0, ended.stdout + ended.stderr

    def environment(self) -> Dict[str, str]:
        """Returns the environment for the tools, without anything of the user except where rustup
        has its toolchains."""
        kept = {it: os.environ[it] for it in ("RUSTUP_HOME",) if it in os.environ}
        kept.setdefault("RUSTUP_HOME", os.path.expanduser("~/.rustup"))
        return {**environment(self.top), **kept, "CARGO_HOME": str(self.top / "home")}


def status_at(folder: Path) -> Tuple[int, List[Tuple[Path, str]]]:
    """Returns the status of the checker for a directory, and the commands that it proposes, each
    with the directory to run it in."""
    os.chdir(folder)
    program = Path(TOP, "python", "bin", "check-lock-file")
    ended = subprocess.run([program, "--quiet"], capture_output=True, check=False)
    reports = [report_on(path, None, Wanted(Scope())) for path in discover(["."]).paths]
    commands = []
    for report in reports:
        report.listed = [it for it in report.findings if not it.excuse]
        command = None if report.refusal is not None else command_for(report)
        if command is not None:
            commands.append((folder / os.path.dirname(report.path), command))
    return ended.returncode, commands


def wrong_in(case: Case, folder: Path, tools: Tools, known: str) -> Iterator[str]:
    """Yields what is wrong about a case."""
    status, commands = status_at(folder)
    if status != case.status:
        yield f"check-lock-file exits with {status}, and not with {case.status}"
    place = place_of(folder)
    frozen = tools.frozen(place)
    if not frozen or case.verdict == NOT_RUN:
        return
    is_taken, printed = tools.run(frozen, place)
    if is_taken != (case.verdict == ACCEPTS):
        yield f"{' '.join(frozen)} {ACCEPTS if is_taken else REJECTS} it: {printed}"
    if is_taken != (status == 0) and not re.search(rf"judged/{re.escape(case.name)}\b", known):
        yield "check-lock-file disagrees, and DIFFERENCES.md doesn't say so"
    for where, command in commands:
        ends, printed = tools.run(command.split(), where)
        if not ends:
            yield f"{command} fails: {printed}"
        elif not tools.run(frozen, place)[0]:
            yield f"{' '.join(frozen)} rejects it after {command}"
        elif status_at(folder)[0]:
            yield f"check-lock-file lists something after {command}"


def wrong_as_written(case: Case, folder: Path, tools: Tools) -> Iterator[str]:
    """Yields what is wrong about the lock file that the tool of a case writes. A case for which the
    checker lists something although the tool accepts it is a row of that page, and stays one."""
    place, is_known = place_of(folder), case.verdict == ACCEPTS and case.status == 1
    frozen = tools.frozen(place)
    if not frozen or case.verdict == NOT_RUN:
        return
    for name in LOCK_FILES:
        (place / name).unlink(missing_ok=True)
    is_taken = tools.run(WRITING[frozen[0]], place)[0] and tools.run(frozen, place)[0]
    if is_taken and status_at(folder)[0] == 1 and not is_known:
        yield f"check-lock-file lists something in what {frozen[0]} wrote"


def main(names: List[str]) -> int:
    """Judges the cases with these names, or all. Returns 1 if something is wrong."""
    registry, known, failed = Registry(), DIFFERENCES.read_text(), 0
    is_written = "--as-written" in names
    names = [it for it in names if it != "--as-written"]
    for case in cases_in(CASES / "table"):
        if names and case.name not in names:
            continue
        with tempfile.TemporaryDirectory() as top:
            folder = Path(top, "project")
            put(case.name, folder, registry)
            tools = Tools(Path(top), registry)
            if is_written:
                wrong = list(wrong_as_written(case, folder, tools))
            else:
                wrong = list(wrong_in(case, folder, tools, known))
            os.chdir(TOP)
        right = "nothing new is listed as written" if is_written else "as the table says"
        print(f"{case.name}: {'; '.join(wrong) or right}", flush=True)
        failed += bool(wrong)
    return int(bool(failed))


if __name__ == "__main__":
    sys.exit(main(sys.argv[1:]))
