"""The program `compare-requirements`, which prints what the changed requirements of a manifest lose
and gain.

docs/manual/compare-requirements.1.md describes the lines. The library is loaded only if
something is compared.
"""

import sys

from .program import Misuse, Options, Outcome, Program, run

PAGE = """\
usage: compare-requirements [OPTION]... OLD NEW
       compare-requirements [OPTION]... --git REV[..REV] PATH
       compare-requirements [OPTION]... --git REV REV PATH

Prints what changed between two manifests, which are package.json,
pnpm-workspace.yaml or Cargo.toml files, or between all manifests below two
directories. There is a line for each requirement, override, patch, engine and
feature that was added, removed, moved or changed. Below a changed requirement
are the versions that it loses, gains and shares, printed as by compare-ranges.
Ranges are read as npm or Cargo reads them. Cargo.toml needs Python 3.11, and
pnpm-workspace.yaml needs PyYAML.

As OLD or NEW, - is standard input.

    --git             compare PATH, a file or a directory, in the first revision
                      with PATH in the second one, or in the work tree if only
                      one is given
    --fail-on CHANGE  exit with 1 only if versions are lost, gained, or if
                      something differs: lost, gained or any (the default)
    --json            print the changes as a list of objects
    --version         print the version
    -h, --help        print this
    --                end the options

The status is 0 if all requirements contain the same versions as before and none
moved, 1 if something differs that --fail-on names, and 2 after an error, which
standard error reports."""


def compare(options: Options) -> Outcome:
    """Prints what changed."""
    from .comparing import compare

    return compare(options)


def refuse(options: Options) -> None:
    """Raises `Misuse` if the number of files is wrong, or both are standard input."""
    count = len(options.files)
    if "--git" in options.given and count not in (1, 2):
        raise Misuse(f"--git REV needs a PATH, or a second REV and a PATH, and {given(count)}")
    if "--git" not in options.given and count != 2:
        raise Misuse(f"without --git, OLD and NEW are needed, and {given(count)}")
    if options.files == ["-", "-"]:
        raise Misuse("two files are standard input")


def given(count: int) -> str:
    """Returns how many arguments are given, in words."""
    return f"{count or 'none'} {'is' if count < 2 else 'are'} given"


PROGRAM = Program(
    "compare-requirements",
    PAGE,
    {"--json": False, "--git": True, "--fail-on": True},
    refuse,
    compare,
)


def main() -> int:
    """Runs the program on its arguments, and returns its status."""
    return run(PROGRAM, sys.argv[1:])
