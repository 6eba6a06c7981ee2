"""The program `check-lock-file`, which lists the versions of lock files that don't satisfy what is
required.

docs/manual/check-lock-file.1.md describes what it prints. The library is loaded only if
something is checked.
"""

import sys

from .program import Options, Outcome, Program, run

PAGE = """\
usage: check-lock-file [OPTION]... [PATH]...

Lists each version in a lock file that does not satisfy what is required, and
each required package that is missing. Versions and ranges are read as the tool
that wrote the file reads them.

PATH is a lock file, a directory, or a manifest such as package.json. In a
directory, every lock file that git does not ignore is checked; for a manifest,
its lock file. Without a PATH the current directory is checked. The PATH - is
standard input. The content of a file shows which tool wrote it:

    package-lock.json, npm-shrinkwrap.json    npm, lockfileVersion 1, 2 and 3
    yarn.lock                                 yarn 1 and later
    pnpm-lock.yaml                            pnpm, needs PyYAML
    bun.lock                                  Bun, lockfileVersion 0 and 1
    deno.lock                                 Deno, versions 4 and 5
    Cargo.lock                                with Cargo.toml, needs Python 3.11
    output of cargo metadata                  format version 1

    --format FORMAT      text:   a sentence for each finding (the default)
                         tsv:    fields separated by tabs: what is required, the
                                 version found, who requires which name, and the
                                 word of the kind unless it is unsatisfied
                         json:   one object with everything that is known
                         github: annotations of GitHub Actions
                         sarif:  SARIF 2.1.0, for GitHub's code scanning
    --json               short for --format json
    --allow FILE         leave out known findings; a line of FILE is a finding
                         as it is printed, then " # " and a reason
    --no-dev             leave out what is only for development
    --no-peers           leave out peers
    --package-json FILE  use this package.json instead of the one next to the
                         lock file of npm or yarn
    --strict             also list what is not checked, such as tags and URLs,
                         and packages that nothing requires
    --why                below each finding, print the path from the project
    --duplicates         also list packages in several versions, and ranges that
                         differ between workspaces; the status stays the same
    --color WHEN         color sentences: always, never, or auto (at a terminal)
    --quiet              print only findings and errors
    --version            print the version
    -h, --help           print this
    --                   end the options

On standard error, lines for each file say how much was checked, and how to
repair what is listed.
The status is 0 if nothing is listed, except by --duplicates, 1 if something
else is, and 2 after an error, which standard error reports."""


def check(options: Options) -> Outcome:
    """Checks the lock files that are named."""
    from .checking import check

    return check(options)


PROGRAM = Program(
    "check-lock-file",
    PAGE,
    {
        "--format": True,
        "--json": False,
        "--allow": True,
        "--no-dev": False,
        "--no-peers": False,
        "--package-json": True,
        "--strict": False,
        "--why": False,
        "--duplicates": False,
        "--color": True,
        "--quiet": False,
    },
    lambda options: None,
    check,
)


def main() -> int:
    """Runs the program on its arguments, and returns its status."""
    return run(PROGRAM, sys.argv[1:])
