"""Checks lines of a range, a tab and a version, from standard input, by `semver_parser`.

    printf '^1.2.0\\t1.4.0\\n^1.2.0\\t2.0.0\\n' | python3 check_ranges.py [DIALECT]

It prints each line whose version doesn't satisfy its range, and reports on standard error each line
that is invalid. What follows another tab is ignored, and printed with its line.

DIALECT is `npm`, the default, or `cargo`, with the pre-releases that the tool matches by default;
or `crate-npm` or `crate-cargo`, those of the Rust crate semver-parser, with each pre-release within
the bounds: 1.3.0-rc satisfies `^1.2.0`, and 2.0.0-rc doesn't. The status is 0 if all lines hold, 1
if one doesn't, and 2 if one is invalid.
"""

import sys

from semver_parser import Dialect, PreReleases, RangeError, VersionError, satisfies

DIALECTS = {
    "npm": (Dialect.NPM, PreReleases.BY_DIALECT),
    "cargo": (Dialect.CARGO, PreReleases.BY_DIALECT),
    "crate-npm": (Dialect.CRATE_NPM, PreReleases.INCLUDED),
    "crate-cargo": (Dialect.CRATE_CARGO, PreReleases.INCLUDED),
}


def check(line: bytes, number: int, dialect: Dialect, pre_releases: PreReleases) -> int:
    """Returns the status of a line."""
    range, tab, after = line.partition(b"\t")
    if not tab:
        print(f"line {number}: no tab", file=sys.stderr)
        return 2
    version = after.split(b"\t")[0]
    try:
        if satisfies(version, range, dialect=dialect, pre_releases=pre_releases):
            return 0
    except (RangeError, VersionError) as error:
        print(f"line {number}: {error}", file=sys.stderr)
        return 2
    sys.stdout.buffer.write(line + b"\n")
    return 1


name, *more = sys.argv[1:] or ["npm"]
if more or name not in DIALECTS:
    print("usage: check_ranges.py [npm|cargo|crate-npm|crate-cargo] < lines", file=sys.stderr)
    sys.exit(2)
lines = enumerate(sys.stdin.buffer, 1)
statuses = (check(line.rstrip(b"\n"), number, *DIALECTS[name]) for number, line in lines)
sys.exit(max(statuses, default=0))
