"""Raises a requirement to a newer version, and keeps how it is written, by `semver_parser`.

    python3 raise_requirement.py '~1.2 || ^2.0' 3.1.4 [DIALECT]

prints `~1.2 || ^2.0 || ^3.1`. A range that has this version or a higher one is printed as it is.
DIALECT is `npm`, the default, `cargo`, `crate-npm` or `crate-cargo`.

The status is 0 if the range that is printed has the version or a higher one. It is 1 if the
requirement can't be raised, such as `1.x` to 2.0.0-rc.1, and 2 if an argument is invalid.
"""

import sys

from semver_parser import Dialect, UpgradeError, upgrade


def main() -> int:
    """Prints the range that the arguments ask for, and returns the status."""
    if len(sys.argv) not in (3, 4):
        usage = "raise_requirement.py RANGE VERSION [npm|cargo|crate-npm|crate-cargo]"
        print(f"usage: {usage}", file=sys.stderr)
        return 2
    range, version, name = [*sys.argv[1:], "npm"][:3]
    try:
        raised = upgrade(range, version, dialect=Dialect(name))
    except ValueError as error:  # of the dialect, the version or the range
        print(error, file=sys.stderr)
        return 1 if isinstance(error, UpgradeError) else 2
    print(range if raised is None else raised)
    return 0


if __name__ == "__main__":
    sys.exit(main())
