"""Raises requirements by the Python package: the same as by-rust.rs without an argument."""

import sys

from semver_parser import Dialect, RangeError, UpgradeError, VersionError, upgrade


def result(range: str, version: str, dialect: str) -> str:
    """Returns what is written for a case."""
    try:
        found = upgrade(range, version, dialect=Dialect(dialect))
    except VersionError:
        return "!version"
    except RangeError:
        return "!range"
    except UpgradeError:
        return "!cannot"
    return "!none" if found is None else found


fields = sys.stdin.buffer.read().decode().split("\0")[:-1]
for case in zip(fields[::3], fields[1::3], fields[2::3]):
    sys.stdout.buffer.write(f"{result(*case)}\0".encode())
