"""The `integrity` of archives in lock files of npm and yarn 1, as ssri reads it: checksums such as
`sha512-..`, of which there may be several, separated by blanks.

Whether a checksum is that of the archive isn't in the files, but whether it can be one is.
"""

import binascii
import re
from base64 import b64decode
from typing import Iterator, Optional

from ..findings import Finding, WrongChecksum
from ..model import Package

FIELD = "integrity"

# An algorithm, and the sum in base64.
SUM = re.compile(r"([a-z0-9]+)-([^?]+)")

# How many bytes the sum of each algorithm has, the weakest first. The strongest one counts.
LENGTHS = {
    "md5": 16, "whirlpool": 64, "sha1": 20, "sha224": 28, "sha256": 32, "sha384": 48, "sha512": 64,
}  # fmt: skip

# The beginning and the length of nearly all checksums.
USUAL, USUAL_LENGTH = "sha512-", 95

# The advice for a wrong checksum, which the tools keep.
ADVICE = "remove the entry from the lock file, and have the tool write it anew"


def is_usual(value: object) -> bool:
    """Returns whether a checksum has the form of nearly all."""
    return isinstance(value, str) and len(value) == USUAL_LENGTH and value.startswith(USUAL)


def integrity_findings(package: Package, value: object, has_to_be: bool) -> Iterator[Finding]:
    """Yields the finding about a package whose `integrity` can't be right. `has_to_be` says whether a
    text without any checksum is wrong, too."""
    if isinstance(value, str) and not may_be_right(value, has_to_be):
        yield WrongChecksum(package, "", f"the invalid integrity {value}").advised(ADVICE, False)


def may_be_right(text: str, has_to_be: bool) -> bool:
    """Returns whether an archive may have a checksum. Its algorithm has to be known."""
    if is_usual(text):
        return True
    found = (SUM.match(it) for it in text.split())
    sums = [it.groups() for it in found if it is not None]
    known = [name for name in LENGTHS if any(name == each for each, _ in sums)]
    if not known:
        return not sums and not has_to_be
    lengths = (length_of(digest) for name, digest in sums if name == known[-1])
    return LENGTHS[known[-1]] in lengths


def length_of(digest: str) -> Optional[int]:
    """Returns how many bytes a sum in base64 has; None if it is invalid."""
    try:
        return len(b64decode(digest, validate=True))
    except binascii.Error:
        return None
