"""Tests of requirements that are raised."""

import pickle
import unittest
from typing import List, Optional, Tuple

from semver_parser import (
    Dialect,
    PreReleases,
    Range,
    RangeError,
    SemverError,
    String,
    UpgradeError,
    Version,
    VersionError,
    satisfies,
    upgrade,
)

# A range, a newer version, their dialect, and the raised range; None if there is nothing to do.
RAISED: List[Tuple[str, str, str, Optional[str]]] = [
    ("^1.2", "2.3.4", "npm", "^2.3"),
    ("^1.2", "2.3.4", "cargo", "^2.3"),
    ("~1.2 || ^2.0.0", "3.1.0", "npm", "~1.2 || ^2.0.0 || ^3.1.0"),
    ("^3", "2.0.0", "npm", None),
    ("^3", "2.0.0", "cargo", None),
    (">= 1.2 , < 2.0.0", "2.3.0", "cargo", ">= 1.2 , < 3.0.0"),
]


class Upgrades(unittest.TestCase):
    def test_raised(self) -> None:
        for string, version, dialect, wanted in RAISED:
            for range in (string, string.encode()):
                for newer in (version, version.encode(), Version.parse(version, dialect=dialect)):
                    with self.subTest(range=range, version=newer):
                        self.assertEqual(upgrade(range, newer, dialect=dialect), wanted)
            self.assertEqual(upgrade(string, version, dialect=Dialect(dialect)), wanted)

    def test_other_characters(self) -> None:
        """White space that npm reads is kept, and the raised range is a `str`."""
        for range in ("\u00a0^1.2\u3000", "\u00a0^1.2\u3000".encode()):
            self.assertEqual(upgrade(range, "2.3.4", dialect="npm"), "\u00a0^2.3\u3000")

    def test_pre_releases(self) -> None:
        """Without pre-releases no range can be raised to one. With all of them, `1.x` can be."""
        newer = "2.0.0-rc.1"
        with self.assertRaises(UpgradeError):
            upgrade("^1.2", newer, dialect="npm", pre_releases="excluded")
        for rule in ("included", PreReleases.INCLUDED):
            raised = upgrade("1.x", newer, dialect="npm", pre_releases=rule)
            assert raised is not None
            self.assertTrue(satisfies(newer, raised, dialect="npm", pre_releases=rule))
        with self.assertRaisesRegex(ValueError, "^pre_releases is one of .*, not 'all'$"):
            upgrade("^1", newer, dialect="npm", pre_releases="all")  # type: ignore[arg-type]

    def test_cannot_upgrade(self) -> None:
        ranges: List[String] = ["1.x", b"1.x"]
        for range in ranges:
            with self.assertRaises(UpgradeError) as caught:
                upgrade(range, Version.parse("2.0.0-rc.1", dialect="npm"), dialect="npm")
            error = caught.exception
            self.assertIsInstance(error, ValueError)
            self.assertNotIsInstance(error, SemverError)
            self.assertEqual((error.range, error.version), (range, "2.0.0-rc.1"))
            what = "the requirement can't be raised to this version"
            self.assertEqual(str(error), f'{what}: "1.x"')
            again = pickle.loads(pickle.dumps(error))
            self.assertEqual((type(again), again.args), (UpgradeError, error.args))
            self.assertEqual((again.range, again.version), (range, "2.0.0-rc.1"))

    def test_invalid(self) -> None:
        """The error of the version comes first."""
        for range in ("^1", "^^1", "1 || 2", b"\xff"):
            with self.assertRaises(VersionError) as of_version:
                upgrade(range, "1.2", dialect="cargo")
            self.assertEqual(of_version.exception.string, "1.2")
            self.assertEqual(of_version.exception.offset, 3)
        for invalid, offset in (("1 || 2", 2), ("^^1", 1), (b"1.\xff", 2), (">=" + "9" * 30, 2)):
            with self.assertRaises(RangeError) as of_range:
                upgrade(invalid, "3.0.0", dialect="cargo")
            self.assertEqual(of_range.exception.string, invalid)
            self.assertEqual(of_range.exception.offset, offset)
            self.assertIsNone(of_range.exception.index)

    def test_other_values(self) -> None:
        for wrong in (None, 1, bytearray(b"1"), Range("1", dialect="npm")):
            with self.assertRaises(TypeError):
                upgrade(wrong, "1.2.3", dialect="npm")  # type: ignore[arg-type]
            with self.assertRaises(TypeError):
                upgrade("1", wrong, dialect="npm")  # type: ignore[arg-type]
        with self.assertRaises(ValueError):
            upgrade("1", "2.0.0", dialect="yarn")  # type: ignore[arg-type]
