"""Tests of ranges as sets: how two are combined and compared, and how they are printed, copied and
pickled."""

import copy
import gc
import os
import pickle
import subprocess
import sys
import unittest
from typing import Tuple

from semver_parser import (
    Comparators,
    Dialect,
    PreReleases,
    Range,
    RangeError,
    Version,
    VersionError,
)

NPM, CRATE = Dialect.NPM, Dialect.CRATE_CARGO
INCLUDED, EXCLUDED = PreReleases.INCLUDED, PreReleases.EXCLUDED

# A range, a dialect, a rule, and the releases and pre-releases that it contains.
PRINTED = [
    ("^1.2", Dialect.CARGO, EXCLUDED, ">=1.2.0 <2.0.0", "<0.0.0-0"),
    ("*", NPM, EXCLUDED, "*", "<0.0.0-0"),
    (">2 <1", NPM, INCLUDED, "<0.0.0-0", "<0.0.0-0"),
    (">1.2.3 <2.0.0-0", CRATE, INCLUDED, ">=1.2.4 <2.0.0", ">=1.2.4-0 <2.0.0-0"),
    ("=1.2.3-a || =2.0.0", CRATE, INCLUDED, "=2.0.0", "=1.2.3-a"),
]

# Two ranges of the crate, for releases only, and what is in one or the other, in both, and only in
# the first.
COMBINED = [
    (">=1.0.0 <1.5.0", ">=1.2.0 <2.0.0", ">=1.0.0 <2.0.0", ">=1.2.0 <1.5.0", ">=1.0.0 <1.2.0"),
    ("=1.2.3", "3.x", "=1.2.3 || >=3.0.0 <4.0.0", "<0.0.0-0", "=1.2.3"),
    ("*", ">=2.0.0", "*", ">=2.0.0", "<2.0.0"),
]

# Each of these ranges is a subset of all that come after it, and has fewer versions.
NESTED = ["<0.0.0", "=1.2.3", "~1.2.0", "^1.0.0", ">=1.0.0", "*"]


def releases_of(string: str) -> Range:
    return Range(string, dialect=CRATE, pre_releases=EXCLUDED)


def combinations() -> Tuple[Range, ...]:
    """Returns ranges that were combined from two."""
    one, other = Range("^1.2.3-rc", dialect="npm"), Range(">=1.4.0 || 3.x", dialect="npm")
    return (one | other, one & other, one - other, other - one, one - one)


class Combining(unittest.TestCase):
    def test_combines(self) -> None:
        for first, second, union, both, alone in COMBINED:
            a, b = releases_of(first), releases_of(second)
            made = (a | b, a & b, a - b)
            self.assertEqual([str(it) for it in made], [union, both, alone])
            self.assertEqual(list(made), [releases_of(it) for it in (union, both, alone)])
            self.assertEqual((b | a, b & a), made[:2])
            self.assertIs(a.isdisjoint(b), both == "<0.0.0-0")
            self.assertIs(b.isdisjoint(a), both == "<0.0.0-0")
            for it in made:
                self.assertEqual((it.dialect, it.pre_releases), (CRATE, EXCLUDED))
                self.assertIs(bool(it), str(it) != "<0.0.0-0")

    def test_compares(self) -> None:
        ranges = [releases_of(it) for it in NESTED]
        for at, one in enumerate(ranges):
            for after, other in enumerate(ranges):
                self.assertIs(one < other, at < after)
                self.assertIs(one <= other, at <= after)
                self.assertIs(one > other, at > after)
                self.assertIs(one >= other, at >= after)
                self.assertIs(one == other, at == after)
        one, other = releases_of("^1.0.0"), releases_of("^2.0.0")
        self.assertFalse(one < other or one <= other or one > other or one >= other)

    def test_equal(self) -> None:
        first, second = releases_of(">=1.0.0 <2.0.0 || >=2.0.0 <3.0.0"), releases_of(">=1 <3.0.0")
        self.assertEqual((first, hash(first)), (second, hash(second)))
        self.assertTrue(first <= second and second <= first)
        self.assertFalse(first < second or first > second)
        for other in ("1", None, 1, first.comparators):
            self.assertNotEqual(first, other)
        self.assertTrue(first)
        self.assertFalse(first - second)
        self.assertEqual(len({first, second, releases_of("1.x")}), 2)

    def test_options_are_part_of_equality(self) -> None:
        """So equal ranges return the same: `v1.2.3` is a version only in npm's dialect."""
        made = [
            Range("^1.2.3", dialect=dialect, pre_releases=rule)
            for dialect in Dialect
            for rule in PreReleases
        ]
        self.assertEqual(len(set(made)), 12)
        for at, one in enumerate(made):
            for after, other in enumerate(made):
                self.assertIs(one == other, at == after)
                self.assertIs(pickle.loads(pickle.dumps(one)) == other, at == after)
                if at != after:
                    self.check_refusals(one, other)

    def check_refusals(self, one: Range, other: Range) -> None:
        """Two ranges with different options aren't combined, and the error says what differs."""
        different = "dialects" if one.dialect != other.dialect else "rules for pre-releases"
        message = f"^the ranges have different {different}: dialect='"
        for call in (
            lambda: one | other,
            lambda: one & other,
            lambda: one - other,
            lambda: one <= other,
            lambda: one < other,
            lambda: one >= other,
            lambda: one > other,
            lambda: one.isdisjoint(other),
        ):
            with self.assertRaisesRegex(ValueError, message):
                call()

    def test_other_types(self) -> None:
        one = Range("1", dialect="npm")
        for other in ("1", None, 1, one.comparators):
            for call in (
                lambda: one | other,
                lambda: one & other,
                lambda: one - other,
                lambda: one <= other,
                lambda: one < other,
                lambda: one >= other,
                lambda: one > other,
                lambda: one.isdisjoint(other),
            ):
                with self.assertRaises(TypeError):
                    call()
        for wrong in (None, 1, bytearray(b"1"), Version(1, 2, 3), one):
            with self.assertRaises(TypeError):
                Range(wrong, dialect="npm")
        with self.assertRaises(RangeError):
            Range("v1.2.3", dialect="cargo")

    def test_combined_ranges_contain(self) -> None:
        both = Range("^1.2.0", dialect="npm") & Range(">=1.4.0", dialect="npm")
        self.assertIn("v1.9.0", both)
        self.assertNotIn("1.2.0", both)
        self.assertEqual(both, Range(">=1.4.0 <2.0.0", dialect="npm"))
        self.assertEqual(both.filter(["1.3.0", "1.4.0", "2.0.0"]), ["1.4.0"])
        self.assertEqual(both.highest(["1.5.0", "1.4.0", "2.0.0"]), "1.5.0")


class Containing(unittest.TestCase):
    def test_contains(self) -> None:
        made = Range("^1.2.3-rc.2", dialect="npm")
        for version, wanted in [
            ("1.2.3-rc.10+b", True),
            (" v1.9.0", True),
            (b"1.2.3-rc.1", False),
            ("1.3.0-rc", False),
            (Version.parse("1.2.3-rc.2", dialect="npm"), True),
        ]:
            self.assertIs(version in made, wanted)
        with self.assertRaises(VersionError) as caught:
            "1.2" in made
        self.assertEqual(caught.exception.reason, "not-three-numbers")

    def test_long(self) -> None:
        string = " || ".join(f"={at}.0.0-{'a' * 50}{at}" for at in range(40))
        made = Range(string, dialect=CRATE)
        self.assertEqual(made.printed_pre_releases, string)
        self.assertIn(f"39.0.0-{'a' * 50}39", made)

    def test_is_no_container_of_other_things(self) -> None:
        made = Range("*", dialect="npm")
        for call in (iter, len, list):
            with self.assertRaises(TypeError):
                call(made)


class Printing(unittest.TestCase):
    def test_prints(self) -> None:
        for string, dialect, rule, releases, pre_releases in PRINTED:
            made = Range(string, dialect=dialect, pre_releases=rule)
            printed = (made.printed_releases, made.printed_pre_releases)
            self.assertEqual(printed, (releases, pre_releases))

    def test_requirements(self) -> None:
        """A requirement reads back, with the options of the range, as an equal range."""
        options = [(dialect, rule) for dialect in Dialect for rule in PreReleases]
        for dialect, rule in options:
            for string in ("*", "^1.2.3-rc.1", "=1.2.3", ">2, <1", ">2 <1", "1 || 3", ">=0.0.0-0"):
                try:
                    range = Range(string, dialect=dialect, pre_releases=rule)
                except RangeError:
                    continue
                for it in (range, range - Range("~1.5", dialect=dialect, pre_releases=rule)):
                    requirement = it.to_requirement()
                    if requirement is not None:
                        again = Range(requirement, dialect=dialect, pre_releases=rule)
                        self.assertEqual(again, it, requirement)
        # npm has a syntax for a range with a gap, and Cargo has none.
        for dialect, has_one in ((NPM, True), (Dialect.CARGO, False)):
            parts = Range("^1.2", dialect=dialect) - Range("~1.5", dialect=dialect)
            self.assertEqual(parts.to_requirement() is not None, has_one)
        old = Range("^1.2.3-rc.1", dialect="cargo")
        both = old & Range("<1.9", dialect="cargo")
        self.assertEqual(both.to_requirement(), ">=1.2.3, <1.9.0")
        self.assertEqual(pickle.loads(pickle.dumps(both)).to_requirement(), ">=1.2.3, <1.9.0")

    def test_string(self) -> None:
        for string in ("^1.2", " 1.x  ||2 ", "=1.2.3-a"):
            for made in (Range(string, dialect="npm"), Range(string.encode(), dialect="npm")):
                self.assertEqual((str(made), made.string), (string, string))
        self.assertEqual(Range("\u00a01".encode(), dialect="npm").string, "\u00a01")
        one = Range("=1.2.3-a", dialect=CRATE)
        self.assertEqual(str(one & one), "pre-releases =1.2.3-a")
        self.assertEqual(str(one - one), "<0.0.0-0")
        self.assertIsNone((one & one).string)
        # The comparators of Cargo's dialect are separated by commas.
        one, other = Range("^1.2.3-b", dialect="cargo"), Range("1.4.2", dialect="cargo")
        self.assertEqual(str(one & one), ">=1.2.3, <2.0.0, pre-releases >=1.2.3-b, <1.2.3")
        self.assertEqual(str(Range("*", dialect="cargo") - other), "<1.4.2 || >=2.0.0")

    def test_formats(self) -> None:
        one = Range("^1.2", dialect="npm")
        self.assertEqual(f"{one:>6}|{one:<6}|{one}", "  ^1.2|^1.2  |^1.2")
        self.assertEqual(f"{one & one:*^18}", "**>=1.2.0 <2.0.0**")
        self.assertEqual(f"{one.comparators:>18}", "  >=1.2.0 <2.0.0-0")
        self.assertEqual(f"{one.comparators[0][0]:>9}", "  >=1.2.0")

    def test_repr(self) -> None:
        for made, wanted in (
            (Range("^1", dialect=NPM), "Range('^1', dialect='npm')"),
            (Range(b"1", dialect="cargo"), "Range('1', dialect='cargo')"),
            (
                Range("1 - 2", dialect="crate-npm", pre_releases="included"),
                "Range('1 - 2', dialect='crate-npm', pre_releases='included')",
            ),
        ):
            self.assertEqual(repr(made), wanted)
            self.assertEqual(eval(repr(made)), made)
        for dialect in Dialect:
            for rule in PreReleases:
                for string in ("^1.2", "=1.2.3-a", "*", ">=1.2.3-a"):
                    one = Range(string, dialect=dialect, pre_releases=rule)
                    self.check_repr(one & one)

    def check_repr(self, made: Range) -> None:
        """The result is an expression for the range, or something else between `<` and `>`."""
        if repr(made).startswith("<"):
            self.assertEqual(repr(made)[: len("<Range '")], "<Range '")
        else:
            self.assertEqual(eval(repr(made)), made)

    def test_repr_of_combined(self) -> None:
        one, other = Range("^1.2.0", dialect="npm"), Range(">=1.4.0", dialect="npm")
        self.assertEqual(repr(one & other), "Range('>=1.4.0 <2.0.0', dialect='npm')")
        one, other = Range("^1.2.0", dialect="cargo"), Range(">=1.4.0", dialect="cargo")
        self.assertEqual(repr(one & other), "Range('>=1.4.0, <2.0.0', dialect='cargo')")
        one = Range("=1.2.3-a", dialect="npm")
        self.assertEqual(repr(one & one), "Range('=1.2.3-a', dialect='npm')")
        one, other = Range("^1", dialect="cargo"), Range("=1.5.0", dialect="cargo")
        wanted = "<Range '>=1.0.0, <1.5.0 || >=1.5.1, <2.0.0', dialect='cargo'>"
        self.assertEqual(repr(one - other), wanted)

    def test_comparators(self) -> None:
        """The comparators of a combined range are those of its releases."""
        cargo = Range("^1.2", dialect="cargo") - Range("=1.4.2", dialect="cargo")
        self.assertEqual(str(cargo.comparators), ">=1.2.0 <1.4.2 || >=1.4.3 <2.0.0")
        npm = Range("*", dialect="npm")
        self.assertEqual(str((npm & npm).comparators), ">=0.0.0")
        self.assertIsInstance((npm - npm).comparators, Comparators)


class Keeping(unittest.TestCase):
    """Ranges as values, and the memory of their sets."""

    def test_pickles(self) -> None:
        made = Range("^1.2.3-rc || 2.x", dialect="npm", pre_releases="included")
        for protocol in range(pickle.HIGHEST_PROTOCOL + 1):
            for one in (made, *combinations()):
                again = pickle.loads(pickle.dumps(one, protocol))
                self.assertEqual((again, hash(again)), (one, hash(one)))
                self.assertEqual((str(again), repr(again)), (str(one), repr(one)))
                self.assertEqual(again.dialect, one.dialect)
                self.assertEqual(again.pre_releases, one.pre_releases)
                self.assertEqual(again.lowest_version, one.lowest_version)

    def test_pickles_of_this_version(self) -> None:
        """A pickle that was written before can still be loaded: it names public classes and a
        function."""
        stored = (
            b"csemver_parser\n_unpickled_range\n"
            b"(Vnpm\nVby-dialect\n(V^1.2\nV>=1.4.0\n(V&\nI0\nI1\ntttR."
        )
        one, other = Range("^1.2", dialect="npm"), Range(">=1.4.0", dialect="npm")
        self.assertEqual(pickle.loads(stored), one & other)
        self.assertEqual(str(pickle.loads(stored)), ">=1.4.0 <2.0.0")
        for named in (one & other, Version(1, 2, 3), one.comparators, Dialect.NPM):
            pickled = pickle.dumps(named, 0).decode("ascii")
            self.assertIn("csemver_parser\n", pickled)
            self.assertNotIn("semver_parser._", pickled)

    def test_pickles_of_many(self) -> None:
        """Many combinations, some of which are used again and again."""
        made = Range("=0.0.0", dialect="cargo")
        for at in range(1, 3000):
            made = made | Range(f"={at}.0.0", dialect="cargo")
        self.assertEqual(pickle.loads(pickle.dumps(made)), made)
        for _ in range(60):
            made = made & (made - Range("=7.0.0", dialect="cargo")) | made
        again = pickle.loads(pickle.dumps(made))
        self.assertEqual((again, "7.0.0" in again), (made, True))

    def test_other_pickles(self) -> None:
        load, arguments = Range("^1.2", dialect="npm").__reduce__()
        self.assertEqual(str(load(*arguments)), "^1.2")
        for wrong in (("npm", "by-dialect", ("v",)), ("nmp", "by-dialect", ("1",))):
            with self.assertRaises(ValueError):
                load(*wrong)

    def test_copies(self) -> None:
        for one in (Range("^1", dialect="npm"), *combinations()):
            for again in (copy.copy(one), copy.deepcopy(one), copy.deepcopy([one])[0]):
                self.assertIs(again, one)
        with self.assertRaises(TypeError):
            pickle.dumps(one._handle)
        with self.assertRaises(TypeError):
            copy.copy(one._handle)

    def test_immutable(self) -> None:
        made = Range("^1", dialect="npm")
        names = ("dialect", "pre_releases", "string", "lowest_version", "comparators", "another")
        for name in names:
            with self.assertRaises(AttributeError):
                setattr(made, name, None)
        made.__init__("^2", dialect="cargo")
        self.assertEqual(repr(made), "Range('^1', dialect='npm')")

    def test_memory_is_freed(self) -> None:
        """The memory of this process doesn't grow by ranges that are no longer referenced."""
        string = " || ".join(f"={at}.0.0" for at in range(2000))

        def pages() -> int:
            with open("/proc/self/statm") as file:
                return int(file.read().split()[1])

        def make(count: int) -> None:
            for _ in range(count):
                one = Range(string, dialect="npm")
                self.assertTrue(pickle.loads(pickle.dumps(one & one)) and str(one - one))
                self.assertTrue(one.comparators)
                self.assertTrue(all(one.printed_releases for _ in range(20)))

        make(5)
        before = pages()
        make(60)
        self.assertLess(pages() - before, 2000)

    def test_out_of_memory(self) -> None:
        """A range that doesn't fit into memory."""
        self.check_run(
            "import resource\n"
            "from semver_parser import Range, crate_comparators\n"
            "string = ' || '.join(f'={at}.0.0' for at in range(300_000))\n"
            "size = int(open('/proc/self/statm').read().split()[0]) * resource.getpagesize()\n"
            "resource.setrlimit(resource.RLIMIT_AS, 2 * (size + 20_000_000,))\n"
            "for call in (Range, crate_comparators):\n"
            "    try: call(string, dialect='crate-npm')\n"
            "    except MemoryError: pass\n"
            "    else: print('too much memory')\n"
            "print('1.2.3' in Range('^1', dialect='npm'))\n"
        )

    def test_cycles(self) -> None:
        """A range that is in a reference cycle can be used in the finalizer that ends the cycle."""
        said = []

        class InCycle:
            def __init__(self) -> None:
                self.itself, self.range = self, Range("^1", dialect="npm")

            def __del__(self) -> None:
                said.append("1.2.3" in self.range and str(self.range.lowest_version))

        for _ in range(20):
            InCycle()
        gc.collect()
        self.assertEqual(said, 20 * ["1.0.0"])

    def check_run(self, code: str) -> None:
        """Checks that a program ends without an error."""
        ended = subprocess.run([sys.executable, "-c", code], capture_output=True, text=True)
        self.assertEqual((ended.stdout, ended.stderr, ended.returncode), ("True\n", "", 0))

    def test_end_of_the_interpreter(self) -> None:
        """Ranges can be used there, and are freed without an error."""
        self.check_run(
            "import atexit, sys\n"
            "from semver_parser import Range\n"
            "class Late:\n"
            "    def __init__(self):\n"
            "        self.itself, self.range = self, Range('^1', dialect='npm')\n"
            "    def __del__(self):\n"
            "        assert '1.2.3' in self.range and self.range & self.range\n"
            "kept = [Range('^1', dialect='npm'), Late()]\n"
            "kept.append(kept)\n"
            "sys.kept = [Range('^2', dialect='npm'), Late()]\n"
            "atexit.register(lambda one: print('1.2.3' in one), kept[0])\n"
        )

    def test_end_while_threads_run(self) -> None:
        self.check_run(
            "import threading, time\n"
            "from semver_parser import Range\n"
            "def run():\n"
            "    while True: Range('^1', dialect='npm').filter(['1.2.3'] * 100)\n"
            "for _ in range(4): threading.Thread(target=run, daemon=True).start()\n"
            "time.sleep(0.1)\n"
            "print(True)\n"
        )

    def test_fork(self) -> None:
        """Each of two processes has its own set, and frees it."""
        made = Range("^1.2", dialect="npm")
        child = os.fork()
        if child == 0:
            status = 1
            try:
                both = made & Range(">=1.4.0", dialect="npm")
                is_right = "1.9.0" in made and both.filter(["1.3.0", "1.4.0"]) == ["1.4.0"]
                del both, made
                gc.collect()
                status = int(not is_right)
            finally:
                os._exit(status)
        _, status = os.waitpid(child, 0)
        self.assertEqual(status, 0)
        self.assertIn("1.9.0", made)
        del made
        gc.collect()
