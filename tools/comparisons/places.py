"""Compares the offsets that compare-ranges reports with brute force: places.py CASES PROGRAM
LENGTH.

CASES is the program `layers` of rust/tests, which determines whether a text is a range, and PROGRAM is the
built `compare-ranges`. This tests each text of up to LENGTH of the characters below that isn't a
range. The offset has to be the length of the longest prefix with which some range of up to LENGTH +
2 of these characters begins; it is reported as the end of the text if that is the whole text. The
dialects are Cargo's, npm's, and the crate's in npm mode. Prints any difference, and exits.
"""

import re
import subprocess
import sys
from itertools import product
from multiprocessing import Pool

CHARACTERS = "1.-*>|,va "
# The call that reads a text, and what it returns if the text isn't a range.
CALLS = {
    "cargo": ("rewritten-as-cargo", "not-a-range"),
    "npm": ("rewritten-as-npm", "not-a-range"),
    "crate-npm": ("npm-exact", "not a range"),
}
LIMITS = {"cargo": 2**64 - 1, "npm": 2**53 - 1, "crate-npm": 2**64 - 1}
# What is between two terms. In a hyphen range the terms have no operator: they stand for `>=` and
# `<=`.
HYPHEN = "  - "
BETWEEN = {"cargo": (",", "  , "), "npm": (" ", "\u00a0|| ", HYPHEN), "crate-npm": ("  ", "||", HYPHEN)}
AT_THE_END = re.compile(r"at the end(: .*)?$")
AT_AN_OFFSET = re.compile(r"at offset (\d+)(: .*)?$")


def texts(length):
    """Returns all texts with this many of the characters."""
    return ["".join(characters) for characters in product(CHARACTERS, repeat=length)]


def ranges(cases, dialect, of):
    """Returns the texts that are ranges."""
    call, refusal = CALLS[dialect]
    asked = "".join(f"-\t{call}\t{text}\n" for text in of)
    ran = subprocess.run([cases], input=asked, capture_output=True, text=True, check=True)
    answered = ran.stdout.split("\n")
    assert len(answered) == len(of) + 1
    return [text for text, answer in zip(of, answered) if answer != f"-: {refusal}"]


def refusals(cases, dialect, of):
    """Returns the result for each text."""
    call = CALLS[dialect][0]
    ran = subprocess.run([cases], input="".join(f"-\t{call}\t{text}\n" for text in of), capture_output=True, text=True, check=True)
    return dict(zip(of, ran.stdout.split("\n")))


def pairs(dialect):
    """Yields pairs of terms: the text, the offset in bytes of the number in each term that may be
    too large, and each term by itself."""
    words = [("x", 0), ("*", 0)]
    for n in (1, LIMITS[dialect], LIMITS[dialect] + 1):
        words += [(f"{n}", 0), (f"{n}.2", 0), (f"1.{n}", 2), (f"1.2.{n}", 4), (f"{n}.x", 0), (f"{n}.0.0-a.1+b", 0)]
    terms = [(sign + word, len(sign) + at) for sign in ("", "=", "<= ", ">", "~", "^ ") for word, at in words]
    for between in BETWEEN[dialect]:
        of = words if between == HYPHEN else terms
        for (first, of_first), (second, of_second) in product(of, of):
            alone = (f">={first}", f"<={second}") if between == HYPHEN else (first, second)
            yield first + between + second, (of_first, len((first + between).encode()) + of_second), alone


def too_large(cases, program, pool):
    """Compares the offsets of numbers that are too large. A term with a wildcard in Cargo's dialect
    may be valid by itself."""
    for dialect in CALLS:
        made = list(pairs(dialect))
        alone = refusals(cases, dialect, sorted({term for _, _, both in made for term in both}))
        whole = refusals(cases, dialect, [text for text, _, _ in made])
        asked = [(text, numbers, both) for text, numbers, both in made if "too" in whole[text]]
        places = pool.starmap(named, [(program, dialect, text) for text, _, _ in asked], chunksize=100)
        for (text, numbers, both), place in zip(asked, places):
            at = next(at for at, term in zip(numbers, both) if "too" in alone[term])
            if place != at:
                sys.exit(f"differ: {text!r} as {dialect}: {at}, but the program reports {place}")
        print(f"{len(asked)} texts as {dialect} with a number that is too large: no difference")


def named(program, dialect, text):
    """Returns the offset that the program reports, or None if it accepts the text."""
    ran = subprocess.run([program, "--as", dialect, "--", text, "1"], capture_output=True, text=True)
    if ran.returncode != 2:
        return None
    last = ran.stderr.splitlines()[-1]
    place = AT_AN_OFFSET.search(last)
    if not place and not AT_THE_END.search(last):
        sys.exit(f"no place: {ran.stderr}")
    return int(place[1]) if place else len(text)


def main(cases, program, length):
    for dialect in CALLS:
        prefixes, read = set(), set()
        for longest in range(length + 3):
            for text in ranges(cases, dialect, texts(longest)):
                read.add(text)
                prefixes.update(text[:end] for end in range(length + 1))
        asked = [text for shorter in range(length + 1) for text in texts(shorter)]
        with Pool() as pool:
            places = pool.starmap(named, [(program, dialect, text) for text in asked], chunksize=100)
        for text, place in zip(asked, places):
            longest = max((end for end in range(len(text) + 1) if text[:end] in prefixes), default=0)
            if place != (None if text in read else longest):
                sys.exit(f"differ: {text!r} as {dialect}: {longest}, but the program reports {place}")
        refused = sum(place is not None for place in places)
        print(f"{len(asked)} texts as {dialect}, {refused} of them not ranges: no difference")
    with Pool() as pool:
        too_large(cases, program, pool)


main(sys.argv[1], sys.argv[2], int(sys.argv[3]))
