#!/usr/bin/env python3
"""Writes the rows for sets of versions in rust/tests/layers anew: tools/set-rows.py

The expected results come from tools/range_meaning.py, which follows the definitions of
rust/docs/CRATE.md, and not from the code.
"""

from itertools import product
from pathlib import Path

from range_meaning import RULES, fits, least, meets, places, ranges, shown, version, whole

CASES = Path(__file__).resolve().parents[1] / "rust" / "tests" / "layers"
MODES = ("cargo", "npm")
N = 2**64 - 1
M = N - 1

OPERATORS = ("", "=", "<", "<=", ">", ">=", "~", "^")

# Single texts. Each is tested at the points around its bounds.
TEXTS = (
    "", "*", "<*", ">*", "<=*", "^x", "1", "1.2", "1.2.3", "1.2.x", "^0", "^0.0", "^0.0.0", "^0.0.3", "^0.2.3", "^1.2.3", "^1.2.3-b",
    "~1", "~1.2", "~1.2.3-b", "<1", "<=1", ">1", ">=1", "<1.2", "<=1.2", ">1.2", ">=1.2", "=1.2", "<1.2.3-b", "<=1.2.3-b", ">1.2.3-b", ">=1.2.3-b",
    "=1.2.3-b", ">1.2.3-b.0", "<=1.2.3-b.0", "<1.2.3-0", ">=1.2.3-0", ">1.2.3-0", "<=1.2.3-0", "=1.2.3-01", ">=1.2.3-007", "<0.0.0-0", "<0.0.0", "<=0.0.0-0",
    ">2 <1", ">=1.2.3 <1.2.3", ">1.2.3-b <1.2.3-b.0", ">1.2.3-b <=1.2.3-b.0", ">=1.2.3-b <1.2.3", ">1.2.3-b <1.2.3-c", ">1.2.3 <1.2.4", ">=1.2.3 <1.2.4-rc",
    ">1.2.3 <1.2.4-0", ">1.2.3 <=1.2.4-0", "1.2.3 - 2.3.4", "1.2.3-b - 2", "1 - 2.3", "* - 3.4.5", "1.x - *", "1.2.3-b - 1.2.3-c", "2 - 1", "^1.2.3-b ^1.2.4-c",
    "=2.0.1-a || >=2.0.0", ">=1.0.0 <2.0.0 || >=2.0.0 <3.0.0", ">=1.0.0 <2.0.0-0 || >=2.0.0", "<1.2.0 || 2.x || >=4.0.0", "1.2.3-b || 1.2.3-a || 1.2.3",
    f"^1.2.{M}", f"=1.2.{N}", f">1.2.{N}", f"<=1.2.{N}", f">=1.{N}.{N}", f">1.{N}.{N}", f"<=1.{N}.{N}", f"=1.{N}.{N}-a", f">1.{N}.{N}-a",
    f">{N}.{N}.{N}", f">={N}.{N}.{N}", f"={N}.{N}.{N}", f"<={N}.{N}.{N}", f">{N}.{N}.{N}-a", f">={N}.{N}.{N}-a", f"<{N}.{N}.{N}-a", f"^{M}", f"~{N}.1.2", f"~1.{N}.2",
    f"=1.2.3-{N}", f">1.2.3-{N}", f">1.2.3-{N + 1}",
)

# Pairs of texts, besides each operator against each.
PAIRS = (
    ("^1.2.3", "^1.2.3"), ("^1.2.3", "^1.2.4"), ("^1.2.3", "~1.2.3"), ("^1", "^2"), ("1.2.3 - 2", ">=1.2.3 <3.0.0-0"), ("1.x", ">=1.0.0 <2.0.0"), ("1.x", ">=1.0.0 <2.0.0-0"),
    ("1 || 2", "2 || 1"), ("1 || 2 || 3", "3 || 1 || 2"), ("1 || 2 || 3", "2 || 3 || 1"), ("1 || 2", ">=1.0.0 <3.0.0"), ("1 || 2", ">=1.0.0 <3.0.0-0"), ("*", ">=0.0.0"),
    ("*", "<0.0.0 || >=0.0.0"), ("*", ">2 <1"), (">2 <1", "<*"), (">2 <1", "<0.0.0"), (">2 <1", ">3 <1"), (">1.2.3-a", ">=1.2.3-a.0"), (">1.2.3-a", ">=1.2.3-a"), ("<=1.2.3-a", "<1.2.3-a.0"),
    ("<1.2.3", "<1.2.3-0"), (">1.2.3", ">=1.2.4-0"), (">1.2.3", ">=1.2.4"), ("<=1.2.3", "<1.2.4-0"), ("<=1.2.3", "<1.2.4"), ("<2", "<2.0.0-0"), ("^1.2.3-b", "^1.2.3-c"),
    ("^1.2.3-b", "^1.2.3"), ("^1.2.3-b || 2", "^1.2.3-b || ^2.0.0"), ("=2.0.1-a || >=2.0.0", ">=2.0.0"), (">=2.0.0 >=2.0.1-a", ">=2.0.1-a"), (">=1.2.3 <1.2.4-rc", "=1.2.3"),
    ("1.2.3-01", "1.2.3-1"), ("=1.2.3-10", "=1.2.3-9 || =1.2.3-a"), (">=1.2.3-9 <1.2.3-10", ">=1.2.3-9 <=1.2.3-9"), (">=1.2.3-a", ">=1.2.3-a.0 || =1.2.3-a"),
    (f">1.2.{N}", ">=1.3.0"), (f">1.2.{N}", ">=1.3.0-0"), (f">1.{N}.{N}", ">=2.0.0"), (f">1.{N}.{N}", ">=2.0.0-0"), (f"<=1.2.{N}", "<1.3.0-0"), (f"<=1.2.{N}", "<1.3.0"),
    (f">{N}.{N}.{N}", "<*"), (f"<={N}.{N}.{N}", "<0.0.0 || *"), (f">={N}.{N}.{N}", f"={N}.{N}.{N}"), (f">={N}.{N}.{N}-a", f"={N}.{N}.{N}"), (f">{N}.{N}.{N}-a", f">={N}.{N}.{N}-a.0"),
    (f">1.2.3-{N}", f">=1.2.3-{N}.0"), (f">1.2.3-{N}", f">=1.2.3-{N + 1}"), (f"~1.{M}", f"=1.{M}"), (f"^{M}", f">={M}.0.0 <{N}.0.0-0"), (f"^0.0.{M}", f"=0.0.{M}"),
)


def listed(found):
    """Returns the points in order, and for each pre-release the next one."""
    beside = {(numbers, pre + (0,)) for numbers, pre in found if pre}
    return sorted({*found, *beside}, key=lambda it: (it[0], not it[1], [(isinstance(part, str), part) for part in it[1]]))


def of_set(text, mode, rule):
    if not fits(text, mode):
        return "", "number too large"
    read = ranges(text, mode)
    found = places(read)
    asked = listed(found)
    inside = [it for it in asked if meets(it, read, rule)]
    first = least(found, lambda it: meets(it, read, rule))
    release = least(found, lambda it: not it[1] and meets(it, read, rule))
    is_empty = "true" if first is None else "false"
    answer = "".join(f"{shown(it)} " for it in inside) + f"end, least {shown(first)}, least release {shown(release)}, empty {is_empty}"
    return " ".join(map(shown, asked)), answer


def of_pair(text, other, mode, rule):
    if not (fits(text, mode) and fits(other, mode)):
        return "number too large"
    first, second = ranges(text, mode), ranges(other, mode)
    found = places(first, second)
    lost = least(found, lambda it: meets(it, first, rule) and not meets(it, second, rule))
    gained = least(found, lambda it: meets(it, second, rule) and not meets(it, first, rule))
    shared = least(found, lambda it: meets(it, first, rule) and meets(it, second, rule))
    within, overlaps, same = lost is None, shared is not None, lost is None and gained is None
    told = (("within", within), ("overlaps", overlaps), ("same", same))
    return f"lost {shown(lost)}, gained {shown(gained)}, shared {shown(shared)}, " + ", ".join(f"{word} {str(so).lower()}" for word, so in told)


# Further texts and pairs whose whole meaning is printed: two intervals and more, a single version,
# the lowest and the last of a kind.
WHOLE = (
    "^1.2.0", "^1.2.0-b", ">=1.2.3 <1.5 || ^3", "=0.0.0", "=0.0.0-0", "<=0.0.0", "<=0.0.0-0", "<0.0.1", "<0.0.0-0.0", "<=0.0.0-0 || >0.0.0-0", "<0.0.0 || >=0.0.0", "<2.0.0-0 || >=3.0.0-0",
    ">=1.2.3-a <=1.2.3-a.0", "=1.2.3-a || =1.2.3-a.0", "=1.2.3-a || =1.2.3-b || =1.2.3-c", ">=1.2.3-a <1.2.3-a.0.0", "=1.2.3-a.0.0", ">1.2.3-a.0 <1.2.3-b || =1.2.3", "=1.2.3 || =1.2.4 || =1.2.6",
    "=1.0.0-0 || =1.0.0-0.0 || =1.0.0", "=1.2.3-alpha.1.x-y", "1 || 3 || 5 || 7 || 9", f"=1.2.{N} || =1.3.0", f">=1.2.{N}", f"<1.2.{N}", f"=1.{N}.{N}", f">=1.{N}.{N} <3", f"=0.0.{N}",
    f"={N}.{N}.{N} || =0.0.0", f"<{N}.{N}.{N}", f">={N}.{N}.{M}", f">={N}.{N}.{N}-a", f"={N}.{N}.{N}-a", f">={N}.0.0-0",
)
WHOLE_PAIRS = (
    ("^1.2.0", ">=1.2.1 <1.9"), ("^1.2.0", ">=1.2.1 <1.9.0-0"), (">=1.2.3 <1.5 || ^3", ">=1.3 <1.4.2 || ^4"), ("^1.2.0", ">=1.4.0"), ("*", "=1.2.3"), ("*", "1.2.3-a || 1.2.3"), ("1.x || 3.x", ">=1.0.0 <4.0.0"),
    ("^1", ">=1.0.0 <1.5.0 || >1.5.0 <2.0.0"), (">=1.2.3-a", ">1.2.3-a"), (">=1.2.3-a", ">=1.2.3-b || =1.2.3-a.0"), (f">=1.2.3", f"<1.2.3 || ={N}.{N}.{N}"),
)


def whole_of(text, mode, rule):
    if not fits(text, mode):
        return "number too large"
    read = ranges(text, mode)
    return ", pre-releases ".join(whole(places(read), lambda it: meets(it, read, rule)))


def whole_pair(text, other, mode, rule):
    if not (fits(text, mode) and fits(other, mode)):
        return "number too large"
    first, second = ranges(text, mode), ranges(other, mode)
    found = places(first, second)
    parts = (
        ("lost", lambda it: meets(it, first, rule) and not meets(it, second, rule)),
        ("gained", lambda it: meets(it, second, rule) and not meets(it, first, rule)),
        ("shared", lambda it: meets(it, first, rule) and meets(it, second, rule)),
    )
    return "; ".join(f"{word} " + ", pre-releases ".join(whole(found, holds)) for word, holds in parts)


def modes(*texts):
    """Returns the modes in which texts mean something different, or npm mode if both are the
    same."""
    return MODES if ranges(texts[0], "cargo") != ranges(texts[0], "npm") or any(ranges(it, "cargo") != ranges(it, "npm") for it in texts) else MODES[1:]


def rows():
    for text, rule in product(TEXTS, RULES):
        for mode in modes(text):
            asked, answer = of_set(text, mode, rule)
            yield f"versions_of_a_set\tset-{rule}-{mode}\t{text}\t{asked}", f"versions_of_a_set: {answer}"
    against = [(f"{sign}1.2.3-b", f"{other}1.2.3") for sign, other in product(OPERATORS, OPERATORS)]
    against += [(f"{sign}1.2.3", f"{other}1.2") for sign, other in product(OPERATORS, OPERATORS)]
    for (text, other), rule in product((*against, *PAIRS), RULES):
        for mode in modes(text, other):
            yield f"pair_of_sets\tpair-{rule}-{mode}\t{text}\t{other}", f"pair_of_sets: {of_pair(text, other, mode, rule)}"
    for text, rule in product((*TEXTS, *WHOLE), RULES):
        for mode in modes(text):
            yield f"whole_set\twhole-{rule}-{mode}\t{text}", f"whole_set: {whole_of(text, mode, rule)}"
    for (text, other), rule in product((*PAIRS, *WHOLE_PAIRS), RULES):
        for mode in modes(text, other):
            yield f"whole_pair\twhole-pair-{rule}-{mode}\t{text}\t{other}", f"whole_pair: {whole_pair(text, other, mode, rule)}"


NAMES = ("versions_of_a_set", "pair_of_sets", "whole_set", "whole_pair")


def main():
    made = list(rows())
    for name, at in (("stdin", 0), ("stdout", 1)):
        path = CASES / name
        lines = path.read_text().split("\n")[:-1]
        first = next(at for at, line in enumerate(lines) if line.startswith(NAMES))
        after = [line for line in lines[first:] if not line.startswith(NAMES)]
        path.write_text("".join(f"{line}\n" for line in (*lines[:first], *(row[at] for row in made), *after)))
    print(f"{len(made)} rows")


main()
