"""Compares sets of versions with brute force: with-a-grid.py PROGRAM COUNT SEED.

PROGRAM is the program `layers` of rust/tests. This makes COUNT random pairs of range texts. They have so
few numbers and identifiers that a grid of versions has each point at which a result can change.
Each version of the grid is matched with each term by `meets_term` of tools/range_meaning.py. This
gives the contents of each set in the grid, and from them each result is computed:

- the lowest version that only the first set has, only the second, and both
- within, overlaps and same
- for eight versions of the grid, which sets contain them
- the ranges of what only the first set has, only the second, and both: by precedence, exactly these
  versions of the grid have to satisfy them

Prints any difference, and exits.
"""

import random
import subprocess
import sys
from itertools import product
from pathlib import Path

sys.path.insert(0, str(Path(__file__).resolve().parents[1]))
from range_meaning import RULES, meets_term, precedence, ranges, shown, version

NUMBERS = (0, 1, 2)
PRE_RELEASES = ((0,), (1,), ("a",), ("a", 0), ("a", "b"), ("b",))
# With 3 the grid has the next number after each. With the identifier 0 it has the lowest
# pre-releases, and those directly after another one.
GRID_NUMBERS = (0, 1, 2, 3)
OTHERS = ((2,), (7,), ("B",), ("Z",), (0, 0, 0), (0, "z"), (1, 1), (1, "a"), ("a", 0, 1), ("a", 1), ("a", "a"), ("a", "b", "c"), ("a", "c"), ("aa",), ("b", 1), ("b", "a"), ("b", "b"), ("c",), ("z",))
GRID_PRE_RELEASES = sorted({*PRE_RELEASES, *(pre + (0,) for pre in PRE_RELEASES), *OTHERS}, key=str)
GRID = sorted(((numbers, pre) for numbers in product(GRID_NUMBERS, repeat=3) for pre in ((), *GRID_PRE_RELEASES)), key=precedence)
ASKED = 8


def mask(holds):
    """Returns the versions of the grid for which this holds, as the bits of a number."""
    return sum(1 << at for at, it in enumerate(GRID) if holds(it))


RELEASES = mask(lambda it: not it[1])
PRE_RELEASES_OF_GRID = mask(lambda it: it[1])
TERMS, STATED = {}, {}


def of_term(term):
    if term not in TERMS:
        TERMS[term] = mask(lambda it: meets_term(it, term))
    return TERMS[term]


def of_numbers(stated):
    if stated not in STATED:
        STATED[stated] = mask(lambda it: it[0] == stated)
    return STATED[stated]


def of_text(text, mode, rule):
    """Returns the versions of the grid that a text matches: for each range those that satisfy each
    of its terms, and count."""
    found = 0
    for terms in ranges(text, mode):
        met, counting = -1, RELEASES
        for term in terms:
            met &= of_term(term)
            if rule == "stated" and term[2]:
                counting |= of_numbers(term[1])
        found |= met if rule == "mean" else met & counting
    return found & ((1 << len(GRID)) - 1)


def least(bits):
    return "none" if bits == 0 else shown(GRID[(bits & -bits).bit_length() - 1])


def wanted(first, second, asked):
    sets = (("first", first), ("second", second), ("lost", first & ~second), ("gained", second & ~first), ("shared", first & second), ("union", first | second))
    lost, gained, shared = (bits for _, bits in sets[2:5])
    told = (("within", not lost), ("overlaps", bool(shared)), ("same", first == second))
    answer = f"lost {least(lost)}, gained {least(gained)}, shared {least(shared)}, " + ", ".join(f"{word} {str(so).lower()}" for word, so in told)
    return answer + "".join(f"; {shown(GRID[at])}:" + "".join(f" {word}" for word, bits in sets if bits >> at & 1) for at in asked)


# ---- ranges that are returned


COMPARATORS = {}


def of_comparator(comparator):
    """Returns the versions of the grid that satisfy a comparator by precedence."""
    if comparator not in COMPARATORS:
        bound = comparator.lstrip("<>=")
        sign, at = comparator[: -len(bound)], precedence(version(bound))
        holds = {"=": lambda it: precedence(it) == at, "<": lambda it: precedence(it) < at, ">=": lambda it: precedence(it) >= at}[sign]
        COMPARATORS[comparator] = mask(holds)
    return COMPARATORS[comparator]


def of_ranges(text, of_kind):
    """Returns the versions of a kind that satisfy ranges, as bits of the grid."""
    found = 0
    for one in text.split(" || "):
        met = of_kind
        for comparator in () if one == "*" else one.split(" "):
            met &= of_comparator(comparator)
        found |= met
    return found


def differs(first, second, answer):
    """Returns whether the ranges of what is lost, gained and shared are satisfied by other versions
    of the grid than these."""
    for part, bits in zip(answer.removeprefix("-: ").split("; "), (first & ~second, second & ~first, first & second)):
        releases, pre_releases = part.split(" ", 1)[1].split(", pre-releases ")
        if of_ranges(releases, RELEASES) | of_ranges(pre_releases, PRE_RELEASES_OF_GRID) != bits:
            return True
    return False


# ---- random texts


def partial(of):
    stated = [str(of.choice(NUMBERS)) for _ in range(of.choice((0, 1, 2, 3, 3, 3)))]
    if len(stated) == 3:
        return ".".join(stated) + ("-" + ".".join(map(str, of.choice(PRE_RELEASES))) if of.random() < 0.4 else "")
    return ".".join((*stated, of.choice("xX*"))) if not stated or of.random() < 0.5 else ".".join(stated)


def one_range(of):
    if of.random() < 0.15:
        return f"{partial(of)} - {partial(of)}"
    signs = ("", "=", "<", "<=", ">", ">=", "<", "<=", ">", ">=", "~", "^")
    return " ".join(of.choice(signs) + partial(of) for _ in range(of.choice((1, 1, 2, 2, 3))))


def one_text(of):
    return of.choice(("||", " || ")).join(one_range(of) for _ in range(of.choice((1, 1, 1, 2, 3))))


def another(of, text):
    """Returns a new text, or another text with a part changed or left out, or in another order."""
    parts = text.split("||")
    how = of.random()
    if how < 0.5:
        return one_text(of)
    if how < 0.6:
        return "||".join(reversed(parts))
    if how < 0.7:
        return "||".join((*parts, one_range(of)))
    if how < 0.8:
        return text + " " + of.choice(("<", ">=", "^")) + partial(of) if " - " not in parts[-1] else text
    parts[of.randrange(len(parts))] = one_range(of)
    return "||".join(parts)


def main(program, count, seed):
    of = random.Random(seed)
    lines, answers, sets, met = [], [], [], {"lost": 0, "gained": 0, "shared": 0, "same": 0}
    for _ in range(count):
        text = one_text(of)
        other, rule, mode = another(of, text), of.choice(RULES), of.choice(("cargo", "npm"))
        first, second = of_text(text, mode, rule), of_text(other, mode, rule)
        asked = [of.randrange(len(GRID)) for _ in range(ASKED)]
        lines.append(f"-\tpair-{rule}-{mode}\t{text}\t{other};{' '.join(shown(GRID[at]) for at in asked)}")
        answers.append(f"-: {wanted(first, second, asked)}")
        sets.append((first, second, f"-\twhole-pair-{rule}-{mode}\t{text}\t{other}"))
        for word, so in (("lost", first & ~second), ("gained", second & ~first), ("shared", first & second), ("same", first == second)):
            met[word] += bool(so)
    asked = "".join(f"{line}\n" for line in (*lines, *(line for _, _, line in sets)))
    ran = subprocess.run([program], input=asked, capture_output=True, text=True, check=True)
    answered = ran.stdout.split("\n")
    assert len(answered) == 2 * count + 1
    for line, answer, said in zip(lines, answers, answered):
        if answer != said:
            sys.exit(f"differ: {line}\n  the grid {answer}\n  result {said}")
    for (first, second, line), said in zip(sets, answered[count:]):
        if differs(first, second, said):
            sys.exit(f"differ: {line}\n  result {said}")
    told = ", ".join(f"{word} {times}" for word, times in met.items())
    print(f"{count} pairs of texts, seed {seed}, on {len(GRID)} versions, {len(TERMS)} terms: no difference; counts: {told}")


main(sys.argv[1], int(sys.argv[2]), int(sys.argv[3]))
