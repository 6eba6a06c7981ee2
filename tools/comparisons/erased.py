"""Compares the kit's build with cargo's: erased.py KIT CARGO FILTER FILTER COUNT SEED.

KIT and CARGO are the commands of the port's program of cases as the kit and as cargo build it. The
two FILTERs are release-filter, built in the same two ways. From the seed, this makes COUNT random
texts of versions, ranges and lines. Each is read by one random call of the table of cases. It also
filters texts of lines with random options, in each dialect and by each rule. Both builds have to
print the same, byte for byte. Otherwise it prints the first difference, and exits with 1.
"""

import random
import shlex
import subprocess
import sys

NUMBERS = ["0", "1", "2", "3", "10", "01", "00", "9007199254740991", "9007199254740992",
           "18446744073709551615", "18446744073709551616", "99999999999999999999"]
PARTS = ["a", "rc", "beta", "0", "1", "10", "01", "a-b", "--", "-", "1a", "", "alpha1", "18446744073709551616"]
OPERATORS = ["", "", "", "=", "<", "<=", ">", ">=", "^", "~", "~>", "= ", "^ ", ">= ", "!", "=="]
BETWEEN = [" ", " ", "  ", ", ", ",", " || ", "||", "|", " - ", "-", "\t", "\\n", " && ", ""]
STRAY = ["x", "X", "*", "v", ".", "-", "+", " ", "|", "/", "é", "\u00a0", "\u3000", "\ufeff", "\u2028", "𝒳", "\\t", "\\r\\n", "\x0b", "\\\\"]
VERSION_CALLS = ["version", "version-text", "error-text", "lex", "kinds", "report"]
RANGE_CALLS = ["report", "from-str", "cargo", "npm", "cargo-text", "npm-text", "cargo-exact", "npm-exact"]
OPTIONS = [["--dialect", name] for name in ("cargo", "npm", "crate-cargo", "crate-npm")]
MORE_OPTIONS = [[], ["--include-prerelease"], ["--releases-only"], ["--highest"], ["--lowest"], ["--sort"],
                ["--sort", "--reverse"], ["--prefix", "v"], ["--count"], ["--strict"]]


def number(chance):
    return chance.choice(NUMBERS) if chance.random() < 0.5 else str(chance.randrange(10 ** chance.randint(1, 4)))


def partial(chance):
    """Returns a version or a part of one, sometimes with a character that it can't have."""
    parts = [number(chance) if chance.random() < 0.9 else chance.choice("xX*") for _ in range(chance.choice((1, 2, 3, 3, 3, 3, 4)))]
    text = ".".join(parts)
    for mark in "-+":
        if chance.random() < 0.3:
            text += mark + ".".join(chance.choice(PARTS) for _ in range(chance.randint(1, 3)))
    if chance.random() < 0.15:
        at = chance.randint(0, len(text))
        text = text[:at] + chance.choice(STRAY) + text[at + chance.randint(0, 1):]
    return text


def version(chance):
    if chance.random() < 0.6:
        return ".".join(str(chance.randrange(4)) for _ in range(3)) + chance.choice(("", "", "", "-rc", "-a.1", "+b", "-0"))
    return partial(chance)


def range_text(chance):
    text = chance.choice(OPERATORS) + partial(chance)
    while chance.random() < 0.45:
        text += chance.choice(BETWEEN) + chance.choice(OPERATORS) + partial(chance)
    return text


def row(chance, place):
    if chance.random() < 0.4:
        return f"r{place}\t{chance.choice(VERSION_CALLS)}\t{version(chance)}"
    return f"r{place}\t{chance.choice(RANGE_CALLS)}\t{range_text(chance)}"


def written(command, given):
    ran = subprocess.run(command, input=given, capture_output=True, check=False)
    return ran.stdout, ran.stderr, ran.returncode


def same(what, kit, cargo, given):
    """Exits at the first difference."""
    if kit == cargo:
        return
    for line, wanted, found in zip(given.splitlines(), kit[0].splitlines(), cargo[0].splitlines()):
        if wanted != found:
            sys.exit(f"{what}: {line!r}\n  the kit's: {wanted!r}\n  cargo's:   {found!r}")
    sys.exit(f"{what}: {kit[1:]} and {cargo[1:]}, or one writes more than the other")


def main():
    kit, cargo = shlex.split(sys.argv[1]), shlex.split(sys.argv[2])
    filters, count, chance = sys.argv[3:5], int(sys.argv[5]), random.Random(int(sys.argv[6]))
    for begin in range(0, count, 50000):
        rows = "".join(row(chance, place) + "\n" for place in range(begin, min(begin + 50000, count)))
        given = rows.encode()
        same("a row", written(kit, given), written(cargo, given), given)
    lines = 0
    while lines < count:
        options = chance.choice(OPTIONS) + chance.choice(MORE_OPTIONS) + [range_text(chance).replace("\\", "")]
        given = b"".join(version(chance).encode() + chance.choice((b"\n", b"\n", b"\r\n")) for _ in range(2000))
        lines += 2000
        same(f"{options}", *(written([program, *options], given) for program in filters), given)
    print(f"{count} rows and {lines} lines of versions: the kit's build and cargo's write the same")


if __name__ == "__main__":
    main()
