#!/usr/bin/env python3
"""Writes the rows of rust/tests/layers for where a text stops being a range:
tools/place-rows.py > FILE

Of two lines, the first belongs to `stdin` and the second to `stdout`. Regular expressions after
rust/docs/GRAMMAR.md determine whether a text is a range. A text is a prefix of a range if some text
of up to three characters completes it. The reason of each row is written here by hand, and so are the
rows with numbers that are too large and with texts that are too long.
"""
import re
from functools import cache
from itertools import product

NUMBER = r"(?:0|[1-9][0-9]*)"
WILD = r"[xX*]"
PART = r"[0-9A-Za-z-]+"
PRE = rf"(?:(?!0[0-9]+(?![0-9A-Za-z-])){PART})"
PRES = rf"-{PRE}(?:\.{PRE})*"
BUILD = rf"\+{PART}(?:\.{PART})*"


def full(pre):
    component = rf"(?:{NUMBER}|{WILD})"
    return rf"{component}(?:\.{component}(?:\.{component}(?:{pre})?(?:{BUILD})?)?)?"


def sets(word, blank, form_blank):
    simple = rf"(?:(?:<=|>=|~>|[<>=~^]){form_blank}*)?{word}"
    one = rf"{blank}*(?:{word}{blank}+-{blank}+{word}|{simple}(?:{blank}+{simple})*)?{blank}*"
    return re.compile(rf"{one}(?:\|\|{one})*")


CARGO_PARTIAL = rf"{NUMBER}(?:\.{NUMBER}(?:\.{NUMBER}(?:{PRES})?(?:{BUILD})?|\.{WILD})?|\.{WILD}(?:\.{WILD})?)?"
CARGO_ONE = rf" *(?:<=|>=|[<>=~^])? *{CARGO_PARTIAL} *"
NPM_BLANK = r"[\t-\r \u00a0\u1680\u2000-\u200a\u2028\u2029\u202f\u205f\u3000\ufeff]"
GRAMMARS = {
    "cargo": re.compile(rf"{CARGO_ONE}(?:,{CARGO_ONE}){{0,31}}| *{WILD} *"),
    "npm": sets(rf"v?{full(PRES)}", NPM_BLANK, NPM_BLANK),
    "crate-cargo": sets(full(rf"-{PART}(?:\.{PART})*"), r"[ \t]", r"[ \t]"),
}
GRAMMARS["crate-npm"] = GRAMMARS["crate-cargo"]
MORE = ["".join(more) for length in range(4) for more in product("1.-a*>|, ", repeat=length)]


@cache
def begins(dialect, front):
    return any(GRAMMARS[dialect].fullmatch(front + more) for more in MORE)


def place(dialect, text):
    """Returns the offset in bytes, or None for a range."""
    if GRAMMARS[dialect].fullmatch(text):
        return None
    longest = max(end for end in range(len(text) + 1) if begins(dialect, text[:end]))
    return len(text[:longest].encode())


# The reasons of most rows.
U, NUMBER_EXPECTED, EMPTY_IDENTIFIER = "unexpected-character", "number-expected", "empty-identifier"
CARGO_BARS, CARGO_COMMAS, CARGO_HYPHEN, CARGO_V, CARGO_WILDCARD = "cargo-bars", "cargo-commas", "cargo-hyphen", "cargo-v", "cargo-wildcard"
NPM_COMMA, CRATE_COMMA, CRATE_V, LEADING_ZERO, THREE, END = "npm-comma", "crate-comma", "crate-v", "leading-zero", "not-three-numbers", "unexpected-end"

# Texts, and the reasons in Cargo's, npm's and the crate's dialects. None if the text is a range.
TEXTS = (
    ("", "empty", None, None), (" ", "empty", None, None), ("*", None, None, None), ("1 || 2", CARGO_BARS, None, None), ("1.2 | 3", CARGO_BARS, U, U),
    ("|", CARGO_BARS, END, END), ("||", CARGO_BARS, None, None), ("1 ||", CARGO_BARS, None, None), ("||| 1", CARGO_BARS, U, U),
    ("v1.2.3", CARGO_V, None, CRATE_V), ("^v1", CARGO_V, None, CRATE_V), ("vv1", CARGO_V, NUMBER_EXPECTED, CRATE_V),
    ("V1", U, U, U), ("1v", U, U, U), ("1.v", NUMBER_EXPECTED, NUMBER_EXPECTED, NUMBER_EXPECTED),
    ("v", CARGO_V, NUMBER_EXPECTED, CRATE_V), (">=1.2.3, <2", None, NPM_COMMA, CRATE_COMMA), ("1.2.3,", NUMBER_EXPECTED, NPM_COMMA, CRATE_COMMA),
    (",1", U, NPM_COMMA, CRATE_COMMA), ("1,,2", NUMBER_EXPECTED, NPM_COMMA, CRATE_COMMA), (">=1.2.3 <2", CARGO_COMMAS, None, None),
    ("1 2", CARGO_COMMAS, None, None), ("1.2.3-a 2", CARGO_COMMAS, None, None), ("1.2.3 - 2", CARGO_HYPHEN, None, None), ("1.2.3 -2", CARGO_HYPHEN, U, U),
    ("1 - ", CARGO_HYPHEN, NUMBER_EXPECTED, NUMBER_EXPECTED), ("1 - 2 3", CARGO_HYPHEN, U, U), (">=1 - 2", CARGO_HYPHEN, U, U),
    ("> *", CARGO_WILDCARD, None, None), (">*", CARGO_WILDCARD, None, None), ("*.1", U, None, None), ("1, *", CARGO_WILDCARD, NPM_COMMA, CRATE_COMMA),
    ("*, 1", CARGO_WILDCARD, NPM_COMMA, CRATE_COMMA), ("1.*.2", U, None, None), ("1.2-a", THREE, THREE, THREE),
    ("1+b", THREE, THREE, THREE), ("1.x-a", THREE, THREE, THREE), ("1.2.x-a", THREE, None, None),
    ("1.2.3-", EMPTY_IDENTIFIER, EMPTY_IDENTIFIER, EMPTY_IDENTIFIER), ("1.2.3-a.", EMPTY_IDENTIFIER, EMPTY_IDENTIFIER, EMPTY_IDENTIFIER),
    ("1.2.3-a..b", EMPTY_IDENTIFIER, EMPTY_IDENTIFIER, EMPTY_IDENTIFIER), ("1.2.3+", EMPTY_IDENTIFIER, EMPTY_IDENTIFIER, EMPTY_IDENTIFIER), ("1.2.3+a+b", U, U, U),
    ("1.2.3-01", LEADING_ZERO, LEADING_ZERO, None), ("1.2.3-01.a", LEADING_ZERO, LEADING_ZERO, None), ("1.2.3-a.00", LEADING_ZERO, LEADING_ZERO, None),
    ("1.2.3-0a", None, None, None), ("01.2.3", LEADING_ZERO, LEADING_ZERO, LEADING_ZERO), ("1.02", LEADING_ZERO, LEADING_ZERO, LEADING_ZERO), ("1.2.3+01", None, None, None),
    (">", NUMBER_EXPECTED, NUMBER_EXPECTED, NUMBER_EXPECTED), (">=", NUMBER_EXPECTED, NUMBER_EXPECTED, NUMBER_EXPECTED),
    ("> =1", NUMBER_EXPECTED, NUMBER_EXPECTED, NUMBER_EXPECTED), ("=>1", NUMBER_EXPECTED, NUMBER_EXPECTED, NUMBER_EXPECTED), ("~>1", NUMBER_EXPECTED, None, None),
    ("~ >1", NUMBER_EXPECTED, NUMBER_EXPECTED, NUMBER_EXPECTED), ("^^1", NUMBER_EXPECTED, NUMBER_EXPECTED, NUMBER_EXPECTED), ("1.", NUMBER_EXPECTED, NUMBER_EXPECTED, NUMBER_EXPECTED),
    ("^1..2", NUMBER_EXPECTED, NUMBER_EXPECTED, NUMBER_EXPECTED), ("~", NUMBER_EXPECTED, NUMBER_EXPECTED, NUMBER_EXPECTED), ("foo", U, U, U),
    ("1..2", NUMBER_EXPECTED, NUMBER_EXPECTED, NUMBER_EXPECTED), (".1", U, U, U), ("1.2.3.4", U, U, U), ("1.2.3 ", None, None, None),
    ("-1", U, U, U), ("a", U, U, U), ("1.2.a", NUMBER_EXPECTED, NUMBER_EXPECTED, NUMBER_EXPECTED), ("1\t2", U, None, None), ("1\u00a0", U, None, U), ("1\u00e9", U, U, U),
    ("\u3000>\u30001\u2070", U, U, U), ("1.2.3\u00a0||\u00a0x\u00e9", U, U, U), ("1\n", U, None, U),
)
N, S = 2**64, 2**53
OF_64 = ("cargo", "crate-cargo", "crate-npm")
OF_SETS = ("npm", "crate-cargo", "crate-npm")
# Texts with @ before the number that is too large, or can't be raised, in the first term that
# doesn't fit.
TOO_LARGE = (
    (f"=@{N}", OF_64), (f"=@{N}.1", OF_64), (f"=1.@{N - 1}0", OF_64), (f"=1.2.@{N}", OF_64), (f"=@{S}", ("npm",)),
    (f"1 || =1.2.@{S}", ("npm",)), (f"=@{N} || 1", OF_SETS), (f"=1.@{N}.x  ={N}0", OF_SETS), (f"> @{N}.1.2-a.b+c ", OF_64),
    (f"v@{S}.x\u00a0|| 1", ("npm",)), (f"<1, =@{N}.1 , ={N}", ("cargo",)), (f"* || x.1 - @{N}|| 1", OF_SETS),
    # The left side of a hyphen range, and a wildcard, have no bound that is raised.
    (f"{N - 1}.0.0 - @{N}", ("crate-cargo",)), (f"{N - 1}.x.3 - @{N}", ("crate-cargo",)), (f"{S - 1}.x - @{S}", ("npm",)),
    (f"{N - 1}.5.*, =@{N}", ("cargo",)), (f"@{N} - {N}", OF_SETS), (f"{N - 1} - @{N} || 1", ("crate-npm",)),
)
BOUND_TOO_LARGE = (
    # A smaller number after it would fit.
    (f">@{N - 1}", ("cargo",)), (f">1, >@{N - 1}, <3", ("cargo",)), (f"<=@{N - 1}", OF_64), (f">@{S - 1}", ("npm",)), (f"1 - @{S - 1}", ("npm",)),
    (f">@{N - 1}.*", ("cargo",)), (f">@{S - 1}.x", ("npm",)), (f"<=@{S - 1}.*.3 || 1", ("npm",)),
    (f"@{N - 1}", OF_64), (f"@{N - 1}.1", ("cargo",)), (f"@{N - 1}.1.2", ("cargo",)), (f"^@{N - 1}.1.*", ("cargo",)), (f"@{S - 1}", ("npm",)),
    # Nothing after it would fit.
    (f"^@{N - 1}", OF_64), (f"^@{N - 1}.2.3", OF_64), (f"~1.@{N - 1}.3", OF_64), (f"^@{S - 1}.2", ("npm",)),
)
# Texts, as they are in a row, that are too long in npm's dialect.
LONG = (
    ("1.2.3-\\(251,a,)", 256), ("^1.2.3-\\(251,a,)", 257), ("1.2.3+\\(251,b,)", 256), ("^1.2.3+\\(251,b,)", 257), ("\\(258,1,)", 257),
)


def row(dialect, text, answer):
    print(f"where_it_is_no_range\trefused-range-as-{dialect}\t{text}", f"where_it_is_no_range: {answer}", sep="\n")


def main():
    for text, *reasons in TEXTS:
        for dialect, reason in zip(GRAMMARS, (*reasons, reasons[-1])):
            at = place(dialect, text)
            answer = "a range" if at is None else f"{at}: not a range, {reason}"
            row(dialect, text.replace("\t", "\\t").replace("\n", "\\n"), answer)
    for texts, reason in (TOO_LARGE, "too-large"), (BOUND_TOO_LARGE, "bound-too-large"):
        for text, dialects in texts:
            at = len(text[: text.index("@")].encode())
            for dialect in dialects:
                row(dialect, text.replace("@", ""), f"{at}: number too large, {'npm-' if dialect == 'npm' else ''}{reason}")
    for text, at in LONG:
        row("npm", text, f"{at}: not a range, too-long")


main()
