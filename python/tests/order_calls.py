"""Random calls of the package, as expressions.

A call is an expression, and the objects that it uses: their names, each with the expression that
makes it. So it can be made anywhere: with new objects, or with objects that live on.
"""

import random
import re
from typing import Any, Callable, Dict, List, NamedTuple, Union

Pool = Dict[str, List[str]]
"""The expressions of objects that live on, by their kinds."""

Argument = Union[str, List[str]]
"""An argument; or a list: what is before its items, the items, and what is after them."""

_KIND = re.compile(r"\{(\w+)\}")


class Call(NamedTuple):
    """An expression, and the expression of each object that it names."""

    expression: str
    objects: Dict[str, str]


# ---- strings

_LONG = ["a" * 190, "a" * 195, "b" * 195, "a" * 251, "a" * 1018, "a" * 1019, "9" * 3000]

VERSIONS: List[str] = [
    *["", " ", "1.0.0", "1.2.3", "1.2.4", "1.2.5", "1.10.0", "v1.2.3", " 1.2.3 ", "=1.2.3"],
    *["0.0.0", "0.0.0-0", "1.2.3-rc.1", "1.2.3-rc.1+b5", "1.2.3+b6", "1.2.3+b6.1", "2.0.0-alpha"],
    *["9007199254740991.0.0", "9007199254740992.0.0", "18446744073709551615.1.2", "1.2", "x"],
    *["18446744073709551616.0.0", "1.2.03", "1.2.3-", "1.2.3 4", "1.2.3-ä", "ä", "€", "\U0001f600"],
    *["\ud800", "1.2.3\ud800", "1.2.3\0", "\0", "\u00a01.2.3\ufeff", "é" * 101, "é" * 342],
]

LONG_VERSIONS: List[str] = [
    *(f"1.2.3-{identifier}" for identifier in _LONG),
    *[" " * 200 + "1.2.3", " " * 1100 + "1.2.3", "1.2.3+" + "b" * 245],
]

RANGES: List[str] = [
    *["", " ", "*", "x", "1", "2", "^1.2", "^1.3", "~1.2.3", "1.x", ">=1.2.3 <2", ">=1.2.3, <2"],
    *["1.2.3 - 1.10", "1 || 2", "2 || 1", "<2.0.0-beta || >=3", "=1.2.3-rc.1", ">1.2.3-rc.1"],
    *[">1.2", ">=0", "<0.0.0-0", ">2 <1", "^0.0.3 || ^0.1", "1.2.3", "=1.2.3", "v1.2.3", "1.2.3.4"],
    *[">>1", "^", "||", "1,", "latest", "ä", "^1.2.3-ä", "€", "\ud800", "^1\ud800", "1.2.3\0"],
    *["=>1.02", "^^1", "^^2"],
    *[">9007199254740991", ">18446744073709551615", "=18446744073709551616", "ü" * 400],
]

LONG_RANGES: List[str] = [
    *(f"^1.2.3-{identifier}" for identifier in _LONG),
    *[" " * 201 + "^1.2", " " * 1100 + "^1.2"],
    " || ".join(f"1.{minor}" for minor in range(30)),
    " || ".join(f">=1.{minor}.0 <1.{minor}.5" for minor in range(300)),
]

DIALECTS = ["npm", "cargo", "crate-npm", "crate-cargo"]
RULES = ["by-dialect", "included", "excluded"]
OTHERS = ["None", "5", "[]", "object"]


def _numbers(chance: random.Random) -> str:
    return ".".join(chance.choice(["0", "1", "2", "3", "10"]) for _ in range(3))


def _pre(chance: random.Random) -> str:
    return chance.choice(["", "", "-0", "-a", "-rc.1", "-rc.2"])


def _version_text(chance: random.Random) -> str:
    kind = chance.randrange(12)
    if kind < 8:
        return chance.choice(LONG_VERSIONS if kind < 2 else VERSIONS)
    return _numbers(chance) + _pre(chance)


def _term(chance: random.Random) -> str:
    partial = chance.choice(["1", "1.2", "x", _numbers(chance) + _pre(chance)])
    return chance.choice(["", "^", "~", ">=", "<", "=", ">", "<="]) + partial


def _range_text(chance: random.Random) -> str:
    kind = chance.randrange(12)
    if kind < 8:
        return chance.choice(LONG_RANGES if kind < 2 else RANGES)
    terms = [_term(chance) for _ in range(chance.choice([1, 2, 3]))]
    return chance.choice([" ", " || ", ", "]).join(terms)


def _literal(chance: random.Random, text: str) -> str:
    """Returns the literal of a string, sometimes as bytes, which may be invalid UTF-8."""
    kind = chance.randrange(12)
    if kind > 1:
        return repr(text)
    data = text.encode("utf-8", "surrogatepass")
    return repr(data if kind else data + b"\xff")


# ---- arguments


def _dialect(chance: random.Random) -> str:
    if chance.randrange(40) == 0:
        return chance.choice(["'yarn'", "None", "''"])
    dialect = chance.choice(DIALECTS)
    return repr(dialect) if chance.randrange(3) else f"Dialect({dialect!r})"


def _options(chance: random.Random) -> str:
    rule = chance.choice(RULES) if chance.randrange(40) else "all"
    if chance.randrange(2):
        return f"dialect={_dialect(chance)}"
    return f"dialect={_dialect(chance)}, pre_releases={rule!r}"


def _kept(kind: str, chance: random.Random, pool: Pool) -> str:
    """Returns the expression of an object of a kind that lives on, between marks."""
    return f"\x02{chance.choice(pool[kind])}\x03"


def _version(chance: random.Random, pool: Pool) -> str:
    kind = chance.randrange(20)
    if kind < 15:
        return _literal(chance, _version_text(chance))
    return _kept("Version", chance, pool) if kind < 19 else chance.choice(OTHERS)


def _range(chance: random.Random) -> str:
    return _literal(chance, _range_text(chance)) if chance.randrange(40) else chance.choice(OTHERS)


def _versions(chance: random.Random, pool: Pool) -> List[str]:
    """Returns the items of a list or of another iterable, and what is written before and after
    them."""
    items = [_version(chance, pool) for _ in range(chance.choice([0, 1, 2, 2, 3, 5, 40]))]
    before, after = chance.choice([("[", "]"), ("[", "]"), ("disturbed([", "])")])
    return [before, *items, after]


def _identifiers(chance: random.Random) -> str:
    count = chance.choice([0, 0, 1, 2])
    some = ["0", "7", "'rc'", "'-'", "'01'", "'7'", "'ä'", "''", "None", "2**64"]
    return f"({''.join(chance.choice(some) + ', ' for _ in range(count))})"


def _number(chance: random.Random) -> str:
    return chance.choice(["0", "1", "2", "10", "2**64 - 1", "2**64", "-1", "'1'"])


_PLAIN: Dict[str, Callable[[random.Random], str]] = {
    "dialect": _dialect,
    "options": _options,
    "range": _range,
    "identifiers": _identifiers,
    "number": _number,
    "invalid": lambda chance: chance.choice(["", ", invalid='skip'", ", invalid='raise'"]),
    "rule": lambda chance: repr(chance.choice([*RULES, "all", ""])),
    "index": lambda chance: chance.choice(["None", "0", "1"]),
    "op": lambda chance: repr(chance.choice(["<", "<=", ">", ">=", "=", "^", ""])),
    "spec": lambda chance: repr(chance.choice(["", ">30", "<5", "^40", "x"])),
}

# Kinds of objects that live on, with the expressions that make them.
OBJECTS: Dict[str, List[str]] = {
    "Version": [
        "Version.parse({version}, dialect={dialect})",
        "Version({number}, {number}, {number}, {identifiers}, {identifiers})",
    ],
    "Range": ["Range({range}, {options})"],
    "Error": [
        "VersionError({version}, {dialect}, {index})",
        "RangeError({range}, {dialect}, {index})",
    ],
    "Comparison": ["compare_ranges({range}, {range}, {options})"],
    "Comparator": ["Comparator(Op({op}), {number}, {number}, {number}, {identifiers})"],
}

# The calls.
TEMPLATES: List[str] = [
    *["satisfies({version}, {range}, {options})"] * 6,
    "Dialect({dialect})",
    "PreReleases({rule})",
    "Op({op})",
    *["crate_comparators({range}, dialect={dialect})"] * 2,
    *["terms({range}, dialect={dialect})"] * 2,
    "Term(0, {op}, 0, 1, PartialVersion(0, 1, False, {number}, None, None, '', ''), None)",
    "replace_version({range}, terms({range}, dialect={dialect})[-1].version, {version}, dialect={dialect})",
    *["upgrade({range}, {version}, {options})"] * 3,
    "UpgradeError({range}, {version})",
    "precedence({version}, dialect={dialect})",
    "precedence({Version})",
    *(maker for makers in OBJECTS.values() for maker in makers),
    *("{Version}." + it for it in ("major", "minor", "patch", "pre", "build", "is_prerelease")),
    *(f"{{Version}} {operator} {{Version}}" for operator in ("<", "<=", ">", ">=", "==", "!=")),
    *("{Version} == {version}", "{Version} < {version}", "format({Version}, {spec})"),
    *("str({Version})", "pickle.loads(pickle.dumps({Version}))"),
    *["{version} in {Range}"] * 4,
    *["{Range}.filter({versions}{invalid})"] * 4,
    *["{Range}.highest({versions}{invalid})"] * 3,
    *["{Range}.lowest({versions}{invalid})"] * 2,
    *("{Range}." + it for it in ("dialect", "pre_releases", "string", "lowest_version")),
    *["{Range}.comparators"] * 3,
    *("{Range}.terms", "pickle.loads(pickle.dumps({Range}.terms))"),
    *("{Range}." + it for it in ("printed_releases", "printed_pre_releases", "to_requirement()")),
    "({Range} - {Range}).to_requirement()",
    *(f"{{Range}} {operator} {{Range}}" for operator in ("|", "&", "-", "<", "<=", ">", ">=")),
    *("{Range} == {Range}", "{Range} != {Range}", "{Range} | {version}", "{Range} < {version}"),
    *("{Range}.isdisjoint({Range})", "{Range}.isdisjoint({version})", "bool({Range})"),
    *("str({Range})", "repr({Range})", "format({Range}, {spec})", "copy.deepcopy({Range})"),
    *("pickle.loads(pickle.dumps({Range}))", "str({Comparator})", "format({Comparator}, {spec})"),
    "(lambda it: hash(it) == hash(pickle.loads(pickle.dumps(it))))({Range})",
    "(lambda it: hash(it) == hash(pickle.loads(pickle.dumps(it))))({Version})",
    *("{Comparison}." + it for it in ("lost", "gained", "shared")),
    *("{Comparison}." + it for it in ("overlaps", "is_subset", "is_equal")),
    *("{Error}." + it for it in ("string", "dialect", "index", "offset", "reason", "sentence")),
    *["{Error}.span", "{Error}.suggestion", "format({Error}, '#')"],
    *("str({Error})", "pickle.loads(pickle.dumps({Error}))", "isinstance({Error}, SemverError)"),
    "str(Comparators({Range}.comparators))",
]


# ---- calls


def _draw(kind: str, chance: random.Random, pool: Pool) -> Argument:
    """Returns a random argument of a kind."""
    if kind in OBJECTS:
        return _kept(kind, chance, pool)
    if kind == "version":
        return _version(chance, pool)
    return _versions(chance, pool) if kind == "versions" else _PLAIN[kind](chance)


def _changed(kind: str, argument: Argument, chance: random.Random, pool: Pool) -> Argument:
    """Returns another argument: a list with another item, or the neighbour of an object."""
    if isinstance(argument, list) and len(argument) > 2:
        at = chance.randrange(1, len(argument) - 1)
        return [*argument[:at], _version(chance, pool), *argument[at + 1 :]]
    if kind in OBJECTS and isinstance(argument, str):
        return f"\x02{pool[kind][pool[kind].index(argument[1:-1]) ^ 1]}\x03"
    return _draw(kind, chance, pool)


def _text(argument: Argument) -> str:
    if isinstance(argument, str):
        return argument
    return argument[0] + ", ".join(argument[1:-1]) + argument[-1]


def _pair(template: str, chance: random.Random, pool: Pool) -> List[str]:
    """Returns an expression for a template, with a random argument for each kind in braces, and the
    same expression with another argument."""
    kinds = _KIND.findall(template)
    arguments = [_draw(kind, chance, pool) for kind in kinds]
    if kinds == ["Range", "Range"] and chance.randrange(4):
        options = [it for it in pool["Range"] if _options_of(it) == _options_of(str(arguments[0]))]
        arguments[1] = f"\x02{chance.choice(options)}\x03"
    others = list(arguments)
    if kinds:
        at = chance.randrange(len(kinds))
        if "versions" in kinds and chance.randrange(2):
            at = kinds.index("versions")
        others[at] = _changed(kinds[at], arguments[at], chance, pool)
    texts = (map(_text, it) for it in (arguments, others))
    return [_KIND.sub(lambda _: next(it), template) for it in texts]


def _options_of(expression: str) -> str:
    """Returns the options in the expression of a range: two with different options can't be
    combined."""
    return expression.partition("dialect=")[2].partition(")")[0]


def _call(expression: str) -> Call:
    """Returns a call, with names for the objects between marks."""
    objects: Dict[str, str] = {}

    def named(found: "re.Match[str]") -> str:
        name = f"kept{len(objects)}"
        objects[name] = found[1]
        return name

    return Call(re.sub("\x02(.*?)\x03", named, expression, flags=re.DOTALL), objects)


def _pool(chance: random.Random) -> Pool:
    """Returns expressions of objects of each kind, in pairs of which one is nearly the other. For
    ranges, some are made from others."""
    pool: Pool = {"Version": ["Version(1, 2, 3)", "Version(1, 2, 4)"]}
    for kind, makers in OBJECTS.items():
        pairs = [_pair(chance.choice(makers), chance, pool) for _ in range(80)]
        pool[kind] = [it for pair in pairs if "\x02" not in "".join(pair) for it in pair]
    for _ in range(60):
        options = f"dialect={chance.choice(DIALECTS)!r}, pre_releases={chance.choice(RULES)!r}"
        one, other = (f"Range({_range_text(chance)!r}, {options})" for _ in range(2))
        pool["Range"] += [one, f"({one} {chance.choice('|&-')} {other})"]
    return pool


def random_calls(chance: random.Random, count: int) -> List[Call]:
    """Returns `count` random calls. The templates take turns, two calls each."""
    pool = _pool(chance)
    pairs = (_pair(TEMPLATES[at % len(TEMPLATES)], chance, pool) for at in range(count // 2))
    return [_call(expression) for pair in pairs for expression in pair]


def unnamed(package: Any) -> List[str]:
    """Returns the public names of a package, and of members of its classes, that no template
    has."""
    named = set(re.findall(r"\w+", " ".join(TEMPLATES)))
    missing = []
    for name in package.__all__:
        it = getattr(package, name)
        if isinstance(it, type):
            members = [each for each in vars(it) if each.islower() and not each.startswith("_")]
            missing += [f"{name}.{each}" for each in members if each not in named]
        if getattr(it, "__module__", "") == package.__name__ and name not in named:
            missing.append(name)
    return missing
