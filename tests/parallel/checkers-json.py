"""Compares the JSON of check-lock-file with the schema in its manual: for all files in
python/cases, including those that are rejected, for a directory without any, and for known findings
that no longer apply.

checkers-json.py CASES MANUAL KNOWN DIRECTORY
"""

import json
import os
import re
import sys

from semver_parser.checks.check_lock_file import PROGRAM
from semver_parser.checks.files import Refusal
from semver_parser.checks.program import Misuse, outcome_of

# A line of the schema: a key, or several that have the same type, and the type.
LINE = re.compile(r"( *)([a-z_]+) +(objects|strings?\??|numbers?\??)(?: +\S.*)?")
SIMPLE = {"string": str, "number": int}


def schema_of(manual):
    """Returns the type of each key of the objects in the schema, by its path."""
    block = re.search(r"^### JSON\n.*?^```text\n(.*?)^```", manual, re.M | re.S).group(1)
    found, left = {}, []
    for line in block.splitlines():
        match = LINE.fullmatch(line)
        if match is None:
            assert line.startswith(" " * 20), line
            continue
        depth = len(match[1]) // 2
        left[depth:] = [match[2]]
        found[tuple(left)] = match[3]
    return found


def errors_in(value, schema, way, seen):
    """Yields what is wrong with an object by the schema."""
    keys = {it[-1] for it in schema if it[:-1] == way}
    if list(value) != [it[-1] for it in schema if it[:-1] == way]:
        yield f"{way}: {sorted(keys.symmetric_difference(value)) or 'another order'}"
        return
    for key, inner in value.items():
        at, kind = (*way, key), schema[(*way, key)]
        if inner is None and kind.endswith("?"):
            continue
        seen.add(at)
        yield from errors_of(inner, kind.rstrip("?"), schema, at, seen)


def errors_of(value, kind, schema, way, seen):
    """Yields what is wrong with a value by its type."""
    if kind == "objects":
        for it in value:
            yield from errors_in(it, schema, way, seen)
    elif kind == "numbers":
        is_right = isinstance(value, dict) and all(type(it) is int for it in value.values())
        yield from () if is_right else [f"{way}: {value}"]
    elif kind == "strings":
        is_right = isinstance(value, list) and all(type(it) is str for it in value)
        yield from () if is_right else [f"{way}: {value}"]
    elif type(value) is not SIMPLE[kind]:
        yield f"{way}: {value}"


def outputs(cases, known, empty):
    """Yields the objects that the program prints for each file, and for all files with known
    findings."""
    options = ["--json", "--strict", "--why"]
    files = [os.path.join(at, name) for at, _, names in os.walk(cases) for name in names]
    named = [it for it in sorted(files) if re.search(r"\.(json|lock|lockb|yaml)$", it)]
    for arguments in [*([it] for it in named), ["--allow", known, cases, empty]]:
        try:
            yield "\n".join(outcome_of(PROGRAM, [*options, *arguments]).lines)
        except (Misuse, Refusal) as error:
            sys.exit(f"{arguments}: {error}")


def main(cases, manual, known, empty):
    with open(manual, encoding="utf-8") as file:
        schema = schema_of(file.read())
    seen = set()
    for number, text in enumerate(outputs(cases, known, empty), 1):
        errors = list(errors_in(json.loads(text), schema, (), seen))
        if errors:
            sys.exit(f"{errors}\n{text[:2000]}")
    unseen = sorted(set(schema) - seen)
    if unseen:
        sys.exit(f"these keys are in no output: {unseen}")
    print(f"JSON of {number} files: passed")


main(*sys.argv[1:])
