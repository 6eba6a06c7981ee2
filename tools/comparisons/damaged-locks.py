#!/usr/bin/env python3
"""Runs the checkers on damaged copies of lock files and manifests, and reports each unexpected
exception, and each status except 0, 1 and 2.

damaged-locks.py COUNT SEED makes COUNT damaged copies of the files in python/cases. It cuts off a
piece, changes bytes, swaps lines, or gives a value in JSON, YAML or TOML another type. A lock file
is checked with its manifests next to it, in a random format; a manifest is compared with its
original. Prints each error with the command that reproduces it, and exits with 1 if there is one.
"""
import json
import os
import pathlib
import random
import re
import shutil
import sys
import tempfile
import traceback

TOP = os.path.dirname(os.path.dirname(os.path.dirname(os.path.abspath(__file__))))
CASES = os.path.join(TOP, "python", "cases")
sys.path.insert(0, os.path.join(TOP, "python"))

from semver_parser.checks import check_lock_file, checking, compare_requirements, comparing  # noqa: E402, F401
from semver_parser.checks.files import Refusal  # noqa: E402
from semver_parser.checks.program import Misuse, outcome_of  # noqa: E402

MANIFESTS = ("package.json", "Cargo.toml", "pnpm-workspace.yaml", ".npmrc")
FORMATS = ("text", "tsv", "json", "github", "sarif")
MAY_GIVE = ("--strict", "--no-dev", "--no-peers", "--quiet", "--why", "--color=always")
VALUES = (
    None, True, False, 0, -1, 1.5, 10**400, "", " ", "text", "*", "npm:", "npm:@", "workspace:^", "catalog:", "-", "$",
    "@", "1.0.0", "^1 || x", "\0", "\ud800", "a\nb", [], [1], ["a"], [[]], {}, {"": ""}, {"a": 1}, {".": "1"}, {"a": {"b": {}}},
)
TOML_VALUES = (
    "1", "-1.5", "nan", "true", '""', '"*"', '"x"', "[]", "[[]]", '["a"]', "{}", "{ a = 1 }", "{ workspace = true }",
    "{ path = 1 }", '{ path = "" }', "{ version = [] }", "1979-05-27", "07:32:00", '"\\u0000"', "9" * 400,
)


# ---- the damage


def cut(draw, text):
    """Returns a text without its end, its beginning or a piece."""
    start, end = sorted(draw.randrange(len(text) + 1) for _ in range(2))
    return draw.choice((text[:start], text[end:], text[:start] + text[end:]))


def with_other_bytes(draw, text):
    """Returns a text in which some bytes are changed."""
    changed = bytearray(text)
    for _ in range(draw.randrange(1, 5)):
        if changed:
            changed[draw.randrange(len(changed))] = draw.choice((draw.randrange(256), *b"\"{}[]:,@/\\ \n#0-"))
    return bytes(changed)


def with_other_lines(draw, text):
    """Returns a text in which lines are swapped, missing or repeated."""
    lines = text.split(b"\n")
    one, other = (draw.randrange(len(lines)) for _ in range(2))
    kind = draw.randrange(3)
    if kind == 0:
        lines[one], lines[other] = lines[other], lines[one]
    elif kind == 1:
        del lines[one]
    else:
        lines.insert(other, lines[one])
    return b"\n".join(lines)


def places_in(value, found):
    """Returns the keys in a value and in the values below it, each with its container."""
    inside = value.items() if isinstance(value, dict) else enumerate(value) if isinstance(value, list) else ()
    for key, inner in inside:
        found.append((value, key))
        places_in(inner, found)
    return found


def with_other_types(draw, text):
    """Returns a text in JSON, YAML or TOML in which values are replaced."""
    if text.lstrip()[:1] == b"{":
        value = json.loads(text)
        dump = json.dumps
    elif re.search(rb"(?:\A|\n)(?:lockfileVersion|packages):\s", text):
        import yaml
        value = yaml.load(text, yaml.BaseLoader)
        dump = yaml.dump
    else:
        pieces = re.split(rb"(?m)(?<= = )(.*)$", text)
        for _ in range(draw.randrange(1, 3)):
            if len(pieces) > 1:
                pieces[draw.randrange(1, len(pieces), 2)] = draw.choice(TOML_VALUES).encode()
        return b"".join(pieces)
    for _ in range(draw.randrange(1, 3)):
        places = places_in(value, [])
        if places:
            holder, key = draw.choice(places)
            if isinstance(holder, dict) and draw.randrange(4) == 0:
                holder[draw.choice([it for it in VALUES if isinstance(it, str)])] = holder.pop(key)
            else:
                holder[key] = draw.choice(VALUES)
    return dump(value).encode("utf-8", "surrogatepass")


DAMAGES = (cut, with_other_bytes, with_other_lines, with_other_types, with_other_types, with_other_types)


# ---- the programs


def status_of(program, arguments):
    """Returns the status of a program. Fails if its output can't be encoded. An exception that
    isn't a Refusal or a Misuse is passed on."""
    try:
        outcome = outcome_of(program, arguments)
    except (Misuse, Refusal) as error:
        str(error).encode("utf-8", "backslashreplace")
        return 2
    "\n".join([*outcome.lines, *outcome.notes]).encode("utf-8", "backslashreplace")
    return outcome.status


def commands_for(draw, path, whole):
    """Returns the commands for a damaged file: for a manifest both programs, if a lock file is next
    to it."""
    folder, name = os.path.split(path)
    chosen = [it for it in MAY_GIVE if draw.randrange(4) == 0]
    options = ["--format", draw.choice(FORMATS), *chosen]
    if name not in MANIFESTS:
        return [(check_lock_file.PROGRAM, [*options, path])]
    found = [] if name == ".npmrc" else [(compare_requirements.PROGRAM, draw.choice(([whole, path], [path, whole])))]
    while len(folder) >= len(CASES_COPY):
        locks = [it for it in os.listdir(folder) if re.search(r"lock\b|shrinkwrap", it) and not it.endswith((".text", ".expected"))]
        locks = [os.path.join(folder, it) for it in locks if os.path.isfile(os.path.join(folder, it))]
        if locks:
            found.append((check_lock_file.PROGRAM, [*options, draw.choice(sorted(locks))]))
            break
        folder = os.path.dirname(folder)
    return found


def sources():
    """Yields the files of the cases that may be damaged."""
    for folder, _, names in os.walk(CASES_COPY):
        for name in names:
            if name in MANIFESTS or re.search(r"\.(json|toml|yaml|lock|lockb)$", name):
                yield os.path.join(folder, name)


def main():
    count, seed = int(sys.argv[1]), int(sys.argv[2])
    draw = random.Random(seed)
    files = sorted(sources())
    statuses, errors = {}, 0
    for number in range(count):
        path = draw.choice(files)
        with open(path, "rb") as file:
            text = file.read()
        whole = os.path.join(CASES_COPY, "whole" + os.path.splitext(path)[1])
        shutil.copy(path, whole)
        damage = draw.choice(DAMAGES)
        try:
            damaged = damage(draw, text)
        except Exception:
            damaged = cut(draw, text)
        with open(path, "wb") as file:
            file.write(damaged)
        for program, arguments in commands_for(draw, path, whole):
            try:
                status = status_of(program, arguments)
                statuses[status] = statuses.get(status, 0) + 1
                if status in (0, 1, 2):
                    continue
                why = f"status {status}"
            except Exception:
                why = traceback.format_exc()
            errors += 1
            kept = os.path.join(tempfile.gettempdir(), f"damaged-{seed}-{number}-{os.path.basename(path)}")
            shutil.copy(path, kept)
            print(f"{program.name} {' '.join(arguments)}\n(a copy is in {kept})\n{why}")
        with open(path, "wb") as file:
            file.write(text)
    listed = ", ".join(f"{times:,} with status {it}" for it, times in sorted(statuses.items()))
    print(f"{count:,} damaged files, seed {seed}: {listed}; {errors} errors")
    return int(errors > 0)


if __name__ == "__main__":
    with tempfile.TemporaryDirectory() as work:
        CASES_COPY = os.path.join(work, "cases")
        shutil.copytree(CASES, CASES_COPY)
        for manifest in pathlib.Path(CASES_COPY).rglob("Cargo.toml.case"):
            manifest.rename(manifest.with_suffix(""))
        sys.exit(main())
