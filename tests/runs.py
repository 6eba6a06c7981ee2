#!/usr/bin/env python3
r"""Runs a program as a table says, and compares what it writes and its status, byte by byte:
tests/runs.py [--cargo] TABLE COMMAND.. If something differs, it prints what, and exits with 1.

TABLE is a file in tests/runs, and COMMAND runs the program. `--cargo` is for a program that cargo
built instead of the kit. A table has blocks such as this one:

    == a tag
    $ release-filter --prefix v '^1'
    < v1.2.0
    < 2.0.0
    > v1.2.0
    status: 0

- `==` begins a run, and names it. The line `runs:` says how many runs the table has.
- `$` has the command line, quoted as in a shell. Nothing is expanded. Its first word is the name of
  the table, and stands for COMMAND.
- `<` is a line of standard input, `>` of standard output, and `!` of standard error.
- `with:` says what is special about the run: one of KINDS below.
- `file:` begins a file, whose lines begin with `<`. Each run is in a directory with these files.
  `input:` names the one that is the standard input of a run.
- `build:` names the only build, `cargo` or `kit`, that the run applies to.

Texts, and words of a command line in single quotes, may have these escapes:

- `\\`, `\t`, `\r`, `\n`, `\xff`: one byte. `\` at the end of a line: the line has no line feed.
- `\(a*1000)`: a thousand times a. `\(1.#\n:2..9)`: this for each number from 2 to 9, or from a
  higher one down. `\(version)`: the version of the project.
"""

import argparse
import contextlib
import os
import pty
import re
import shlex
import shutil
import tempfile
import time
from pathlib import Path
from subprocess import PIPE, Popen

# The kinds of runs, and how a shell runs the command `"$@"` for them.
KINDS = {
    "closed input": 'exec "$@" <&-',
    "directory as input": 'exec "$@" < /',
    "closed output": 'exec "$@" >&-',
    "full output": 'exec "$@" > /dev/full',
    "10,000 KiB of memory": 'ulimit -v 10000 && exec "$@"',
    "one line is read": 'exec 4>&1; exit $({ { "$@"; echo $? >&3; } | head -n 1 >&4; } 3>&1)',
    # The reader closes its end of the pipe before the program begins.
    "nothing is read": "rm -f gate; mkfifo gate; exit "
    '$({ { cat gate; "$@"; echo $? >&3; } | { exec <&-; : > gate; }; } 3>&1)',
    "input in pieces": "",  # a line every 0.2 seconds
    "input after output": "",  # a line once the program has written one for the line before
    "errors to a terminal": "",
    "any line of errors": "",  # exactly one line, whatever it says
}
VALUES = {"build:": ("cargo", "kit"), "with:": KINDS, "status:": [*map(str, range(256))]}
STREAMS = {"<": "standard input", ">": "standard output", "!": "standard error"}
TOP = Path(__file__).resolve().parents[1]
ESCAPES = {b"\\": b"\\", b"t": b"\t", b"r": b"\r", b"n": b"\n", b"\n": b""}
ESCAPES[b"(version)"] = (TOP / "VERSION").read_bytes().strip()


def decoded(text):
    """Returns a text with its escapes replaced."""
    return re.sub(rb"\\(\([^)]+\)|x..|.)", lambda it: bytes_of(it[1]), text, flags=re.S)


def bytes_of(escape):
    """Returns what an escape stands for."""
    if escape in ESCAPES:
        return ESCAPES[escape]
    if escape.startswith(b"x"):
        return bytes.fromhex(escape[1:].decode())
    text, first, last = re.fullmatch(rb"\((.+)[*:](\d+)(\.\.\d+)?\)", escape, re.S).groups()
    text, first = decoded(text), int(first)
    if not last:
        return text * first
    numbers = range(first, int(last[2:]) + 1) or range(first, int(last[2:]) - 1, -1)
    return b"".join(text.replace(b"#", b"%d" % it) for it in numbers)


def read_table(path):
    """Returns the files and the runs of a table. Raises a ValueError that says what is wrong."""
    count, files, runs, block = "no line", {}, [], {}
    for number, line in enumerate(path.read_bytes().split(b"\n"), 1):
        key, _, value = os.fsdecode(line).partition(" ")
        try:
            if key in block:
                raise KeyError(key)
            if key in STREAMS:
                block[STREAMS[key]].append(decoded(os.fsencode(value) + b"\n"))
            elif key == "==":
                block = {"name": value, **{it: [] for it in STREAMS.values()}}
                runs.append(block)
            elif key == "file:":
                block = {STREAMS["<"]: files.setdefault(value, [])}
            elif key == "input:":
                block[key] = files[value]
            elif key == "$":
                name, *words = shlex.split(value)
                block[key] = [decoded(os.fsencode(it)) for it in words]
                if name != path.name:
                    raise ValueError(name)
            elif key == "runs:":
                count = int(value)
            elif key and not key.startswith("#"):
                block[key] = dict(zip(VALUES[key], VALUES[key]))[value]
        except (AttributeError, KeyError, ValueError) as error:
            raise ValueError(f"line {number} is invalid: {os.fsdecode(line)}") from error
    for run in runs:
        if not {"$", "status:"} <= run.keys():
            raise ValueError(f"a run has no command or no status: {run['name']}")
    if not len({it["name"] for it in runs}) == len(runs) == count:
        raise ValueError(f"it has {len(runs)} runs, not {count}, or two have the same name")
    return files, runs


def outcome(command, run, directory):
    """Runs a command in a directory. Returns its output, its errors and its status."""
    kind, lines, output = run.get("with:", ""), run.get("input:", run[STREAMS["<"]]), b""
    shell = ["sh", "-c", KINDS[kind], "sh"] if KINDS.get(kind) else []
    terminal, end = pty.openpty() if kind == "errors to a terminal" else (None, PIPE)
    command = ["timeout", "300", *shell, *command]
    process = Popen(command, 0, None, PIPE, PIPE, end, cwd=directory)
    while lines and kind in ("input in pieces", "input after output"):
        line, *lines = lines
        with contextlib.suppress(BrokenPipeError):
            process.stdin.write(line)
        if kind == "input after output":
            output += process.stdout.readline()
        else:
            time.sleep(0.2)
    rest, errors = process.communicate(b"".join(lines))
    if terminal:
        os.close(end)
        with contextlib.suppress(OSError), os.fdopen(terminal, "rb", 0) as reader:
            errors = reader.read(4096).replace(b"\r\n", b"\n")
    if kind == "any line of errors":
        errors = b"" if errors.count(b"\n") == 1 else errors or b"no line"
    return output + rest, errors or b"", b"%d" % process.returncode


def is_as(what, wanted, told):
    """Returns whether two texts are the same. If not, prints the lines from where they differ."""
    if wanted == told:
        return True
    lines = [re.findall(rb"[^\n]*\n|[^\n]+", it) for it in (wanted, told)]
    same = len(os.path.commonprefix(lines))
    print(f"{what} differs from line {same + 1} on:")
    for sign, those in zip("-+", lines):
        for line in those[same : same + 10]:
            print(f"    {sign} {line[:200]!r}")
    return False


def main():
    """Runs a program as its table says, and exits with 1 if something differs."""
    parser = argparse.ArgumentParser(usage="tests/runs.py [--cargo] TABLE COMMAND..")
    parser.add_argument("--cargo", action="store_const", const="cargo", default="kit", dest="build")
    parser.add_argument("table")
    parser.add_argument("program", type=lambda it: shutil.which(it) or parser.error(f"no {it}"))
    parser.add_argument("arguments", nargs=argparse.REMAINDER)
    given = parser.parse_args()
    try:
        files, runs = read_table(TOP / "tests/runs" / given.table)
    except (OSError, ValueError) as error:
        parser.error(f"{given.table}: {error}")
    command, failed = [os.path.abspath(given.program), *given.arguments], 0
    runs = [it for it in runs if it.get("build:", given.build) == given.build]
    with tempfile.TemporaryDirectory() as directory:
        for name, lines in files.items():
            Path(directory, name).write_bytes(b"".join(lines))
        for run in runs:
            wanted = [*(b"".join(run[STREAMS[it]]) for it in ">!"), run["status:"].encode()]
            told = outcome([*command, *run["$"]], run, directory)
            names = [f"{run['name']}: {it}" for it in (STREAMS[">"], STREAMS["!"], "the status")]
            failed += not all([is_as(*it) for it in zip(names, wanted, told)])
    how = f"{failed} of {len(runs)} failed" if failed else f"all {len(runs)}, passed"
    print(f"runs of {' '.join([given.program, *given.arguments])}: {how}")
    parser.exit(bool(failed))


if __name__ == "__main__":
    main()
