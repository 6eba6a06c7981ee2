"""The common frame of the programs: arguments, output and status."""

import io
import json
import os
import re
import signal
import sys
from typing import Callable, Dict, Iterable, List, NamedTuple, Tuple

from .. import __version__
from .files import STANDARD_INPUT, Refusal


class Misuse(Exception):
    """The arguments of a program are wrong, and how."""


# ---- what is written


# Characters that a terminal would act on: control characters, in ASCII and after it, line ends, and
# marks that change the direction of what follows.
CONTROL = re.compile("[\0-\x1f\x7f-\x9f\u061c\u200e\u200f\u2028-\u202e\u2066-\u2069]")


def visible(text: str) -> str:
    """Returns a text in which control characters are JSON escapes."""
    return CONTROL.sub(lambda it: in_json(it.group()), text)


def in_json(character: str) -> str:
    """Returns a control character as a JSON escape."""
    return json.dumps(character)[1:-1] if character < " " else f"\\u{ord(character):04x}"


def escaped(text: str) -> str:
    """Returns a text in which backslashes and control characters are JSON escapes."""
    return visible(text.replace("\\", "\\\\"))


def joined(*fields: str) -> str:
    """Returns a line of fields, separated by tabs."""
    return "\t".join(escaped(field) for field in fields)


def open_output() -> None:
    """Makes standard output and standard error write UTF-8 on each system. A closed one becomes a
    file that ignores what is written."""
    sys.stdout = sys.stdout or open(os.devnull, "w")
    sys.stderr = sys.stderr or open(os.devnull, "w")
    for stream in (sys.stdout, sys.stderr):
        if isinstance(stream, io.TextIOWrapper):
            stream.reconfigure(encoding="utf-8", errors="backslashreplace", newline="\n")


# ---- a program and its arguments


class Options(NamedTuple):
    """The arguments of a program: its files, and its options, each with its value."""

    files: List[str]
    given: Dict[str, str]


class Outcome(NamedTuple):
    """What a program prints on standard output and on standard error, and its status."""

    lines: Iterable[str]
    notes: List[str]
    status: int


class Program(NamedTuple):
    """A program.

    - `page` is what `--help` prints.
    - `options` has its options, each with whether a value follows it.
    - `refuse` raises `Misuse` if the number of files is wrong.
    - `run` does what the program is for.
    """

    name: str
    page: str
    options: Dict[str, bool]
    refuse: Callable[[Options], None]
    run: Callable[[Options], Outcome]


def read_arguments(
    arguments: List[str], options: Dict[str, bool]
) -> Tuple[List[str], Dict[str, str]]:
    """Returns the files that are named, and the options, each with its value. If there is an option
    for help or for the version, returns only that."""
    files: List[str] = []
    given: Dict[str, str] = {}
    left = iter(arguments)
    for argument in left:
        name, equals, value = argument.partition("=")
        if argument == "--":
            return [*files, *left], given
        if argument in ("-h", "--help"):
            return [], {"--help": ""}
        if argument == "--version":
            return [], {"--version": ""}
        if argument == STANDARD_INPUT or not argument.startswith("-"):
            files.append(argument)
            continue
        if name not in options:
            raise Misuse(f'unknown option: "{argument}"')
        if equals and not options[name]:
            raise Misuse(f'{name} is an option without a value, and "{value}" is given')
        if name in given:
            raise Misuse(f"{name} is given twice")
        given[name] = value if equals or not options[name] else next(left, "")
        if options[name] and not given[name]:
            raise Misuse(f"{name} has no value")
    return files, given


def one_of(names: Iterable[str]) -> str:
    """Returns the values of an option, for a message: `a, b or c`."""
    *first, last = names
    return f"{', '.join(first)} or {last}"


def let_interrupt() -> None:
    """Lets an interrupt end the program at once, without an exception of Python."""
    if signal.getsignal(signal.SIGINT) is signal.default_int_handler:
        signal.signal(signal.SIGINT, signal.SIG_DFL)


def run(program: Program, arguments: List[str]) -> int:
    """Runs a program, and returns its status. It is 2 if the arguments are wrong, if a file is
    rejected, or if the output can't be written; one line on standard error reports that."""
    let_interrupt()
    open_output()
    try:
        return write(outcome_of(program, arguments))
    except Misuse as error:
        why = f"{error}; see {program.name} --help"
    except Refusal as error:
        why = str(error)
    except MemoryError:
        why = "out of memory"
    except OSError as error:
        why = f"the output can't be written: {error.strerror or error}"
        os.dup2(os.open(os.devnull, os.O_WRONLY), 1)
    print(f"{program.name}: {escaped(why)}", file=sys.stderr)
    return 2


def outcome_of(program: Program, arguments: List[str]) -> Outcome:
    """Returns the outcome of a program for its arguments."""
    files, given = read_arguments(arguments, program.options)
    if "--help" in given:
        return Outcome([program.page], [], 0)
    if "--version" in given:
        return Outcome([f"{program.name} {__version__}"], [], 0)
    options = Options(files, given)
    program.refuse(options)
    return program.run(options)


def write(outcome: Outcome) -> int:
    """Writes what a program prints, and returns its status, even if a reader closed its pipe
    early."""
    try:
        for line in outcome.lines:
            print(line)
        sys.stdout.flush()
    except BrokenPipeError:
        os.dup2(os.open(os.devnull, os.O_WRONLY), 1)
    for note in outcome.notes:
        print(note, file=sys.stderr)
    return outcome.status
