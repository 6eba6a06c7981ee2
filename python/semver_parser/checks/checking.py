"""What `check-lock-file` does: it checks the lock files that are named, and prints the findings."""

import os
import sys
from typing import Callable, Dict, Iterator, List

from .allowed import allow
from .closing import closing_line, error_of, total_line
from .discovery import Discovery, discover
from .files import STANDARD_INPUT
from .model import Scope
from .output import github, json_object, sarif, text, tsv
from .program import Misuse, Options, Outcome, escaped, one_of
from .progress import Progress
from .repairs import repair_lines
from .reports import Report, Results, Wanted, report_on

NAME = "check-lock-file"

Lines = Callable[[Results], Iterator[str]]

FORMATS: Dict[str, Lines] = {
    "text": text.lines,
    "tsv": tsv.lines,
    "json": json_object.lines,
    "github": github.lines,
    "sarif": sarif.lines,
}
WITH_LINES = ("json", "github", "sarif")
COLORS = ("auto", "always", "never")


def format_of(options: Options) -> str:
    """Returns the format that the options name."""
    named = options.given.get("--format", "text")
    if "--json" in options.given:
        if named not in ("text", "json"):
            raise Misuse(f"--json and --format {named} are both given")
        return "json"
    if named not in FORMATS:
        raise Misuse(f'unknown format: "{named}" isn\'t {one_of(FORMATS)}')
    return named


def refuse_several(options: Options, found: Discovery) -> None:
    """Rejects a package.json for several lock files, and standard input for two files."""
    named, allowed = options.given.get("--package-json"), options.given.get("--allow")
    if named is not None and (found.is_several or len(found.paths) != 1):
        raise Misuse("--package-json is for exactly one file")
    if [named, allowed, *found.paths].count(STANDARD_INPUT) > 1:
        raise Misuse("two files are standard input")


def is_colored(options: Options) -> bool:
    """Returns whether sentences are in color. If no option says so, they are at a terminal, unless
    the environment forbids it."""
    asked = options.given.get("--color", "auto")
    if asked not in COLORS:
        raise Misuse(f'unknown color: "{asked}" isn\'t {one_of(COLORS)}')
    if asked != "auto":
        return asked == "always"
    is_refused = os.environ.get("NO_COLOR") or os.environ.get("TERM") == "dumb"
    return sys.stdout.isatty() and not is_refused


def reports_on(paths: List[str], options: Options, form: str) -> Iterator[Report]:
    """Yields the report on each lock file."""
    scope = Scope("--no-peers" not in options.given, "--no-dev" not in options.given)
    asked = ("--why" in options.given, "--duplicates" in options.given)
    wanted = Wanted(scope, form in WITH_LINES or asked[0], *asked)
    progress = Progress(len(paths))
    try:
        for number, path in enumerate(paths, 1):
            progress.at(number, path)
            report = report_on(path, options.given.get("--package-json"), wanted)
            report.is_strict = "--strict" in options.given
            found = (it for it in report.findings if report.is_strict or not it.excuse)
            report.listed = [*found, *report.duplicates]
            yield report
    finally:
        progress.end()


def notes_of(results: Results, is_quiet: bool) -> Iterator[str]:
    """Yields the lines for standard error: for each lock file its closing line and what repairs it,
    or why it was not checked; and a line for all if there are several."""
    for report in results.reports:
        error = error_of(report)
        if error is not None:
            yield f"{NAME}: {escaped(str(error))}"
        elif not is_quiet:
            yield escaped(closing_line(report))
            yield from map(escaped, repair_lines(report))
    for refusal in results.refusals:
        yield f"{NAME}: {escaped(str(refusal))}"
    if len(results.reports) > 1 and not is_quiet:
        yield total_line(results)


def status_of(results: Results) -> int:
    """Returns the status, which is the highest of all files."""
    if results.refusals or any(error_of(it) is not None for it in results.reports):
        return 2
    listed = (finding for it in results.reports for finding in it.listed)
    return int(bool(results.unused) or any(not it.is_note for it in listed))


def check(options: Options) -> Outcome:
    """Lists the findings about the lock files that are named, and says how much was checked."""
    form, is_quiet = format_of(options), "--quiet" in options.given
    in_color = is_colored(options) and form == "text"
    found = discover(options.files or ["."])
    refuse_several(options, found)
    reports = list(reports_on(found.paths, options, form))
    named = options.given.get("--allow")
    unused = [] if named is None else allow(named, reports)
    results = Results(reports, found.refusals, unused, found.is_several)
    lines = text.lines(results, True) if in_color else FORMATS[form](results)
    notes = [] if is_quiet else [escaped(note) for note in found.notes]
    return Outcome(lines, [*notes, *notes_of(results, is_quiet)], status_of(results))
