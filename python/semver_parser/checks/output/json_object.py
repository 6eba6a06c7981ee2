"""The format `json`: one object with all that is known."""

from typing import Iterator

from ..closing import error_of
from ..findings import Finding
from ..repairs import command_for
from ..reports import Report, Results
from .pieces import Object, filled, lines_of


def lines(results: Results) -> Iterator[str]:
    """Yields the lines of the object."""
    whole: Object = {
        "files": [],
        "errors": [{"file": it.path, "error": it.why} for it in results.refusals],
        "allow": [it._asdict() for it in results.unused],
    }
    yield from filled(whole, "files", map(report_lines, results.reports))


def report_lines(report: Report) -> Iterator[str]:
    """Yields the lines of what is known of a lock file. A file that was rejected has no tool."""
    error = error_of(report)
    known: Object = {
        "file": report.name,
        "tool": report.tool_name or None,
        "error": None if error is None else error.why,
        "repair": command_for(report),
        "packages": report.packages,
        "checked": report.checked(),
        "not_checked": report.not_checked(),
        "not_reached": report.not_reached(),
        "left_out": report.left_out,
        "allowed": report.allowed,
        "from_lock": report.from_lock,
        "findings": [],
    }
    findings = (lines_of(finding_object(it, report)) for it in report.listed)
    yield from filled(known, "findings", findings)


def finding_object(it: Finding, report: Report) -> Object:
    """Returns all parts of a finding. A part that it doesn't have is null."""
    stated = report.statement(it)
    return {
        "kind": it.kind,
        **it.record._asdict(),
        "advice": it.advice or None,
        "line": report.lines.get(it.at),
        "manifest": None if stated is None else stated.path,
        "manifest_line": None if stated is None else stated.line,
        "path": None if report.paths is None else report.paths.path_to(it),
        "sentence": it.sentence(),
    }
