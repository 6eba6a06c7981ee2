"""The format `text`: a sentence for each finding, grouped by package."""

from typing import Dict, Iterator, List

from ..findings import Finding
from ..program import escaped, visible
from ..reports import Report, Results
from ..wording import PACKAGE, RANGE, VERSION, Paint, plain, quoted

LOOKS = {PACKAGE: "1", VERSION: "31", RANGE: "32"}


def colored(text: str, part: str) -> str:
    """Returns a part of a sentence for a terminal: bold, red or green."""
    return f"\x1b[{LOOKS[part]}m{text}\x1b[0m"


def lines(results: Results, is_colored: bool = False) -> Iterator[str]:
    """Yields the lines of all files."""
    paint: Paint = colored if is_colored else plain
    for report in results.reports:
        before = report.before if results.is_several else ""
        for finding in grouped(report.listed):
            first, *rest = told(report, finding, paint)
            yield from (before + first, *rest)
    for it in results.unused:
        yield f"{quoted(it.path)}: line {it.line} no longer applies: {visible(it.text)}"


def told(report: Report, finding: Finding, paint: Paint = plain) -> Iterator[str]:
    """Yields the sentence of a finding. If paths are wanted, also yields the path to the requirer,
    with where a manifest states a direct requirement."""
    yield finding.sentence(paint)
    if report.paths is not None:
        path, stated = report.paths.path_to(finding), report.statement(finding)
        where = f" ({quoted(stated.path)}, line {stated.line})" if stated is not None else ""
        yield f"  path: {' > '.join(map(escaped, path))}{where}"


def grouped(findings: List[Finding]) -> Iterator[Finding]:
    """Yields the findings. Those about one package are together, where the first of them is."""
    groups: Dict[str, List[Finding]] = {}
    for finding in findings:
        groups.setdefault(finding.group, []).append(finding)
    for group in groups.values():
        yield from group
