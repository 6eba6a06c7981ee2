"""What repairs a lock file: the command of its tool that writes it anew, or what else to change."""

import os
from typing import Dict, Iterator, List, Optional

from .causes import untried
from .files import STANDARD_INPUT
from .findings import Finding, place_of
from .reports import Report
from .wording import quoted


COMMAND = "run "
"""How an advice begins that names a command. It isn't printed if something makes commands fail."""

MOST_NAMES = 3
"""How many packages a line names."""


def wrong_in(report: Report) -> List[Finding]:
    """Returns the listed findings that something has to repair."""
    return [it for it in report.listed if not (it.is_note or it.excuse)]


def command_for(report: Report) -> Optional[str]:
    """Returns the command that repairs the findings about a lock file. Returns None if it repairs
    none of them, or if one makes it fail."""
    wrong = wrong_in(report)
    if report.tool is None or any(it.is_blocking for it in wrong):
        return None
    return report.tool.repair or None if any(not it.advice for it in wrong) else None


def called(finding: Finding) -> str:
    """Returns the package that a finding is about, or else its place."""
    return quoted(finding.group) if finding.group else place_of(finding.about)


def names_of(findings: List[Finding]) -> str:
    """Returns the packages that findings are about, in words."""
    names = list(dict.fromkeys(map(called, findings)))
    shown, others = names[:MOST_NAMES], len(names) - MOST_NAMES
    if others > 0:
        shown.append(f"{others:,} {'other' if others == 1 else 'others'}")
    *first, last = shown
    return f"{', '.join(first)} and {last}" if first else last


def repair_lines(report: Report) -> Iterator[str]:
    """Yields the lines that say how to repair a lock file. A line names the packages that it is for,
    unless it has the command of the tool and is for all findings."""
    if report.tool is None or not report.tool.repair:
        return
    wrong, command = wrong_in(report), command_for(report)
    is_blocked = any(it.is_blocking for it in wrong)
    directory = "" if report.path == STANDARD_INPUT else os.path.dirname(report.path)
    where = f" in {quoted(directory)}" if directory else ""
    by_command = f"{COMMAND}{command}{where}"
    by_advice: Dict[str, List[Finding]] = {by_command: []}
    for finding in wrong:
        by_advice.setdefault(finding.advice or by_command, []).append(finding)
    for advice, findings in by_advice.items():
        is_command = advice.startswith(COMMAND) or advice == untried(report.tool)
        if not findings or is_command and is_blocked:
            continue
        is_for_all = is_command and len(findings) == len(wrong)
        what = report.name if is_for_all else f"{names_of(findings)} in {report.name}"
        yield f"to repair {what}, {advice}"
