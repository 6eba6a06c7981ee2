"""The file of known findings for `--allow`: one finding a line, with a reason."""

import os
from typing import Dict, Iterator, List, NamedTuple

from .tools import LOCK_FILES
from .files import STANDARD_INPUT, Refusal, bytes_of, taking, utf8
from .reports import Report, Unused

MARK = " # "


class Line(NamedTuple):
    """A line of the file: its number, and its text."""

    number: int
    text: str

    def sentences(self) -> Iterator[str]:
        """Yields the findings that the line may be for: the text before each mark that has a reason
        after it."""
        at = self.text.find(MARK)
        while at >= 0:
            if self.text[at + len(MARK) :].strip():
                yield self.text[:at].strip()
            at = self.text.find(MARK, at + 1)


def short(path: str) -> str:
    """Returns a path relative to the current directory, however it was written."""
    return os.path.relpath(path) if path != STANDARD_INPUT else path


def lines_of(path: str) -> List[Line]:
    """Returns the lines of a file of known findings. A line without a reason is rejected."""
    with taking(path, "list of known findings"):
        text = utf8(bytes_of(path, True))
    found = []
    for number, line in enumerate(text.splitlines(), 1):
        bare = line.strip()
        if bare and not bare.startswith("#"):
            found.append(Line(number, bare))
            if not any(found[-1].sentences()):
                raise Refusal(path, f"line {number}: no reason")
    return found


def allow(path: str, reports: List[Report]) -> List[Unused]:
    """Removes the findings that a file allows from reports. Returns the lines of the file that no
    longer apply, except those of lock files that weren't checked."""
    lines = lines_of(path)
    known: Dict[str, Line] = {it: line for line in lines for it in line.sentences()}
    used: List[Line] = []
    for report in reports:
        before = texts_before(report)
        for finding in [*report.findings, *report.duplicates]:
            texts = (text + finding.sentence() for text in before)
            used += [known[it] for it in texts if it in known]
        kept = [it for it in report.listed if not is_known(it.sentence(), before, known)]
        report.allowed, report.listed = len(report.listed) - len(kept), kept
    checked = [short(report.name) for report in reports if report.refusal is None]
    return [
        Unused(path, *line)
        for line in lines
        if line not in used and not may_apply_elsewhere(line, checked, len(reports))
    ]


def texts_before(report: Report) -> List[str]:
    """Returns what may be before a sentence of a report: nothing, its file as it is printed, or its
    file relative to the current directory."""
    return list(dict.fromkeys(("", report.before, f"{short(report.name)}: ")))


def is_known(text: str, before: List[str], known: Dict[str, Line]) -> bool:
    """Returns whether a sentence is allowed, with or without its file before it."""
    return any(it + text in known for it in before)


def may_apply_elsewhere(line: Line, checked: List[str], files: int) -> bool:
    """Returns whether a line that wasn't used may still apply: it begins with a lock file that
    wasn't checked, or with none, and one of the files was rejected."""
    path, colon, _ = line.text.partition(": ")
    if colon and os.path.basename(path.strip('"')) in LOCK_FILES:
        return short(path.strip('"')) not in checked
    return len(checked) < files
