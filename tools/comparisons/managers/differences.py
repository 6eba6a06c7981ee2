"""Differences between the checker and a tool, including those that DIFFERENCES.md lists."""

import json
import os
import sys
from pathlib import Path
from typing import Any, Dict, List, NamedTuple, Set, Tuple

TOP = os.path.dirname(os.path.dirname(os.path.dirname(os.path.dirname(os.path.abspath(__file__)))))
sys.path.insert(0, os.path.join(TOP, "python"))
from semver_parser.checks.findings import (  # noqa: E402
    Finding,
    InvalidVersion,
    Missing,
    NotChecked,
    Overridden,
    Record,
    Unsatisfied,
)
from semver_parser.checks.model import PROJECT, Scope  # noqa: E402
from semver_parser.checks.reports import Wanted, report_on  # noqa: E402

AS_WRITTEN = "a finding for a lock file as the tool wrote it"
"""A difference that DIFFERENCES.md doesn't excuse: the tool wrote the file, and accepts it. The
only exceptions are what npm left out, and peers that it kept, by what the registry has."""

RECORD = Path(__file__).with_name("repaired")
"""The record of what commands repaired: a tool and a kind of findings on each line."""

Edge = Tuple[str, str]
"""The package that requires something (empty for the project), and the name that it requires."""


class Rejected(Finding):
    """A lock file that the checker rejects."""

    kind = "rejected"

    def __init__(self, why: str) -> None:
        self.why = why

    @property
    def record(self) -> Record:
        """Returns the reason."""
        return Record(range=self.why)


class Found(NamedTuple):
    """What the checker lists: requirements that aren't satisfied, and findings that tools don't
    look for."""

    edges: Set[Edge]
    others: List[Finding]


def found_in(path: str, is_strict: bool = False) -> Found:
    """Returns what the checker lists for a lock file."""
    report = report_on(path, None, Wanted(Scope()))
    if report.refusal is not None:
        sys.exit(f"{path}: {report.refusal}")
    listed = [it for it in report.findings if is_strict or not it.excuse]
    unmet = [it.kind for it in (Unsatisfied, Overridden, Missing, InvalidVersion)]
    edges, others = set(), []
    for it in listed:
        record = it.record
        if it.kind in unmet and record.requirer:
            edges.add(("" if record.requirer == PROJECT else it.about, record.dependency or ""))
        elif it.kind != NotChecked.kind:
            others.append(it)
    return Found(edges, others)


def findings_in(path: Path) -> List[Finding]:
    """Returns what the checker lists for a lock file with --strict, or that it rejects it."""
    report = report_on(str(path), None, Wanted(Scope()))
    if report.refusal is not None:
        return [Rejected(str(report.refusal))]
    return report.findings


def listed_in(path: Path) -> List[Finding]:
    """Returns what the checker lists for a lock file by default, or that it rejects it."""
    return [it for it in findings_in(path) if not it.excuse]


def is_refused(path: Path) -> bool:
    """Returns whether the checker rejects a lock file or lists something."""
    return bool(listed_in(path))


def recorded(tool: str) -> Set[str]:
    """Returns the kinds of findings that the command of a tool has repaired, by the record."""
    lines = (line.rpartition(" ") for line in RECORD.read_text().splitlines())
    return {cause for name, _, cause in lines if name == tool}


class Differences:
    """How much was compared; the differences by kind, and those that a row of DIFFERENCES.md names;
    and the smallest world for each."""

    def __init__(self, tool: str) -> None:
        self.tool = tool
        self.counts: Dict[str, int] = {}
        self.smallest: Dict[str, str] = {}
        self.repaired: Set[str] = set()
        self.is_same = True

    def count(self, what: str) -> None:
        """Counts something."""
        self.counts[what] = self.counts.get(what, 0) + 1

    def choose(self, choice: str, world: Any) -> None:
        """Records a difference that a row of DIFFERENCES.md names."""
        self.keep(f"by choice, {choice}", world)

    def add(self, kind: str, world: Any) -> None:
        """Records a difference."""
        self.is_same = False
        self.keep(f"DIFFERENCE: {kind}", world)

    def keep(self, what: str, world: Any) -> None:
        """Counts something, and keeps its world if that is the smallest so far."""
        self.count(what)
        text = json.dumps(world)
        if len(text) < len(self.smallest.get(what, text + " ")):
            self.smallest[what] = text

    def report(self) -> bool:
        """Prints everything. Returns whether all differences are choices."""
        for cause in sorted(self.repaired - recorded(self.tool)):
            self.add(f"a repair that {RECORD.name} lacks", f"{self.tool} {cause}")
        print(f"{self.tool}:")
        for what, count in sorted(self.counts.items()):
            print(f"  {what}: {count}")
            if what in self.smallest:
                print(f"    {self.smallest[what]}")
        return self.is_same
