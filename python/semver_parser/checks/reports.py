"""The report on the check of one lock file."""

from dataclasses import dataclass, field
from typing import Dict, List, NamedTuple, Optional, Set

from .causes import advise
from .duplicates import duplicates_in
from .files import STANDARD_INPUT, Refusal, bytes_of, name_of, taking
from .findings import Finding, Missing
from .judge import judge
from .locating import lines_at, statement_lines
from .model import NOT_REACHED, Keys, Scope
from .paths import Paths
from .tool import Input, Tool
from .tools import tool_for
from .wording import quoted

# Why requirements for directories of the project aren't checked.
OWN = {"path", "link", "workspace"}


class Position(NamedTuple):
    """A file, and a line of it, if that is known."""

    path: str
    line: Optional[int]


@dataclass
class Report:
    """A lock file, and the tool that wrote it; all findings, those that are listed, and how many
    are allowed; how much was checked; and why the file was rejected, if it was. On demand it has
    the lines of entries and manifests, and the paths from the project."""

    path: str
    tool: Optional[Tool] = None
    findings: List[Finding] = field(default_factory=list)
    listed: List[Finding] = field(default_factory=list)
    duplicates: List[Finding] = field(default_factory=list)
    allowed: int = 0
    requirements: int = 0
    packages: int = 0
    left_out: int = 0
    from_lock: int = 0
    lines: Dict[Keys, int] = field(default_factory=dict)
    positions: Dict[int, Position] = field(default_factory=dict)
    paths: Optional[Paths] = None
    refusal: Optional[Refusal] = None
    is_strict: bool = False

    @property
    def name(self) -> str:
        """The file as it is printed in fields."""
        return name_of(self.path)

    @property
    def tool_name(self) -> str:
        """The name of the tool that wrote the file; empty if it isn't known."""
        return "" if self.tool is None else self.tool.name

    @property
    def before(self) -> str:
        """The text before a sentence that begins with its file."""
        return f"{self.name if self.path == STANDARD_INPUT else quoted(self.path)}: "

    def statement(self, finding: Finding) -> Optional[Position]:
        """Returns where a manifest states what a finding is about, if that is known."""
        return self.positions.get(id(finding))

    def position(self, finding: Finding) -> Position:
        """Returns the file and the line that a finding is about: those of the manifest, if it has
        the requirement."""
        stated = self.statement(finding)
        return stated or Position(self.name, self.lines.get(finding.at))

    def not_checked(self) -> Dict[str, int]:
        """Returns how many requirements aren't checked, for each reason."""
        found: Dict[str, int] = {}
        for it in self.findings:
            if it.excuse and it.excuse != NOT_REACHED:
                reason = Missing.kind if it.kind == Missing.kind else it.excuse
                found[reason] = found.get(reason, 0) + 1
        return found

    def not_reached(self) -> int:
        """Returns to how many packages nothing leads."""
        return sum(it.excuse == NOT_REACHED for it in self.findings)

    def checked(self) -> int:
        """Returns how many requirements are checked."""
        return self.requirements - sum(self.not_checked().values())

    def is_unchecked(self) -> bool:
        """Returns whether it is an error that nothing was checked or listed by default: the file has
        packages, but nothing leads to them; or with `--strict`, something is required outside of the
        project's own directories."""
        is_wrong = any(not it.excuse for it in self.findings)
        if self.not_reached() and not (self.requirements or self.packages):
            return not (is_wrong or self.left_out)
        is_required = bool(self.requirements + self.packages)
        reasons = set(self.not_checked())
        is_own = bool(reasons) and reasons <= OWN
        is_known = bool(self.checked() or self.left_out or is_wrong or is_own)
        return self.is_strict and is_required and not is_known


class Unused(NamedTuple):
    """A line of a file of known findings that no longer applies: the file, the number of the line,
    and its text."""

    path: str
    line: int
    text: str


class Results(NamedTuple):
    """All reports, directories without a lock file, known findings that no longer apply, and
    whether each line begins with its file."""

    reports: List[Report]
    refusals: List[Refusal]
    unused: List[Unused]
    is_several: bool


class Wanted(NamedTuple):
    """What a report is to have: which requirements it checks, and whether it has lines, paths from
    the project, and duplicates."""

    scope: Scope
    has_lines: bool = False
    has_paths: bool = False
    has_duplicates: bool = False


def report_on(path: str, named: Optional[str], wanted: Wanted) -> Report:
    """Returns the report on a lock file. Lines and paths are found on demand, after the verdict,
    and don't change it."""
    report = Report(path)
    try:
        with taking(path, "lock file"):
            file = Input(path, bytes_of(path, True), named, wanted.scope)
            report.tool = tool_for(file)
            check(report, report.tool, file, wanted)
    except Refusal as error:
        report.refusal = error
        return report
    if wanted.has_lines:
        locate(report, report.tool, file)
    return report


def check(report: Report, tool: Tool, file: Input, wanted: Wanted) -> None:
    """Has the judge check a lock file, and counts its contents. The model of the lock file is
    referenced only here, so that it is freed before anything is located or printed."""
    lock = tool.read(file)
    scheme = lock.scheme or tool.scheme
    report.findings, report.requirements = judge(lock, scheme)
    for finding in report.findings:
        advise(finding, tool)
    report.packages = lock.package_count
    report.left_out, report.from_lock = lock.left_out, lock.from_lock
    if wanted.has_duplicates:
        report.duplicates = duplicates_in(lock, scheme.dialect)
    if wanted.has_paths:
        report.paths = Paths(lock.graph())


def locate(report: Report, tool: Tool, file: Input) -> None:
    """Finds the lines of findings, in the lock file and in manifests. Each finding is asked twice
    where it is stated, since a list of all statements would take much memory."""
    listed = [*report.findings, *report.duplicates]
    wanted = {it.at for it in listed if it.at}
    if wanted:
        report.lines = lines_at(file.text, tool.offsets(file.text, wanted), wanted)
    keys: Dict[str, Set[Keys]] = {}
    for finding in listed:
        statement = tool.statement(finding, file)
        if statement is not None:
            keys.setdefault(statement.path, set()).update(statement.keys)
    lines = {path: statement_lines(path, each) for path, each in keys.items()}
    for finding in listed:
        statement = tool.statement(finding, file)
        if statement is not None:
            of_path = lines[statement.path]
            line = next((of_path[it] for it in statement.keys if it in of_path), None)
            if line is not None:
                report.positions[id(finding)] = Position(statement.path, line)
