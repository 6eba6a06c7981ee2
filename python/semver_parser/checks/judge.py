"""The judge, which compares what a lock file has with what is required.

It knows no tool. A `Scheme` says how a tool reads versions, ranges and other specifiers.
"""

from typing import Iterator, List, NamedTuple, Optional, Tuple, Type

from semver_parser import Dialect

from .findings import (
    AnotherPackage,
    Finding,
    InvalidRange,
    InvalidVersion,
    Missing,
    NotChecked,
    NotRequired,
    NoVersion,
    OfFound,
    Overridden,
    Stale,
    StaleTable,
    Unreached,
    Unsatisfied,
)
from .model import NOT_REACHED, LockFile, Node, Package, Requirement
from .satisfaction import is_met, is_version


class Verdict(NamedTuple):
    """A verdict on the package that is found: the class of the finding; an excuse, if it isn't
    checked or is listed only with `--strict`; and what is printed instead of the specifier, if
    anything."""

    finding: Type[OfFound]
    excuse: str = ""
    printed: str = ""


RIGHT: Optional[Verdict] = None
UNSATISFIED, INVALID_RANGE = Verdict(Unsatisfied), Verdict(InvalidRange)
NO_VERSION = Verdict(NoVersion)


class Scheme:
    """How a tool reads versions and specifiers. This one only has the ranges of a dialect. A tool
    may write a `protocol` before a range."""

    dialect = Dialect.NPM
    protocol = ""

    def is_version(self, package: Package) -> bool:
        """Returns whether the version of a package is valid."""
        return package.version is None or is_version(package.version, self.dialect)

    def has_name(self, specifier: str, requirement: Requirement) -> bool:
        """Returns whether the package that is found has the name that a specifier requires."""
        return True

    def verdict(self, specifier: str, requirement: Requirement) -> Optional[Verdict]:
        """Returns the verdict on the package that is found for a specifier."""
        version = requirement.found.version if requirement.found else None
        met = is_met(specifier, version or "", self.dialect)
        if met is None:
            return INVALID_RANGE
        return RIGHT if met else UNSATISFIED if version is not None else NO_VERSION

    def is_plainly_met(self, it: Requirement) -> bool:
        """Returns whether a requirement is a range, as nearly always, and the package that is found
        has a version in it and no other name. Then the verdict isn't asked for. A scheme whose
        verdict may differ for such a requirement overrides this."""
        found, specifier = it.found, it.specifier.removeprefix(self.protocol)
        if found is None or found.version is None or ":" in specifier:
            return False
        if it.replaced_by or it.locked is not None or found.name not in (None, it.name):
            return False
        return is_met(specifier, found.version, self.dialect) is True

    def missing(self, requirement: Requirement) -> Finding:
        """Returns the finding about a requirement for which nothing is found."""
        return Missing(requirement).excused(requirement.excuse)


def best_of(it: Requirement, scheme: Scheme) -> Tuple[str, Optional[Verdict]]:
    """Returns the specifier that counts, and its verdict. If the version doesn't satisfy the
    requirement itself, an override may count instead: the first that the version satisfies, else
    the first that isn't checked, else the first."""
    verdict = scheme.verdict(it.specifier, it)
    is_wrong = verdict is not None and verdict.finding is not NotChecked
    if not is_wrong or not it.replaced_by:
        is_over = it.is_override and verdict == UNSATISFIED
        return it.specifier, Verdict(Overridden) if is_over else verdict
    verdicts = [(each, scheme.verdict(each, it)) for each in it.replaced_by]
    for wanted in (None, NotChecked):
        for specifier, found in verdicts:
            if (None if found is None else found.finding) is wanted:
                return specifier, found
    specifier, first = verdicts[0]
    return specifier, Verdict(Overridden) if first == UNSATISFIED else first


def findings_of(it: Requirement, scheme: Scheme) -> Iterator[Finding]:
    """Yields the findings about a requirement."""
    if it.found is None:
        if it.must_exist:
            yield scheme.missing(it)
        return
    specifier, verdict = best_of(it, scheme)
    specifiers = (it.specifier, *it.replaced_by)
    if it.found.name is not None and not any(scheme.has_name(each, it) for each in specifiers):
        yield AnotherPackage(it, it.found, it.specifier)
    if verdict is not None:
        printed = verdict.printed or specifier
        yield verdict.finding(it, it.found, printed).excused(verdict.excuse)


def stale_findings(it: Requirement) -> Iterator[Finding]:
    """Yields the findings about a requirement for which the lock file wasn't written. Tools compare
    specifiers as strings."""
    locked = it.locked
    if locked is None:
        return
    if locked.stated_kind is None or not locked.same:
        yield NotRequired(it)
    elif locked.kind != locked.stated_kind:
        yield StaleTable(it, locked.stated_kind, locked.kind, locked.manifest)
    elif locked.specifier not in locked.same:
        yield Stale(it, locked.stated, locked.specifier, locked.manifest)


def judged(node: Node, scheme: Scheme) -> Iterator[Finding]:
    """Yields the findings about a node. The excuses of its tool aren't set yet."""
    if node.package is not None and not scheme.is_version(node.package):
        yield InvalidVersion(node.package)
    yield from node.findings
    for it in node.requirements:
        if scheme.is_plainly_met(it):
            continue
        found = [] if it.is_gone else list(findings_of(it, scheme))
        yield from found
        if it.locked is not None and all(each.excuse for each in found):
            yield from stale_findings(it)


class Judgement(NamedTuple):
    """The findings about a lock file, and the number of its requirements."""

    findings: List[Finding]
    requirements: int


def judge(lock: LockFile, scheme: Scheme) -> Judgement:
    """Returns the findings about a lock file, in its order."""
    findings: List[Finding] = []
    requirements = 0
    for node in lock.nodes:
        for finding in judged(node, scheme):
            if not finding.excuse:
                left = lock.left(finding)
                finding.excused(left.excuse)
                if left.advice:
                    finding.advised(left.advice, left.is_blocking)
            findings.append(finding)
        requirements += sum(it.found is not None or it.is_counted for it in node.requirements)
    is_right = not findings
    findings += (it if is_right else it.excused(NOT_REACHED) for it in lock.if_right())
    findings += (Unreached(it).excused(NOT_REACHED) for it in lock.unreached)
    return Judgement(findings, requirements)
