"""The format `tsv`: fields that are separated by tabs."""

from typing import Iterator, List

from ..findings import Finding, Unsatisfied
from ..program import joined
from ..reports import Results

NO_LONGER_APPLIES = "no-longer-applies"


def lines(results: Results) -> Iterator[str]:
    """Yields the lines of all files."""
    for report in results.reports:
        before = [report.name] if results.is_several else []
        for finding in report.listed:
            yield joined(*before, *fields_of(finding))
    for it in results.unused:
        yield joined(*([it.path] if results.is_several else []), "", "", it.text, NO_LONGER_APPLIES)


def fields_of(finding: Finding) -> List[str]:
    """Returns the fields of a finding: what is required, what is found, who requires it, and the
    kind, unless it is the usual one."""
    it = finding.record
    alias = f" as {it.alias}" if it.alias else ""
    who = f"{it.requirer} {it.requirer_version or ''}".rstrip()
    where = it.place or "" if it.requirer is None else f"{who} requires {it.dependency}{alias}"
    found = it.package if finding.is_wrong_package else it.version
    kind = [] if finding.kind == Unsatisfied.kind else [finding.kind]
    return [it.range or "", found or "", where, *kind]
