"""The format `sarif`: SARIF 2.1.0, with what GitHub's code scanning requires."""

import hashlib
from itertools import islice
from typing import Iterator, List, Optional
from urllib.parse import quote

from ... import __version__
from ..closing import error_of
from ..findings import CLASSES
from ..reports import Results
from ..repository import in_repository
from .pieces import Object, filled, lines_of
from .text import grouped, told

SCHEMA = "https://json.schemastore.org/sarif-2.1.0.json"
# How many results of a run GitHub accepts.
MOST = 25000

REFUSED, NO_LONGER_APPLIES = "refused", "no-longer-applies"

# The rules by their names, each with a description: the kinds of findings, a file that is rejected,
# and a known finding that no longer applies.
DESCRIPTIONS = {
    **{it.kind: it.title for it in CLASSES},
    REFUSED: "A file cannot be checked",
    NO_LONGER_APPLIES: "A known finding is there no more",
}
RULES = list(DESCRIPTIONS)


def lines(results: Results) -> Iterator[str]:
    """Yields the lines of the object. Results beyond the number that GitHub accepts are left out, and
    a notification says so."""
    count = count_of(results)
    has_errors = bool(results.refusals) or any(map(error_of, results.reports))
    invocation: Object = {"executionSuccessful": not has_errors}
    if count > MOST:
        text = f"{MOST:,} of {count:,} results are listed, since GitHub takes no more"
        message = {"level": "warning", "message": {"text": text}}
        invocation["toolExecutionNotifications"] = [message]
    driver = {
        "name": "check-lock-file",
        "semanticVersion": __version__,
        "rules": [rule(it) for it in RULES],
    }
    run = {"tool": {"driver": driver}, "invocations": [invocation], "results": []}
    whole = {"$schema": SCHEMA, "version": "2.1.0", "runs": [run]}
    listed = map(lines_of, islice(all_results(results), MOST))
    yield from filled(whole, "results", listed)


def count_of(results: Results) -> int:
    """Returns how many results there are."""
    listed = sum(len(it.listed) + (error_of(it) is not None) for it in results.reports)
    return listed + len(results.refusals) + len(results.unused)


def rule(name: str) -> Object:
    """Returns a rule. The manual describes it."""
    text = {"text": DESCRIPTIONS[name]}
    help_text = {"text": f"See {name} in the manual check-lock-file(1)."}
    return {"id": name, "shortDescription": text, "fullDescription": text, "help": help_text}


def all_results(results: Results) -> Iterator[Object]:
    """Yields each finding, each error, and each known finding that no longer applies."""
    for report in results.reports:
        for it in grouped(report.listed):
            path, line = report.position(it)
            level = "note" if it.excuse or it.is_note else "error"
            yield result(it.kind, level, path, line, "\n".join(told(report, it)))
        error = error_of(report)
        if error is not None:
            yield result(REFUSED, "error", error.path, error.line, error.why)
    for refusal in results.refusals:
        yield result(REFUSED, "error", refusal.path, refusal.line, refusal.why)
    for unused in results.unused:
        yield result(NO_LONGER_APPLIES, "error", unused.path, unused.line, unused.text)


def result(name: str, level: str, path: str, line: Optional[int], text: str) -> Object:
    """Returns a result. GitHub requires a line, and recognizes the result by a hash."""
    path = in_repository(path)
    known: List[str] = [name, path, text]
    digest = hashlib.sha256("\0".join(known).encode("utf-8", "backslashreplace")).hexdigest()
    address = quote(path, errors="surrogateescape")
    place = {"artifactLocation": {"uri": address}, "region": {"startLine": line or 1}}
    return {
        "ruleId": name,
        "ruleIndex": RULES.index(name),
        "level": level,
        "message": {"text": text},
        "locations": [{"physicalLocation": place}],
        "partialFingerprints": {"primaryLocationLineHash": digest[:32]},
    }
