"""The format `github`: annotations of GitHub Actions."""

from typing import Iterator, Optional

from ..closing import error_of
from ..program import visible
from ..reports import Results
from ..repository import in_repository
from .text import grouped, told


def lines(results: Results) -> Iterator[str]:
    """Yields an annotation for each finding and each error."""
    for report in results.reports:
        for finding in grouped(report.listed):
            level = "notice" if finding.is_note else "error"
            message = "\n".join(told(report, finding))
            yield annotation(*report.position(finding), message, level)
        error = error_of(report)
        if error is not None:
            yield annotation(error.path, error.line, error.why)
    for refusal in results.refusals:
        yield annotation(refusal.path, refusal.line, refusal.why)
    for it in results.unused:
        yield annotation(it.path, it.line, f"no longer applies: {it.text}")


def annotation(file: str, line: Optional[int], message: str, level: str = "error") -> str:
    """Returns the line of an annotation."""
    where = f",line={line}" if line is not None else ""
    path = in_property(in_repository(file))
    return f"::{level} file={path}{where}::{in_message(message)}"


def in_message(text: str) -> str:
    """Returns a text with GitHub's escapes, and without other control characters."""
    return visible(text.replace("%", "%25").replace("\r", "%0D").replace("\n", "%0A"))


def in_property(text: str) -> str:
    """Returns a text with GitHub's escapes for a property."""
    return in_message(text).replace(":", "%3A").replace(",", "%2C")
