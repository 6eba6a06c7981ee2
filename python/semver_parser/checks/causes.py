"""What the command of each tool repairs.

`tools/compare.sh managers` and `tools/compare.sh judged` have run these commands for findings of
these kinds, and the tools have accepted what they wrote. Their record is in
`tools/comparisons/managers/repaired`. For any other finding no command is named.
"""

from typing import Dict, Tuple, Type

from .findings import (
    AnotherSource,
    Finding,
    ManifestVersion,
    Missing,
    MissingEntry,
    MissingMember,
    NotPatched,
    NotReplaced,
    NotRequired,
    Overridden,
    Unreached,
    Unsatisfied,
    WrongChecksum,
)
from .tool import Tool

REPAIRED: Dict[str, Tuple[Type[Finding], ...]] = {
    "npm": (Missing, MissingMember, Overridden, Unsatisfied),
    "yarn 1": (Missing, Unsatisfied),
    "Cargo": (
        AnotherSource, ManifestVersion, Missing, MissingEntry, MissingMember, NotPatched,
        NotReplaced, NotRequired, Unreached, Unsatisfied, WrongChecksum,
    ),
}  # fmt: skip
"""The kinds of findings that the command of a tool repairs, unless they have an advice."""


def untried(tool: Tool) -> str:
    """Returns the advice for a finding for which the command of a tool wasn't run."""
    return f"have {tool.name} write it anew; {tool.repair} may do that, but was not tried"


def advise(finding: Finding, tool: Tool) -> None:
    """Adds the advice of a tool to a finding; or that of a finding for which the command of the tool
    wasn't run."""
    tool.advise(finding)
    is_repaired = type(finding) in REPAIRED.get(tool.kind or tool.name, ())
    if tool.repair and not (finding.advice or finding.is_note or is_repaired):
        finding.advised(untried(tool), False)
