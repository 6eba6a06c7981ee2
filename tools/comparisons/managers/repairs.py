"""Runs the repairs that the checker proposes, and checks again."""

import os
import re
import subprocess
from pathlib import Path
from typing import Callable, Dict, List, NamedTuple, Optional, Set

from differences import Differences, listed_in
from semver_parser.checks.causes import untried
from semver_parser.checks.model import Scope
from semver_parser.checks.reports import Wanted, report_on

WAITING = 120


class Repairs(NamedTuple):
    """How a tool repairs a lock file.

    - `program` is the name of the tool's program here.
    - `environment` is added to the environment, and `flags` to the command.
    - `failures` has a pattern of what the tool prints if it fails for each reason that files can't
      tell.
    - `is_taken` returns whether the tool accepts the project.
    - `is_rejected` returns whether the tool rejects what it has repaired, by a row of
      DIFFERENCES.md.
    """

    program: str
    environment: Dict[str, str]
    flags: List[str]
    failures: Dict[str, str]
    is_taken: Callable[[], bool]
    is_rejected: Callable[[], bool] = lambda: False


class Proposal(NamedTuple):
    """A command, and the kinds of findings that it is to repair: those for which the checker names
    it, and those for which it doesn't, since it wasn't tried."""

    command: str
    causes: Set[str]
    untried: Set[str]


def proposed(path: Path) -> Optional[Proposal]:
    """Returns the command that the checker proposes for a lock file, or would if it had been tried,
    if it lists something that the command may repair."""
    report = report_on(str(path), None, Wanted(Scope()))
    listed = [it for it in report.findings if not it.excuse]
    if report.refusal is not None or report.tool is None or any(it.is_blocking for it in listed):
        return None
    causes = {type(it).__name__ for it in listed if not it.advice}
    others = {type(it).__name__ for it in listed if it.advice == untried(report.tool)}
    return Proposal(report.tool.repair, causes, others) if causes or others else None


def reason_of(failures: Dict[str, str], printed: str) -> Optional[str]:
    """Returns why a tool failed, by what it printed. Returns None for any other reason."""
    found = (reason for reason, pattern in failures.items() if re.search(pattern, printed))
    return next(found, None)


def repair(path: Path, tool: Repairs, found: Differences, shown: Dict[str, object]) -> None:
    """Runs the command that is proposed for a lock file, if there is one. The command may fail for a
    reason that files can't tell. Afterwards, the tool has to accept the lock file, and what is listed
    has to be something that the checker says the command doesn't repair."""
    proposal = proposed(path)
    if proposal is None:
        return
    command = proposal.command
    ended = subprocess.run(
        [tool.program, *command.split()[1:], *tool.flags],
        cwd=path.parent, env={**os.environ, **tool.environment},
        timeout=WAITING, stdin=subprocess.DEVNULL, capture_output=True, text=True, check=False,
    )  # fmt: skip
    everything = listed_in(path)
    listed = [it for it in everything if not it.advice]
    if ended.returncode:
        reason = reason_of(tool.failures, ended.stdout + ended.stderr)
        if reason is None and not proposal.causes:
            found.count("commands that fail, and weren't proposed")
        elif reason is None:
            found.add("a repair that fails", {**shown, "printed": ended.stdout + ended.stderr})
        else:
            found.choose(f"a repair that fails since {reason}", shown)
    elif everything and not listed:
        found.count("repairs that leave only what the command doesn't repair")
    elif not proposal.causes and (listed or everything):
        found.count("commands that repair nothing, and weren't proposed")
    elif not tool.is_taken():
        if tool.is_rejected():
            found.choose("a repair that the tool itself rejects afterwards", shown)
        else:
            found.add("a repair that the tool itself rejects afterwards", shown)
    elif listed:
        found.add("a repair that repairs nothing", {**shown, "left": [it.record for it in listed]})
    else:
        found.count("repairs that repair")
        for cause in proposal.causes | proposal.untried:
            found.repaired.add(cause)
            found.count(f"a repair of {cause}")
