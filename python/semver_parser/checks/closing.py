"""The closing line of a lock file, which says how much was checked and what wasn't."""

from typing import List, Optional

from .files import Refusal
from .reports import Report, Results

# Why something isn't checked, in singular and plural.
REASONS = {
    "git": ("git", "git"),
    "tag": ("tag", "tags"),
    "URL": ("URL", "URLs"),
    "path": ("path", "paths"),
    "link": ("link", "links"),
    "workspace": ("workspace", "workspaces"),
    "catalog": ("catalog", "catalogs"),
    "patch": ("patch", "patches"),
    "protocol": ("other protocol", "other protocols"),
    "invalid range": ("invalid range", "invalid ranges"),
    "bundled": ("bundled", "bundled"),
    "outside": ("outside of the project", "outside of the project"),
    "conflicting peer": ("conflicting peer", "conflicting peers"),
    "override": ("override that npm may leave", "overrides that npm may leave"),
    "no version": ("without a version", "without a version"),
    "missing": ("missing", "missing"),
}


def counted(count: int, one: str, several: str) -> str:
    """Returns a count with the name of what is counted."""
    return f"{count:,} {one if count == 1 else several}"


def parts_of(report: Report) -> List[str]:
    """Returns the parts of a closing line after what was checked."""
    reasons = report.not_checked()
    parts = []
    if reasons:
        each = sorted(reasons.items(), key=lambda it: (-it[1], it[0]))
        listed = ", ".join(counted(count, *REASONS[reason]) for reason, count in each)
        parts.append(f"{sum(reasons.values()):,} not checked: {listed}")
    not_reached = report.not_reached()
    if not_reached:
        packages = counted(not_reached, "package", "packages")
        them = "it" if not_reached == 1 else "them"
        parts.append(f"{packages} not reached, since nothing requires {them}")
    if report.left_out:
        parts.append(f"{report.left_out:,} left out")
    if report.allowed:
        parts.append(f"{report.allowed:,} allowed")
    if report.from_lock:
        taken = counted(report.from_lock, "workspace or link", "workspaces and links")
        parts.append(f"{taken} taken from the lock file")
    return parts


def closing_line(report: Report) -> str:
    """Returns the closing line of a lock file."""
    requirements = counted(report.checked(), "requirement", "requirements")
    packages = counted(report.packages, "package", "packages")
    first = f"checked {requirements} and {packages} in {report.name} ({report.tool_name})"
    return "; ".join([first, *parts_of(report)])


def total_line(results: Results) -> str:
    """Returns the line for several lock files together."""
    reports = [it for it in results.reports if error_of(it) is None]
    requirements = sum(it.checked() for it in reports)
    checked = counted(requirements, "requirement", "requirements")
    packages = counted(sum(it.packages for it in reports), "package", "packages")
    files = counted(len(reports), "file", "files")
    listed = sum(len(it.listed) for it in reports) + len(results.unused)
    parts = [f"total: {checked} and {packages} in {files}"]
    not_checked = sum(sum(it.not_checked().values()) for it in reports)
    parts += [f"{not_checked:,} not checked"] if not_checked else []
    not_reached = sum(it.not_reached() for it in reports)
    parts += [f"{not_reached:,} not reached"] if not_reached else []
    parts.append(counted(listed, "finding", "findings"))
    errors = len(results.reports) - len(reports) + len(results.refusals)
    if errors:
        parts.append(counted(errors, "error", "errors"))
    return "; ".join(parts)


def error_of(report: Report) -> Optional[Refusal]:
    """Returns why a lock file wasn't checked: it was rejected, or nothing in it can be checked."""
    if report.refusal is None and report.is_unchecked():
        return Refusal(report.path, unchecked_line(report))
    return report.refusal


def unchecked_line(report: Report) -> str:
    """Returns why it is an error that nothing was checked."""
    not_reached = report.not_reached()
    if not_reached and not report.requirements:
        packages = counted(not_reached, "package", "packages")
        them = "it" if not_reached == 1 else "them"
        why = f"since no manifest, workspace or requirement leads to {them}"
        return f"checked nothing of {packages}, {why}"
    requirements = counted(report.requirements, "requirement", "requirements")
    packages = counted(report.packages + not_reached, "package", "packages")
    first = f"nothing was checked of {requirements} and {packages} ({report.tool_name})"
    return "; ".join([first, *parts_of(report)])
