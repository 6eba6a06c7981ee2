"""The shortest paths from a project to a requirer, which show why it is there."""

from collections import deque
from typing import Dict, List, Optional

from .findings import Finding, OfRequirement
from .model import PROJECT, Graph


class Paths:
    """The paths in a graph from the project, and from everything else that nothing requires."""

    def __init__(self, graph: Graph) -> None:
        required = {it for each in graph.values() for it in each}
        tops = [PROJECT, *(it for it in graph if it not in required)]
        self.before: Dict[str, Optional[str]] = {it: None for it in tops}
        left = deque(tops)
        while left:
            here = left.popleft()
            for it in graph.get(here, ()):
                if it not in self.before:
                    self.before[it] = here
                    left.append(it)

    def path_to(self, finding: Finding) -> List[str]:
        """Returns the path to what is required, or to the package that a finding is about. There is
        no path to what isn't in the graph."""
        last, record = finding.about, finding.record
        label = f"{record.package or ''} {record.version or ''}".rstrip()
        if last not in self.before and record.package and record.requirer is None:
            last = label
        path = [last]
        at = self.before.get(last)
        while at is not None:
            path.append(at)
            at = self.before.get(at)
        path.reverse()
        if isinstance(finding, OfRequirement):
            path.append(finding.requirement.name)
        return path
