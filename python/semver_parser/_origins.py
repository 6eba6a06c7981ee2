"""The strings and operators of which a range was made, so it can be pickled."""

from typing import Dict, List, NamedTuple, Tuple, Union

Step = Union[str, Tuple[str, int, int]]
"""The string of a range; or an operator, and the indices of the two steps that it combines."""


class Combination(NamedTuple):
    """The operator that combined two ranges, and the origins of these."""

    operator: str
    first: "Origin"
    second: "Origin"


Origin = Union[str, Combination]
"""The string of a range, or the combination of which it was made."""


def steps_to(origin: Origin) -> Tuple[Step, ...]:
    """Returns the steps that make a range. Each step is there once, after those that it needs."""
    steps: List[Step] = []
    indices: Dict[int, int] = {}
    waiting = [origin]
    while waiting:
        it = waiting[-1]
        needed = () if isinstance(it, str) else (it.first, it.second)
        missing = [each for each in needed if id(each) not in indices]
        waiting += missing
        if missing or id(waiting.pop()) in indices:
            continue
        indices[id(it)] = len(steps)
        if isinstance(it, str):
            steps.append(it)
        else:
            steps.append((it.operator, indices[id(it.first)], indices[id(it.second)]))
    return tuple(steps)
