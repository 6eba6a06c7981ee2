"""Finds the first of many ranges that has a version in common with another range, and all ranges
that have a version."""

from itertools import zip_longest
from typing import Iterator, List, Optional

from semver_parser import Range


class Overlaps:
    """Ranges in their order, with the unions of each two neighbours, the unions of each two of
    these, and so on up to the union of all. So a range is found by few comparisons, however many
    there are."""

    def __init__(self, ranges: List[Range]) -> None:
        self.levels = [ranges]
        while len(self.levels[-1]) > 1:
            last = self.levels[-1]
            pairs = zip_longest(last[::2], last[1::2])
            self.levels.append([one if other is None else one | other for one, other in pairs])

    def first(self, wanted: Range) -> Optional[int]:
        """Returns the index of the first range that has a version in common with a range."""
        top = self.levels[-1]
        if not top or top[0].isdisjoint(wanted):
            return None
        number = 0
        for level in reversed(self.levels[:-1]):
            number *= 2
            if level[number].isdisjoint(wanted):
                number += 1
        return number

    def having(self, version: str) -> Iterator[int]:
        """Yields the indices of the ranges that have a version, in their order."""
        pending = [(len(self.levels) - 1, 0)]
        while pending:
            level, number = pending.pop()
            ranges = self.levels[level]
            if number < len(ranges) and version in ranges[number]:
                if level == 0:
                    yield number
                else:
                    pending += [(level - 1, 2 * number + 1), (level - 1, 2 * number)]
