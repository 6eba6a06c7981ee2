"""Compares an old range with a new one."""

from dataclasses import dataclass

from ._errors import RangeError
from ._options import AnyDialect, AnyPreReleases, dialect_of, pre_releases_of
from ._ranges import Range
from ._strings import String, encoded


@dataclass(frozen=True)
class Comparison:
    """The versions that differ between an old range and a new one.

    - `lost`: the versions of the old range that aren't in the new one.
    - `gained`: the versions of the new range that aren't in the old one.
    - `shared`: the versions that are in both.
    """

    lost: Range
    gained: Range
    shared: Range

    @property
    def overlaps(self) -> bool:
        """Whether any version is in both."""
        return bool(self.shared)

    @property
    def is_subset(self) -> bool:
        """Whether each version of the old range is in the new one: nothing is lost."""
        return not self.lost

    @property
    def is_equal(self) -> bool:
        """Whether both contain the same versions: nothing is lost, and nothing is gained."""
        return not self.lost and not self.gained


def compare_ranges(
    old: String,
    new: String,
    *,
    dialect: AnyDialect,
    pre_releases: AnyPreReleases = "by-dialect",
) -> Comparison:
    """Returns which versions are lost, gained and shared if a new range replaces an old one.

    >>> compared = compare_ranges("^1.2.0", ">=1.4.0", dialect="npm")
    >>> str(compared.lost), str(compared.gained), str(compared.shared)
    ('>=1.2.0 <1.4.0', '>=2.0.0', '>=1.4.0 <2.0.0')
    >>> compared.overlaps, compared.is_subset, compared.is_equal
    (True, False, False)

    Raises `RangeError` if a string isn't a range in the dialect. The `index` of the error is 0 for
    the old one, which is read first, and 1 for the new one.
    """
    chosen, rule = dialect_of(dialect), pre_releases_of(pre_releases)
    ranges = []
    for string in (old, new):
        encoded(string)
    for index, string in enumerate((old, new)):
        try:
            ranges.append(Range(string, dialect=chosen, pre_releases=rule))
        except RangeError:
            raise RangeError(string, chosen, index) from None
    first, second = ranges
    return Comparison(first - second, second - first, first & second)
