"""Ranges that are read once."""

import ctypes
from typing import Any, Callable, Iterable, List, Literal, Optional, Sequence, Tuple, TypeVar, final

from . import _handles as handles
from ._comparators import Comparators, comparators_of
from ._errors import RangeError, VersionError
from ._interface import INVALID_VERSION, OK, CError
from ._library import LIBRARY, check
from ._options import AnyDialect, AnyPreReleases, Dialect, PreReleases, dialect_of, pre_releases_of
from ._origins import Combination, Origin, Step, steps_to
from ._strings import Printed, String, c_string, c_strings, printed, printed_or_none
from ._terms import Term, terms_of
from ._versions import AnyVersion, Version, fields_of_printed, string_of

Invalid = Literal["raise", "skip"]
"""What happens with invalid versions: `raise` raises `VersionError`, and `skip` skips them."""

_Given = TypeVar("_Given", bound=AnyVersion)
_Answer = TypeVar("_Answer")

_NOTHING = "<0.0.0-0"

_COMBINING = {
    "|": LIBRARY.semver_parser_range_union,
    "&": LIBRARY.semver_parser_range_intersection,
    "-": LIBRARY.semver_parser_range_difference,
}


@final
class Range(Printed):
    """The versions that satisfy a range in a dialect, by a rule for pre-releases.

    >>> npm = Range("^1.2 || 3.x", dialect="npm")
    >>> "1.9.0" in npm, npm.filter(["1.3.0", "2.0.0", "3.0.0"])
    (True, ['1.3.0', '3.0.0'])
    >>> npm.highest(["v1.10.0", "v1.9.0", "latest"], invalid="skip")
    'v1.10.0'

    Versions are strings, which are read in the same dialect, or `Version`s. Build metadata is
    ignored.

    Ranges are combined and compared like sets:

    - `one | other` has the versions in either range;
    - `one & other` has the versions in both;
    - `one - other` has the versions in the first only;
    - `<=`, `<`, `>=`, `>` and `isdisjoint` compare two ranges;
    - a range is true if it contains a version.

    All of these except the last raise `ValueError` if the two ranges have different options.

    >>> str(npm & Range(">=1.4.0", dialect="npm"))
    '>=1.4.0 <2.0.0 || >=3.0.0 <4.0.0'

    Two ranges are equal if they have the same options and contain the same versions, even if their
    strings differ. Ranges are immutable. They can be pickled, and threads may share them.

    Raises `RangeError` if the string isn't a range in the dialect.
    """

    __slots__ = ("_handle", "_dialect", "_pre_releases", "_origin", "__weakref__")

    _handle: handles.Handle
    _dialect: Dialect
    _pre_releases: PreReleases
    _origin: Origin

    def __new__(
        cls, range: String, *, dialect: AnyDialect, pre_releases: AnyPreReleases = "by-dialect"
    ) -> "Range":
        chosen, rule = dialect_of(dialect), pre_releases_of(pre_releases)
        handle = handles.parsed(range, chosen, rule)
        string = range.decode("utf-8") if isinstance(range, bytes) else range
        return _range_of(handle, chosen, rule, string)

    @property
    def dialect(self) -> Dialect:
        """The dialect of the range and of versions."""
        return self._dialect

    @property
    def pre_releases(self) -> PreReleases:
        """Which pre-releases satisfy the range."""
        return self._pre_releases

    @property
    def string(self) -> Optional[str]:
        """The string that the range was made of; None if it was made by combining ranges."""
        return self._origin if isinstance(self._origin, str) else None

    # ---- which versions are in it

    def __contains__(self, version: AnyVersion) -> bool:
        """Returns whether a version is in the range. Raises `VersionError` if it is invalid."""
        string, contains = string_of(version), ctypes.c_bool()
        status = LIBRARY.semver_parser_range_contains(
            self._handle, c_string(string), contains, None
        )
        if status == INVALID_VERSION:
            raise VersionError(string, self._dialect)
        check(status)
        return contains.value

    def filter(self, versions: Iterable[_Given], *, invalid: Invalid = "raise") -> List[_Given]:
        """Returns the versions that are in the range, in their order, and with duplicates.

        An invalid version raises `VersionError`, whose `index` is its index among the versions.
        With `invalid="skip"` it is skipped. A value of another type raises `TypeError`.
        """
        is_skipping, given = _is_skipping(invalid), _listed(versions)
        strings, count = _strings(given), len(given)
        contains = (ctypes.c_bool * count)()
        statuses = None if is_skipping else (ctypes.c_int32 * count)()
        check(
            LIBRARY.semver_parser_range_contains_each(
                self._handle, c_strings(strings), count, contains, statuses
            )
        )
        for index, status in enumerate(statuses or ()):
            if status != OK:
                raise VersionError(strings[index], self._dialect, index)
        return [it for it, is_in in zip(given, contains) if is_in]

    def highest(
        self, versions: Iterable[_Given], *, invalid: Invalid = "raise"
    ) -> Optional[_Given]:
        """Returns the highest of the versions that are in the range, by precedence; None if none
        is. Of versions with the same precedence it returns the first. Invalid versions are treated
        as by `filter`."""
        return self._found(LIBRARY.semver_parser_range_highest_of, versions, invalid)

    def lowest(self, versions: Iterable[_Given], *, invalid: Invalid = "raise") -> Optional[_Given]:
        """Returns the lowest of the versions that are in the range, and otherwise does the same as
        `highest`."""
        return self._found(LIBRARY.semver_parser_range_lowest_of, versions, invalid)

    def _found(
        self, function: Callable[..., int], versions: Iterable[_Given], invalid: Invalid
    ) -> Optional[_Given]:
        """Returns the version that a function of the library finds."""
        is_skipping, given = _is_skipping(invalid), _listed(versions)
        strings, index, error = _strings(given), ctypes.c_size_t(), CError()
        array = c_strings(strings)
        status = function(self._handle, array, len(array), is_skipping, index, error)
        if status == INVALID_VERSION:
            raise VersionError(strings[error.index], self._dialect, error.index)
        check(status)
        return given[index.value] if index.value < len(given) else None

    @property
    def lowest_version(self) -> Optional[Version]:
        """The lowest version of the dialect that is in the range, by precedence and without build
        metadata; None if there is none. Numbers are at most 2**64 - 1, in npm's dialect 2**53 - 1.

        >>> str(Range(">1.2", dialect="npm").lowest_version)
        '1.3.0'
        """
        lowest = printed(LIBRARY.semver_parser_range_lowest_version, self._handle)
        return Version(*fields_of_printed(lowest)) if lowest else None

    # ---- two ranges

    def _of_both(
        self, what: Callable[..., _Answer], function: Callable[..., int], other: "Range"
    ) -> _Answer:
        """Returns the result of a function of two ranges. Raises `ValueError` if their options
        differ."""
        try:
            return what(function, self._handle, other._handle)
        except handles.DifferentOptions as error:
            options = f"{_options_text(self)}; {_options_text(other)}"
            raise ValueError(f"{error}: {options}") from None

    def _combined(self, operator: str, other: "Range") -> "Range":
        if not isinstance(other, Range):
            return NotImplemented
        handle = self._of_both(handles.combined, _COMBINING[operator], other)
        origin = Combination(operator, self._origin, other._origin)
        return _range_of(handle, self._dialect, self._pre_releases, origin)

    def __or__(self, other: "Range") -> "Range":
        """Returns the range of the versions that are in one or the other."""
        return self._combined("|", other)

    def __and__(self, other: "Range") -> "Range":
        """Returns the range of the versions that are in both."""
        return self._combined("&", other)

    def __sub__(self, other: "Range") -> "Range":
        """Returns the range of the versions that are only in the first."""
        return self._combined("-", other)

    def __le__(self, other: "Range") -> bool:
        """Returns whether each version of the range is in the other."""
        if not isinstance(other, Range):
            return NotImplemented
        return self._of_both(handles.holds, LIBRARY.semver_parser_range_is_subset, other)

    def __ge__(self, other: "Range") -> bool:
        """Returns whether each version of the other is in the range."""
        if not isinstance(other, Range):
            return NotImplemented
        return other <= self

    def __lt__(self, other: "Range") -> bool:
        """Returns whether `<=` is true, and the other has more versions."""
        if not isinstance(other, Range):
            return NotImplemented
        return self <= other and self != other

    def __gt__(self, other: "Range") -> bool:
        """Returns whether `>=` is true, and the range has more versions."""
        if not isinstance(other, Range):
            return NotImplemented
        return other < self

    def isdisjoint(self, other: "Range") -> bool:
        """Returns whether no version is in both."""
        if not isinstance(other, Range):
            raise TypeError(f"expected a Range, not {type(other).__name__}")
        return self._of_both(handles.holds, LIBRARY.semver_parser_range_is_disjoint, other)

    def __bool__(self) -> bool:
        """Returns whether some version is in the range."""
        return not LIBRARY.semver_parser_range_is_empty(self._handle)

    def __eq__(self, other: object) -> bool:
        """Returns whether both have the same options and contain the same versions."""
        if not isinstance(other, Range):
            return NotImplemented
        try:
            return handles.holds(LIBRARY.semver_parser_range_equal, self._handle, other._handle)
        except handles.DifferentOptions:
            return False

    def __hash__(self) -> int:
        options = (self._dialect, self._pre_releases)
        return hash((*options, self.printed_releases, self.printed_pre_releases))

    # ---- what it is written with

    @property
    def terms(self) -> List[Term]:
        """The terms of the string that the range was made of, as they are written.

        >>> [term.operator for term in Range(">=1.2 <2", dialect="npm").terms]
        ['>=', '<']

        Raises `ValueError` if the range was made by combining ranges, since it has no string then.
        """
        if not isinstance(self._origin, str):
            raise ValueError("a range that was combined of others has no string")
        return terms_of(self._origin, self._dialect)

    # ---- how it is printed, copied and pickled

    @property
    def comparators(self) -> Comparators:
        """The plain comparators to which the range is rewritten. Their bounds are exact: a raised
        bound is the lowest pre-release, such as `<2.0.0-0`. If the range was combined, they are the
        comparators of its releases. For pre-releases use the range itself.

        >>> str(Range("^1.2", dialect="npm").comparators)
        '>=1.2.0 <2.0.0-0'
        """
        if isinstance(self._origin, str):
            return comparators_of(self._origin, self._dialect, True)
        # Read in this dialect, a printed range has the same releases as the range that was printed.
        return comparators_of(self.printed_releases, Dialect.CRATE_NPM, True)

    @property
    def printed_releases(self) -> str:
        """The releases in the range, as a range in npm's syntax: `*` for all, `<0.0.0-0` for none.
        Only the releases in it count.

        To read it again, use `dialect="npm"` and `pre_releases="excluded"`. If a number is above
        2**53 - 1, which npm's dialect rejects, use "crate-npm".

        >>> Range("^1.2", dialect="cargo").printed_releases
        '>=1.2.0 <2.0.0'
        """
        return printed(LIBRARY.semver_parser_range_to_string, self._handle, False)

    @property
    def printed_pre_releases(self) -> str:
        """The pre-releases in the range, as a range in npm's syntax: `*` for all, `<0.0.0-0` for
        none. Only the pre-releases in it count.

        To read it again, use `dialect="npm"` and `pre_releases="included"`, and check only
        pre-releases. If a number is above 2**53 - 1, which npm's dialect rejects, use "crate-npm".
        In that dialect `*` doesn't contain the pre-releases of 0.0.0.

        >>> Range("^1.2.3-rc", dialect="cargo").printed_pre_releases
        '>=1.2.3-rc <1.2.3'
        """
        return printed(LIBRARY.semver_parser_range_to_string, self._handle, True)

    def to_requirement(self) -> Optional[str]:
        """Returns the range as it can be written into a Cargo.toml or a package.json: a string that
        reads back, with the options of the range, as a range of the same versions. It is None if no
        such string was found. Cargo's syntax has no `||`, for example, so it can't say a range with
        a gap.

        >>> old, new = Range("^1.2.3-rc.1", dialect="cargo"), Range("<1.9", dialect="cargo")
        >>> old.to_requirement(), (old & new).to_requirement()
        ('>=1.2.3-rc.1, <2.0.0', '>=1.2.3, <1.9.0')
        >>> (old - new).to_requirement() is None  # it has 1.2.3-rc.1, and versions from 1.9.0 on
        True
        """
        return printed_or_none(LIBRARY.semver_parser_range_to_requirement, self._handle)

    def __str__(self) -> str:
        """Returns the string that the range was made of. For a combined range, it returns the
        releases in the syntax of the dialect, and then `pre-releases` and the pre-releases, if
        there are any. This is for people; `to_requirement` returns a string that reads back.

        >>> str(Range("^1.2", dialect="cargo") - Range("1.4", dialect="cargo"))
        '>=1.2.0, <1.4.0'
        """
        if isinstance(self._origin, str):
            return self._origin
        both = self.printed_releases, self.printed_pre_releases
        releases, pre_releases = map(self._in_dialect, both)
        if pre_releases == _NOTHING:
            return releases
        return f"{'' if releases == _NOTHING else releases + ', '}pre-releases {pre_releases}"

    def __repr__(self) -> str:
        """Returns an expression for the range. If a combined range has none, it returns a
        description between `<` and `>`."""
        string = self.to_requirement() if self.string is None else self.string
        if string is None:
            return f"<Range {str(self)!r}, {_options_text(self)}>"
        return f"Range({string!r}, {_options_text(self)})"

    def _in_dialect(self, printed: str) -> str:
        """Returns a range in npm's syntax in that of the dialect. Cargo's has commas."""
        if self._dialect is not Dialect.CARGO:
            return printed
        return " || ".join(it.replace(" ", ", ") for it in printed.split(" || "))

    def __copy__(self) -> "Range":
        return self

    def __deepcopy__(self, memo: object) -> "Range":
        return self

    def __reduce__(self) -> Tuple[Any, ...]:
        steps = steps_to(self._origin)
        return _unpickled_range, (self._dialect.value, self._pre_releases.value, steps)


def _range_of(
    handle: handles.Handle, dialect: Dialect, pre_releases: PreReleases, origin: Origin
) -> Range:
    """Returns a range of the library, with the options with which it was made."""
    range = object.__new__(Range)
    range._handle, range._origin = handle, origin
    range._dialect, range._pre_releases = dialect, pre_releases
    return range


def _unpickled_range(
    dialect: AnyDialect, pre_releases: AnyPreReleases, steps: Sequence[Step]
) -> Range:
    """Returns the range of a pickle. The pickles of all versions 1.x of the package name this
    function, with these arguments."""
    made: List[Range] = []
    for step in steps:
        if isinstance(step, str):
            made.append(Range(step, dialect=dialect, pre_releases=pre_releases))
        else:
            operator, first, second = step
            made.append(made[first]._combined(operator, made[second]))
    return made[-1]


def _options_text(range: Range) -> str:
    """Returns the options of a range, as they are written in a call."""
    dialect = f"dialect={range.dialect.value!r}"
    if range.pre_releases is PreReleases.BY_DIALECT:
        return dialect
    return f"{dialect}, pre_releases={range.pre_releases.value!r}"


def _is_skipping(invalid: Invalid) -> bool:
    """Returns whether invalid versions are skipped."""
    if invalid not in ("raise", "skip"):
        raise ValueError(f"invalid is 'raise' or 'skip', not {invalid!r}")
    return invalid == "skip"


def _listed(versions: Iterable[_Given]) -> List[_Given]:
    """Returns the versions that are passed, as a list."""
    if isinstance(versions, (str, bytes)):
        raise TypeError("expected an iterable of versions, not one string")
    return list(versions)


def _strings(given: List[_Given]) -> List[String]:
    """Returns the strings of versions."""
    for index, it in enumerate(given):
        if not isinstance(it, (str, bytes, Version)):
            what = type(it).__name__
            raise TypeError(f"expected str, bytes or Version, not {what}, at index {index}")
    return [string_of(it) for it in given]
