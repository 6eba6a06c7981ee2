"""The errors for invalid versions and invalid ranges."""

from typing import Literal, NamedTuple, Optional, Tuple, cast

from ._interface import CANNOT_UPGRADE, INVALID_RANGE, INVALID_VERSION, OK, CError, CVersion
from ._library import LIBRARY, check
from ._options import AnyDialect, Dialect, dialect_of
from ._strings import String, c_string, index_of, printed, printed_or_none

Reason = Literal[
    "empty",
    "not-three-numbers",
    "leading-zero",
    "empty-identifier",
    "unexpected-character",
    "too-large",
    "too-long",
    "text-after",
    "not-utf8",
    "number-expected",
    "unexpected-end",
    "cargo-commas",
    "cargo-wildcard",
    "cargo-bars",
    "cargo-v",
    "cargo-hyphen",
    "npm-comma",
    "crate-comma",
    "crate-v",
    "npm-too-large",
    "too-many-comparators",
    "bound-too-large",
    "npm-bound-too-large",
]
"""Why a string is invalid. A later minor version of the library may have more reasons."""

_LONGEST_SHOWN = 80


class _Explanation(NamedTuple):
    """What the library reports for a string: a status, and where and why the string is invalid."""

    status: int
    offset: int
    span: Tuple[int, int]
    reason: Reason
    sentence: str


def _text_of(status: int) -> str:
    """Returns what a status means, in English."""
    text: bytes = LIBRARY.semver_parser_status_text(status)
    return text.decode("utf-8")


def _shown(string: String) -> str:
    """Returns a string as a message shows it: only its beginning if it is long."""
    shown = repr(string)
    if len(shown) > _LONGEST_SHOWN:
        return f"{shown[:_LONGEST_SHOWN]}... (length {len(string)})"
    return shown


def _message_of(error: CError, string: String) -> str:
    """Returns the message of an error of a string, with carets below its span if it has one."""
    return printed(LIBRARY.semver_parser_error_message, error, c_string(string), True)


class SemverError(ValueError):
    """An invalid string: the base class of `VersionError` and `RangeError`.

    - `string`: the string, as it was passed.
    - `dialect`: the dialect in which it is invalid.
    - `index`: which of several versions it is; or which of two ranges, 0 for the old one and 1 for
      the new one; otherwise None.
    - `offset`: the index in `string` of the first invalid character. If something is missing at
      the end, it is the length of `string`. If a number in a range is too large, it is the index
      where the number begins.
    - `span`: the part of `string` to underline, as the index at which it begins and the one after
      it.
    - `reason`: why it is invalid, as a word for programs.
    - `sentence`: why it is invalid, as an English sentence.
    - `suggestion`: the valid string that may have been meant, or None if none is known.

    All of these from `offset` on are computed only when they are used, so an error that is ignored
    costs little.
    """

    _STATUS = OK

    # The explanation, if it was computed. It isn't in the dict, so it isn't pickled.
    __slots__ = ("_found",)

    def __init__(self, string: String, dialect: AnyDialect, index: Optional[int] = None) -> None:
        super().__init__(string, dialect, index)
        self.string = string
        self.dialect: Dialect = dialect_of(dialect)
        self.index = index

    def _explain(self, error: CError) -> int:
        """Fills the error of the string. Returns the status."""
        raise NotImplementedError

    def _explanation(self) -> Optional[_Explanation]:
        """Returns what the library reports for the string, which it reads once; None if the string
        is valid after all."""
        if not hasattr(self, "_found"):
            self._found = self._find()
        return self._found

    def _read(self) -> Optional[CError]:
        """Has the library read the string. Returns the error; None if the string is valid."""
        error = CError()
        status = self._explain(error)
        if status == OK:
            return None
        if not error.reason:
            check(status)
        return error

    def _find(self) -> Optional[_Explanation]:
        """Returns what the library reports for the string; None if it is valid."""
        error = self._read()
        if error is None:
            return None
        span = LIBRARY.semver_parser_error_span(error, c_string(self.string))
        return _Explanation(
            error.status,
            index_of(self.string, error.offset),
            (index_of(self.string, span.start), index_of(self.string, span.end)),
            cast(Reason, LIBRARY.semver_parser_reason_name(error.reason).decode("ascii")),
            LIBRARY.semver_parser_reason_text(error.reason).decode("utf-8"),
        )

    def _explained(self) -> _Explanation:
        """Returns the explanation. Raises `ValueError` if the error was made for a valid string."""
        explanation = self._explanation()
        if explanation is None:
            raise self._valid()
        return explanation

    def _valid(self) -> ValueError:
        """Returns the error for an error that was made for a valid string."""
        return ValueError(f"the string is valid: {self.string!r}")

    @property
    def offset(self) -> int:
        """Where the string is invalid."""
        return self._explained().offset

    @property
    def span(self) -> Tuple[int, int]:
        """The part of the string to underline, as two indices of `string`: the one at which it
        begins, and the one after it.

        It has the characters of the same kind around `offset`, such as a whole number or a whole
        operator. For a leading zero it is the number that begins with it. It is empty only at the
        end of the string, if something is missing there.

        >>> error = VersionError("1.2.03", "cargo")
        >>> start, end = error.span
        >>> error.string[start:end]
        '03'
        """
        return self._explained().span

    @property
    def reason(self) -> Reason:
        """Why it is invalid, as a word for programs."""
        return self._explained().reason

    @property
    def sentence(self) -> str:
        """Why it is invalid, as an English sentence."""
        return self._explained().sentence

    @property
    def suggestion(self) -> Optional[str]:
        """A string that is valid in the dialect, and that may have been meant, or None if none is
        known. It differs from `string` only in the spans of errors. It is a `str` also if `string`
        is `bytes`, and None if these aren't UTF-8.

        >>> RangeError("=>1.02", "cargo").suggestion
        '>=1.2'
        >>> RangeError(">=1.2, <2", "npm").suggestion
        '>=1.2 <2'
        >>> RangeError("latest", "npm").suggestion is None
        True

        It is computed each time that it is used.
        """
        error = self._read()
        if error is None:
            raise self._valid()
        return printed_or_none(
            LIBRARY.semver_parser_suggestion, error, c_string(self.string), self.dialect._number
        )

    def __str__(self) -> str:
        explained = self._explanation()
        status = self._STATUS if explained is None else explained.status
        index = "" if self.index is None else f", index {self.index}"
        where = "" if explained is None else f" (offset {explained.offset}: {explained.sentence})"
        return f"{_text_of(status)}{index}: {_shown(self.string)}{where}"

    def __format__(self, specification: str) -> str:
        """Returns `str(self)`. With `#`, the string is in a line of its own, and carets are below its
        span. Characters other than printable ones of ASCII are escaped there, as in Rust: `\\u{e9}`.

        >>> print(f"{RangeError('1 || 2', 'cargo'):#}")
        invalid range: Cargo doesn't accept ||; npm does
            1 || 2
              ^^
        """
        if specification != "#":
            return format(str(self), specification)
        error = self._read()
        if error is None:
            raise self._valid()
        return _message_of(error, self.string)


class VersionError(SemverError):
    """A string is an invalid version in a dialect.

    >>> from semver_parser import Version
    >>> try:
    ...     Version.parse("1.2.03", dialect="cargo")
    ... except VersionError as error:
    ...     error.offset, error.reason, error.sentence
    (5, 'leading-zero', 'numbers and identifiers of digits may not have a leading zero')
    """

    _STATUS = INVALID_VERSION

    def _explain(self, error: CError) -> int:
        number = self.dialect._number
        status: int = LIBRARY.semver_parser_parse_version(
            c_string(self.string), number, CVersion(), error
        )
        return status


class RangeError(SemverError):
    """A string is an invalid range in a dialect, or a number of it is too large.

    >>> from semver_parser import Range
    >>> try:
    ...     Range("1.2 || 3", dialect="cargo")
    ... except RangeError as error:
    ...     error.offset, error.reason, error.sentence
    (4, 'cargo-bars', "Cargo doesn't accept ||; npm does")
    """

    _STATUS = INVALID_RANGE

    def _explain(self, error: CError) -> int:
        number = self.dialect._number
        status: int = LIBRARY.semver_parser_check_range(c_string(self.string), number, error)
        return status


class UpgradeError(ValueError):
    """A requirement can't be raised to a version: the raised range wouldn't contain it.

    - `range`: the requirement.
    - `version`: the version, as a string.

    >>> from semver_parser import upgrade
    >>> try:
    ...     upgrade("1.x", "2.0.0-rc.1", dialect="npm")
    ... except UpgradeError as error:
    ...     error.range, error.version
    ('1.x', '2.0.0-rc.1')
    """

    def __init__(self, range: String, version: String) -> None:
        super().__init__(range, version)
        self.range = range
        self.version = version

    def __str__(self) -> str:
        return _message_of(CError(status=CANNOT_UPGRADE), self.range)
