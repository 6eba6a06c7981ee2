"""Checks whether versions are in ranges of npm or Cargo, and combines and compares ranges.

    >>> from semver_parser import Range, Version, compare_ranges, satisfies
    >>> satisfies("1.9.0", "^1.2", dialect="npm")
    True
    >>> npm = Range("^1.2 || 3.x", dialect="npm")
    >>> npm.highest(["1.3.0", "1.10.0", "2.0.0", "latest"], invalid="skip")
    '1.10.0'
    >>> str(compare_ranges("^1.2.0", ">=1.4.0", dialect="cargo").lost)
    '>=1.2.0, <1.4.0'
    >>> Version.parse("1.2.3-rc.1", dialect="cargo").pre
    ('rc', 1)

Versions are those of SemVer 2.0.0. For the versions of Python packages, which follow PEP 440
(`1.0rc1`, `~=1.2`), use `packaging`.

The `dialect` says whose rules apply: "npm", "cargo", or those of the Rust crate `semver-parser`,
"crate-npm" and "crate-cargo". The pages GRAMMAR and MEANING of the repository say which strings are
versions and ranges, and which versions satisfy a range.

Strings are `str`, or `bytes` in UTF-8. These errors are raised:

- `VersionError` or `RangeError` for an invalid string;
- `UpgradeError` if a requirement can't be raised to a version;
- `TypeError` for a value of another type;
- `MemoryError` if memory runs out.

Threads may call all functions at the same time, and may share a range. A forked process has its own
copies of ranges. Don't use the package in a forked child of a process with several threads, since
POSIX doesn't let such a child allocate memory.

The package needs a shared library: `libsemver_parser.so.1`, `libsemver_parser.dylib` or
`semver_parser.dll`. It is loaded when the first of the names below is imported. The environment
variable SEMVER_PARSER_LIBRARY may name its path. If it doesn't, the library is looked for next to
these modules, and then where the system looks for libraries. If there is none, or the first one
that can be loaded has another major version, an `ImportError` is raised.
"""

from importlib import import_module
from typing import TYPE_CHECKING

if TYPE_CHECKING:
    from ._comparators import Comparator, Comparators, Op, crate_comparators
    from ._comparing import Comparison, compare_ranges
    from ._errors import RangeError, Reason, SemverError, UpgradeError, VersionError
    from ._options import AnyDialect, AnyPreReleases, Dialect, PreReleases
    from ._ranges import Invalid, Range
    from ._satisfying import satisfies
    from ._strings import String
    from ._terms import Component, PartialVersion, Term, TermOperator, replace_version, terms
    from ._upgrading import upgrade
    from ._versions import AnyVersion, Identifier, Version, precedence

__version__ = "1.0.0"

__all__ = [
    "AnyDialect",
    "AnyPreReleases",
    "AnyVersion",
    "Comparator",
    "Comparators",
    "Comparison",
    "Component",
    "Dialect",
    "Identifier",
    "Invalid",
    "Op",
    "PartialVersion",
    "PreReleases",
    "Range",
    "RangeError",
    "Reason",
    "SemverError",
    "String",
    "Term",
    "TermOperator",
    "UpgradeError",
    "Version",
    "VersionError",
    "compare_ranges",
    "crate_comparators",
    "precedence",
    "replace_version",
    "satisfies",
    "terms",
    "upgrade",
]

_UNPICKLE = "_unpickled_range"
"""The function that pickles name, besides the public classes."""

_MODULES = ["strings", "options", "errors", "versions", "comparators", "terms", "ranges"]
_MODULES += ["satisfying", "comparing", "upgrading"]

if not TYPE_CHECKING:

    def __getattr__(name):
        """Loads the library and all public names when the first of these is used, so that the
        programs of `semver_parser.checks` have their help, and their errors, without the library.
        """
        if name not in (*__all__, _UNPICKLE):
            raise AttributeError(f"module {__name__!r} has no attribute {name!r}")
        for module in _MODULES:
            defined = vars(import_module(f"{__name__}._{module}"))
            for public in filter(defined.__contains__, (*__all__, _UNPICKLE)):
                globals()[public] = it = defined[public]
                if getattr(it, "__module__", "").startswith(f"{__name__}."):
                    it.__module__ = __name__  # as users, documents and pickles know it
        return globals()[name]

    def __dir__():
        return ["__version__", *__all__]
