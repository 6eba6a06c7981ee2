"""The specifiers of pnpm in the form that npm reads: `jsr:`, `workspace:` and the ranges of
peers."""

import re
from typing import Tuple

from semver_parser import Dialect, satisfies

from ..satisfaction import is_range, is_version
from ..node.specifiers import name_and_rest

JSR = "jsr:"
WORKSPACE = "workspace:"

# A version with a pre-release, and its release.
PRE_RELEASE = re.compile(r"([0-9]+\.[0-9]+\.[0-9]+)-[0-9A-Za-z.-]+", re.A)


def parent_and_name(key: str) -> Tuple[str, str]:
    """Returns the parent and the package in the key of an override. Each is a name, perhaps with a
    range after `@`. A range may have `>` at its beginning, after a blank and after `|`."""
    *outer, last = re.split(r"(?<=[^ |@])>", key, maxsplit=1)
    return "".join(outer), last


def npm_form_of_jsr(name: str, spec: str) -> str:
    """Returns `jsr:RANGE` or `jsr:@SCOPE/NAME@RANGE` as the package that JSR has for it in npm's
    registry. Returns other specifiers unchanged."""
    if not spec.startswith(JSR):
        return spec
    rest = spec[len(JSR) :]
    own, within = name_and_rest(rest) if rest.startswith("@") else (name, rest)
    return f"npm:@jsr/{own[1:].replace('/', '__')}@{within or 'latest'}"


def npm_form_of_workspace(spec: str, version: str) -> str:
    """Returns the range in `workspace:RANGE` or `workspace:NAME@RANGE`. `*`, `^` and `~` are for
    the version that is there. Returns a path, and other specifiers, unchanged."""
    rest = spec[len(WORKSPACE) :]
    if not spec.startswith(WORKSPACE) or rest.startswith("."):
        return spec
    name, within = name_and_rest(rest)
    if name and within:
        return f"npm:{name}@{npm_form_of_workspace(WORKSPACE + within, version)}"
    marks = {"": "", "*": "", "^": "^", "~": "~"}
    return marks[rest] + version if rest in marks else rest


def npm_form_of(name: str, spec: str, version: str) -> str:
    """Returns what is required of a name in the form that npm reads, for the version that is
    there."""
    return npm_form_of_workspace(npm_form_of_jsr(name, spec), version)


def takes_peer(spec: str, version: str) -> bool:
    """Returns whether a peer's range, with all pre-releases, contains a version or its release.
    That is pnpm's rule."""
    if not is_range(spec, Dialect.NPM) or not is_version(version, Dialect.NPM):
        return False
    versions = (version, PRE_RELEASE.sub(r"\1", version))
    return any(satisfies(it, spec, dialect="npm", pre_releases="included") for it in versions)
