"""What yarn 1 and later versions share: how their lock files are recognized and located, and what
none of them has."""

import os
import re
from typing import Optional, Set, Tuple

from ..files import taking
from ..findings import Finding, NotChecked, OfRequirement
from ..judge import Verdict
from ..model import PROJECT, Keys, Requirement
from ..node.package_json import (
    MANIFEST,
    Project,
    manifest_path,
    project_beside,
    statement_of,
)
from ..node.specifiers import CATALOG, NodeScheme
from ..tool import Input, Offsets, Statement, Tool
from .lock import MARK, METADATA, YarnFile, lines_of, own_name, tree_of
from .resolutions import Resolutions, resolutions_of

# The line of a package. Its colon may be on the next line.
TOP = re.compile(rb"^(?:\? [^\n]*\n)?[^\s#][^\n]*", re.M)

# The name of a package in a key without an escape.
NAME = re.compile(rb"""(?:^|[\s",'])(@?[^@\s",']+)@""")


class YarnScheme(NodeScheme):
    """How yarn reads specifiers. The version of a workspace isn't in the lock file."""

    def has_name(self, specifier: str, requirement: Requirement) -> bool:
        """Returns whether a package has the name of an alias, if its own name is known."""
        found = requirement.found
        if found is None or own_name(found.entry) is None:
            return True
        return super().has_name(specifier, requirement)

    def verdict(self, specifier: str, requirement: Requirement) -> Optional[Verdict]:
        """Returns the verdict on what is found."""
        if requirement.found is not None and requirement.found.is_own:
            return Verdict(NotChecked, "workspace")
        return super().verdict(specifier, requirement)

    def missing(self, requirement: Requirement) -> Finding:
        """Returns the finding about a requirement without a key. The lock file doesn't say which
        key a catalog is for."""
        if requirement.specifier.startswith(CATALOG):
            return NotChecked(requirement, None, requirement.specifier).excused("catalog")
        return super().missing(requirement)


class YarnTool(Tool):
    """yarn, of either kind."""

    name, repair = "yarn", "yarn install"
    lock_files = ("yarn.lock",)
    manifests = (MANIFEST,)
    takes_package_json = True
    is_berry = False

    def recognizes(self, file: Input) -> bool:
        """Returns whether yarn wrote a file. An empty yarn.lock belongs to a project without
        packages."""
        is_empty = os.path.basename(file.path) == "yarn.lock" and not file.text.strip()
        if MARK.search(file.text) is None and not is_empty:
            return False
        return (METADATA in file.parsed(tree_of)) == self.is_berry

    def project_of(self, file: Input) -> Tuple[Project, Resolutions]:
        """Returns the package.json files of a project, and the resolutions of its own."""
        project, path = project_beside(file), manifest_path(file, file.directory)
        with taking(path or "", MANIFEST):
            return project, resolutions_of(project.top, self.is_berry)

    def lock_of(self, file: Input) -> YarnFile:
        """Returns the packages of a lock file."""
        return YarnFile(file.parsed(tree_of))

    def offsets(self, text: bytes, wanted: Set[Keys]) -> Offsets:
        """Yields the keys of the packages that have the names of what is wanted."""
        each = [set(NAME.findall(keys[0].encode("utf-8", "replace"))) for keys in wanted]
        names, are_all_known = set().union(*each), all(each)
        for found in TOP.finditer(text):
            key = found.group()
            if are_all_known and b"\\" not in key and names.isdisjoint(NAME.findall(key)):
                continue
            for _, _, whole, _, _ in lines_of(key.decode("utf-8", "replace")):
                yield (whole,), found.start()

    def statement(self, finding: Finding, file: Input) -> Optional[Statement]:
        """Returns where a package.json states a requirement."""
        requirer = finding.requirement.requirer if isinstance(finding, OfRequirement) else None
        place = requirer.place if requirer is not None and requirer.name != PROJECT else ""
        return statement_of(finding, file, file.directory, place)
