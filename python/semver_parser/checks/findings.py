"""The findings about a lock file: a class for each kind, with its sentence.

A finding is about a requirement or about a package. `record` has its parts, for output formats that
have fields. A finding that is listed only with `--strict` has an `excuse`. A finding that no
command of its tool repairs has an `advice`; if it makes that command fail, it is blocking.
"""

from dataclasses import dataclass
from typing import ClassVar, Dict, List, NamedTuple, Optional, Tuple, Type, TypeVar

from .model import PEERS, PROJECT, Keys, Package, Requirement
from .wording import PACKAGE, RANGE, VERSION, Paint, escaped, plain, quoted

F = TypeVar("F", bound="Finding")


class Record(NamedTuple):
    """The parts of a finding. A part that it doesn't have is None. The manual describes them."""

    package: Optional[str] = None
    version: Optional[str] = None
    place: Optional[str] = None
    range: Optional[str] = None
    dependency: Optional[str] = None
    alias: Optional[str] = None
    requirer: Optional[str] = None
    requirer_version: Optional[str] = None
    reason: Optional[str] = None


class Finding:
    """A finding about a requirement or a package: the word of its kind, a title for it, and its
    sentence, in which names in braces stand for parts."""

    kind: ClassVar[str]
    title: ClassVar[str]
    text: ClassVar[str]
    is_note: ClassVar[bool] = False
    is_wrong_package: ClassVar[bool] = False

    excuse = ""
    advice = ""
    is_blocking = False
    at: Keys = ()

    @property
    def record(self) -> Record:
        """The parts of the finding, as outputs with fields have them."""
        raise NotImplementedError

    @property
    def about(self) -> str:
        """The label to which the path of `--why` leads."""
        raise NotImplementedError

    def parts(self, paint: Paint) -> Dict[str, str]:
        """Returns the parts of the sentence, painted."""
        raise NotImplementedError

    def sentence(self, paint: Paint = plain) -> str:
        """Returns the sentence of the finding, whose parts are painted."""
        return self.text.format(**self.parts(paint))

    def advised(self: F, advice: str, is_blocking: bool) -> F:
        """Sets what to change, since no command repairs the finding. Returns the finding."""
        self.advice, self.is_blocking = advice, is_blocking
        return self

    def excused(self: F, reason: str) -> F:
        """Sets why the finding is listed only with `--strict`, if there is a reason. Returns the
        finding."""
        self.excuse = reason
        return self

    @property
    def group(self) -> str:
        """The name of the package by which sentences are grouped."""
        return self.record.package or self.record.dependency or ""


def place_of(place: str) -> str:
    """Returns a path or a name as it is in a sentence. `the project` isn't in quotes."""
    return PROJECT if place == PROJECT else quoted(place)


def or_missing(text: str) -> str:
    """Returns a text of a manifest or a lock file; `missing` if it isn't there."""
    return quoted(text) if text else "missing"


# ---- about a requirement


@dataclass(eq=False)
class OfRequirement(Finding):
    """A finding about a requirement. Some kinds have the package that is found for it."""

    requirement: Requirement

    def __post_init__(self) -> None:
        """Has the finding lead to the package that is found, or else to the requirer."""
        self.at = (self.found.at if self.found else ()) or self.requirement.requirer.at

    @property
    def found(self) -> Optional[Package]:
        """The package that the finding is about."""
        return None

    @property
    def range(self) -> str:
        """The range, or what else is required."""
        return self.requirement.specifier

    @property
    def about(self) -> str:
        """The label of the requirer."""
        return self.requirement.requirer.label

    @property
    def record(self) -> Record:
        """The parts of the finding."""
        it, found = self.requirement, self.found or Package(None, None)
        return Record(
            found.name or None,
            found.version or None,
            found.place or (PROJECT if found.is_own else None),
            self.range,
            it.name,
            it.alias or None,
            it.requirer.name,
            it.requirer.version or None,
            self.excuse or None,
        )

    def parts(self, paint: Paint) -> Dict[str, str]:
        """Returns the parts of the sentence, the requirer last."""
        it, who, found = self.requirement, self.requirement.requirer, self.found
        own_name = found.name if found is not None else None
        name = paint(quoted(own_name or it.name), PACKAGE)
        version = found.version if found is not None else None
        requirer = place_of(who.name) + (f" {quoted(who.version)}" if who.version else "")
        is_renamed = bool(it.alias) or bool(own_name and own_name != it.name)
        known_as = f" as {quoted(it.alias or it.name)}" if is_renamed else ""
        if it.kind == PEERS:
            known_as = f" as the peer{known_as[3:]}" if is_renamed else " as a peer"
        return {
            "name": name,
            "found": f"{name} {paint(quoted(version), VERSION)}" if version else name,
            "range": paint(quoted(self.range), RANGE),
            "excuse": self.excuse,
            "requirer": requirer,
            "required": f"required{known_as} by {requirer}",
        }


@dataclass(eq=False)
class OfFound(OfRequirement):
    """A finding about the package that the lock file has for a requirement, and the specifier that
    counted."""

    package_found: Optional[Package]
    specifier: str

    @property
    def found(self) -> Optional[Package]:
        """The package that is there."""
        return self.package_found

    @property
    def range(self) -> str:
        """The specifier that counted."""
        return self.specifier


class Unsatisfied(OfFound):
    """A version that doesn't satisfy what is required."""

    kind, title = "unsatisfied", "A version does not satisfy what is required"
    text = "{found} does not satisfy {range}, {required}"


class Overridden(OfFound):
    """A version that doesn't satisfy what an override puts in place of a requirement."""

    kind, title = "overridden", "A version does not satisfy what an override requires"
    text = "{found} does not satisfy the override {range}, {required}"


class AnotherPackage(OfFound):
    """A package with another name than is required."""

    kind, title = "another-package", "There is another package than is required"
    text = "{found} is not the package of {range}, {required}"
    is_wrong_package = True


class AnotherSource(OfFound):
    """A package from another source than is required."""

    kind, title = "another-source", "A package comes from another source than is required"
    text = "{found} comes from another source than {range}, {required}"


class AnotherCommit(OfFound):
    """A package from another commit of a git repository than is required."""

    kind, title = AnotherSource.kind, AnotherSource.title
    text = "{found} comes from another commit than {range}, {required}"


class InvalidRange(OfFound):
    """A requirement that is an invalid range for its tool."""

    kind, title = "invalid-range", "A range is invalid"
    text = "{found} cannot be checked: {range} is an invalid range, {required}"
    advice, is_blocking = "correct the range where it is required", True


class NoVersion(OfFound):
    """A package without a version that is required by a range."""

    kind, title = "invalid-version", "A version is invalid"
    text = "{name} has no version for {range}, {required}"
    advice = "add a valid version"


class NotChecked(OfFound):
    """A requirement that isn't a range."""

    kind, title = "not-checked", "A requirement is not checked"
    text = "{found} is not checked against {range} ({excuse}), {required}"


class Missing(OfRequirement):
    """A requirement for which the lock file has nothing."""

    kind, title = "missing", "A required package is missing"
    text = "{name} {range} is missing, {required}"


@dataclass(eq=False)
class MissingFeature(OfFound):
    """A feature that is required of a package that doesn't have it. The specifier is its name."""

    kind, title = Missing.kind, Missing.title
    text = "the feature {range} of {found} is missing, {required}"
    advice, is_blocking = "correct the features in the manifests", True


class NotRequired(OfRequirement):
    """A package that the lock file has for a requirer that doesn't require it."""

    kind, title = "not-required", "Nothing requires a package"
    text = "{found} is listed as a dependency of {requirer}, which does not require it"

    @property
    def found(self) -> Optional[Package]:
        """The package that is there."""
        return self.requirement.found

    @property
    def record(self) -> Record:
        """The parts of the finding."""
        return super().record._replace(range=None)


@dataclass(eq=False)
class Conflict(OfRequirement):
    """An override that differs from what the project itself requires."""

    override: str

    kind, title = "conflict", "An override is not what the project requires"
    text = "the override {override} of {name} conflicts with {stated}, {required}"
    advice, is_blocking = "make the override and the requirement agree", True

    @property
    def record(self) -> Record:
        """The parts of the finding."""
        stated = self.requirement.specifier
        return super().record._replace(range=self.override, version=stated)

    def parts(self, paint: Paint) -> Dict[str, str]:
        """Returns the parts of the sentence."""
        override, stated = paint(quoted(self.override), RANGE), quoted(self.requirement.specifier)
        return {**super().parts(paint), "override": override, "stated": stated}


@dataclass(eq=False)
class Stale(OfRequirement):
    """A requirement of a manifest for which the lock file wasn't written."""

    stated: str
    locked: str
    file: str

    kind, title = "stale", "The lock file was written for something else"
    text = "{name} is {stated} in {file}, and {locked} in the lock file, {required}"

    @property
    def record(self) -> Record:
        """The parts of the finding."""
        version = self.locked or None
        return super().record._replace(range=self.stated, version=version, reason=self.file)

    def parts(self, paint: Paint) -> Dict[str, str]:
        """Returns the parts of the sentence."""
        stated, locked = or_missing(self.stated), or_missing(self.locked)
        return {**super().parts(paint), "stated": stated, "locked": locked, "file": self.file}


class StaleTable(Stale):
    """A requirement that is in another table of a manifest than in the lock file."""

    text = "{name} is in {stated} in {file}, and in {locked} in the lock file, {required}"


@dataclass(eq=False)
class DifferentRange(OfRequirement):
    """A requirement whose range differs from that of the project or another workspace."""

    other: Requirement

    kind, title = "different-range", "Workspaces require a package by different ranges"
    text = "{name} {range} differs from {other}, {required}"
    is_note = True

    def __post_init__(self) -> None:
        """Has the finding lead to no entry of the lock file."""

    @property
    def record(self) -> Record:
        """The parts of the finding."""
        other = self.other
        return super().record._replace(version=other.specifier, reason=other.requirer.name)

    def parts(self, paint: Paint) -> Dict[str, str]:
        """Returns the parts of the sentence."""
        other = f"{quoted(self.other.specifier)} of {place_of(self.other.requirer.name)}"
        return {**super().parts(paint), "other": other}


# ---- about a package


@dataclass(eq=False)
class OfPackage(Finding):
    """A finding about a package itself. Some kinds have what else is there, or what the package
    is."""

    it: Package
    other: str = ""
    what: str = ""

    def __post_init__(self) -> None:
        """Has the finding lead to the package."""
        self.at = self.it.at

    @property
    def about(self) -> str:
        """The place of the package, or else its name."""
        return self.it.place or (PROJECT if self.it.is_own else self.it.name or "")

    @property
    def record(self) -> Record:
        """The parts of the finding."""
        it = self.it
        other, what = self.other or None, self.what or None
        return Record(it.name or None, it.version, self.about or None, other, reason=what)

    def parts(self, paint: Paint) -> Dict[str, str]:
        """Returns the parts of the sentence."""
        name, version, where = self.it.name, self.it.version, place_of(self.about)
        package = paint(quoted(name) if name else where, PACKAGE)
        return {
            "found": package if version is None else f"{package} {paint(quoted(version), VERSION)}",
            "other": paint(quoted(self.other), RANGE),
            "what": self.what,
            "where": where,
            "inside": "" if name in (None, "", self.about) else f", in {where}",
        }


class InvalidVersion(OfPackage):
    """A package whose version is invalid for its tool."""

    kind, title = NoVersion.kind, NoVersion.title
    text = "{found} has an invalid version{inside}"
    advice = "correct the version"


class TwoVersions(OfPackage):
    """An entry whose archive has another version, or which has another version itself."""

    kind, title = "another-version", "An entry has two versions"
    text = "{found} does not match {other} of the same entry{inside}"
    advice = "remove the entry from the lock file, and have the tool write it anew"


class ManifestVersion(TwoVersions):
    """A package whose manifest has another version."""

    text = "{found} does not match {other} of its {what}{inside}"
    advice = ""


class TwoPackages(TwoVersions):
    """An entry whose archive is that of another package."""

    kind, title = AnotherPackage.kind, AnotherPackage.title
    is_wrong_package = True
    advice = ""


class Unreached(OfPackage):
    """A package to which nothing leads."""

    kind, title = NotRequired.kind, NotRequired.title
    text = "{found} is there, but nothing requires it"


class NotPatched(OfPackage):
    """A package that a patch replaces, but which is still there."""

    kind, title = AnotherSource.kind, AnotherSource.title
    text = "{found} comes from another source than the patch {other}"


class NotReplaced(OfPackage):
    """A package that a lock file of Cargo has as replaced, though no `[replace]` names it."""

    kind, title = NotRequired.kind, NotRequired.title
    text = "{found} is replaced, but no [replace] names it"


class WrongChecksum(OfPackage):
    """A package whose checksum is missing or can't be right, and why."""

    kind, title = "checksum", "A checksum is missing or invalid"
    text = "{found} has {what}"


class OwnConflict(OfPackage):
    """A package whose manifest conflicts with itself or with another manifest, and how."""

    kind, title = Conflict.kind, Conflict.title
    text = "{found} {what}"
    advice, is_blocking = "correct the manifests: no lock file is right for them", True


class MissingMember(OfPackage):
    """A workspace member that the lock file lacks."""

    kind, title = Missing.kind, Missing.title
    text = "the workspace member {found} is missing{inside}"


class MissingEntry(MissingMember):
    """A package that the lock file lacks, and why it has to be there."""

    text = "{found} is missing: {what}"


class MissingTarget(MissingMember):
    """A link to a directory that isn't there."""

    text = "{other}, the target of the link {where}, is missing"
    advice, is_blocking = "remove the entry of the link", True


@dataclass(eq=False)
class StaleSetting(Finding):
    """A setting of a project for which the lock file wasn't written."""

    name: str
    stated: str
    locked: str
    file: str
    at: Keys = ()

    kind, title = Stale.kind, Stale.title
    text = "{name} is {stated} in {file}, and {locked} in the lock file"

    @property
    def about(self) -> str:
        """The name of the setting."""
        return self.name

    @property
    def record(self) -> Record:
        """The parts of the finding."""
        locked, stated = self.locked or None, self.stated or None
        return Record(None, locked, self.name, stated, reason=self.file)

    def parts(self, paint: Paint) -> Dict[str, str]:
        """Returns the parts of the sentence."""
        stated, locked = or_missing(self.stated), or_missing(self.locked)
        return {"name": quoted(self.name), "stated": stated, "locked": locked, "file": self.file}


@dataclass(eq=False)
class Duplicate(Finding):
    """A package of which there are several versions."""

    name: str
    versions: Tuple[str, ...]
    at: Keys = ()

    kind, title = "duplicate", "A package is there in several versions"
    text = "{name} is there in several versions: {versions}"
    is_note = True

    @property
    def about(self) -> str:
        """The name of the package."""
        return self.name

    @property
    def record(self) -> Record:
        """The parts of the finding."""
        return Record(self.name or None, ", ".join(self.versions), self.name or None)

    def parts(self, paint: Paint) -> Dict[str, str]:
        """Returns the parts of the sentence."""
        return {"name": quoted(self.name), "versions": escaped(", ".join(self.versions))}


CLASSES: List[Type[Finding]] = [
    Unsatisfied, Overridden, Conflict, AnotherPackage, TwoVersions, AnotherSource, InvalidVersion,
    InvalidRange, Missing, WrongChecksum, NotRequired, Stale, NotChecked, Duplicate, DifferentRange,
]  # fmt: skip
"""A class for each kind, in the order in which the manual describes them."""
