"""The packages of a Cargo.lock, and their edges, as Cargo reads the file."""

from functools import lru_cache
from typing import Callable, Dict, Iterator, List, NamedTuple, Optional, Tuple

from ..files import Entry, WrongShape, list_at, object_at, text_at
from ..model import Package
from .sources import PATH, Source, is_from, locked_source

# The forms of the file that cargo 1.95 reads, besides those without a version.
VERSIONS = (3, 4)

PackageKey = Tuple[str, str, str]

# Returns the directory of a package without a source, by its name and version.
Place = Callable[[str, str], Optional[str]]

source_of = lru_cache(maxsize=None)(locked_source)
"""Returns the source that a lock file has."""


def key_of(package: Package) -> PackageKey:
    """Returns what distinguishes a package from all others."""
    return package.name or "", package.version or "", package.source


class Edge(NamedTuple):
    """An edge: a name, perhaps a version, and the package that it is for. It is None if there is no
    such package or more than one."""

    name: str
    version: str
    to: Optional[Package]


class Lock:
    """The packages of a lock file, the patches that aren't used, and by name the packages that
    Cargo doesn't ignore."""

    def __init__(self, lock: Entry, place: Place) -> None:
        version = lock.get("version", VERSIONS[-1])
        if type(version) is not int or version not in VERSIONS:
            raise WrongShape(f": version {version} isn't known")
        self.place = place
        # Cargo.lock files from before 2017 have the package itself in a table of its own.
        own = [lock["root"]] if "root" in lock else []
        entries = (*own, *list_at(lock.get("package", []), "package"))
        self.packages = [package_of(it, "package") for it in entries]
        patch = object_at(lock.get("patch", {}), "patch")
        unused = list_at(patch.get("unused", []), "patch: unused")
        self.unused = [package_of(it, "patch: unused") for it in unused]
        for several in (self.packages, self.unused):
            refuse_twice(several)
        self.sums = sums_of(lock, self.packages)
        self.by_name: Dict[str, List[Package]] = {}
        for package in self.packages:
            if not self.is_gone(package):
                self.by_name.setdefault(package.name or "", []).append(package)

    def directory_of(self, package: Package) -> Optional[str]:
        """Returns the directory of a package at a path."""
        return None if package.source else self.place(package.name or "", package.version or "")

    def is_gone(self, package: Package) -> bool:
        """Returns whether a package has no source, and no manifest leads to it. Cargo ignores
        it."""
        return not package.source and self.directory_of(package) is None

    def is_at(self, source: Source, package: Package) -> bool:
        """Returns whether a package is from a source."""
        directory = self.directory_of(package)
        if source.kind == PATH or directory is not None:
            return source == Source(PATH, directory or "")
        return is_from(source, source_of(package.source) if package.source else None)

    def edges_of(self, package: Package) -> Iterator[Edge]:
        """Yields the edges of a package. They are written as `NAME` if the file has one package of
        the name, otherwise as `NAME VERSION`, and perhaps with a source after that. Without a
        source, a package at a path is preferred."""
        for text in depends_of(package.entry, package.name or ""):
            name, _, rest = text.partition(" ")
            version, _, source = rest.partition(" ")
            found = [it for it in self.by_name.get(name, []) if version in ("", it.version)]
            if source:
                wanted = source_of(source.strip("()"))
                found = [it for it in found if it.source and source_of(it.source) == wanted]
            elif len({it.version for it in found}) == 1:
                found = [it for it in found if self.directory_of(it) is not None] or found
            yield Edge(name, version, found[0] if len(found) == 1 else None)


def sums_of(lock: Entry, packages: List[Package]) -> Optional[Entry]:
    """Returns the checksums of a lock file in the first form, which has them in a table of its own.
    In this form, each edge has the version of its package, and its source, if that has one. Returns
    None for a file in a later form."""
    own = {(it.name, it.version) for it in packages if not it.source}
    texts = (text for it in packages for text in depends_of(it.entry, it.name or ""))
    are_whole = all(text.count(" ") > 1 or tuple(text.split(" ")) in own for text in texts)
    is_later = "version" in lock or any("checksum" in it.entry for it in packages)
    return object_at(lock.get("metadata", {}), "metadata") if are_whole and not is_later else None


def package_of(value: object, where: str) -> Package:
    """Returns a package of the file."""
    entry = object_at(value, where)
    name = text_at(entry.get("name"), f"{where}: name")
    version = text_at(entry.get("version"), f"{name}: version")
    depends_of(entry, name)
    source = text_at(entry.get("source", ""), f"{name}: source")
    return Package(name, version, "", ("package", name, version), source, False, entry)


def depends_of(entry: Entry, name: str) -> List[str]:
    """Returns the edges in the entry of a package, as they are written."""
    where = f"{name}: dependencies"
    depends = [text_at(it, where) for it in list_at(entry.get("dependencies", []), where)]
    if "replace" in entry:
        depends.append(text_at(entry["replace"], f"{name}: replace"))
    return depends


def refuse_twice(packages: List[Package]) -> None:
    """Rejects a package that is there twice."""
    known = set()
    for package in packages:
        if key_of(package) in known:
            raise WrongShape(f": {package.name} {package.version} is there twice")
        known.add(key_of(package))
