"""Random packages and projects of npm and yarn, from a seed."""

import random
from typing import Any, Callable, Dict, List, NamedTuple

from registry import Json, Releases

NAMES = ("ada", "@of/bob", "cid", "dot", "eve", "fay", "gus", "hal")
VERSIONS = (
    "0.1.0 0.1.4 0.2.0 1.0.0 1.0.1 1.1.0 1.2.0-rc.1 1.2.0 1.2.3 2.0.0-alpha.1 2.0.0 2.1.0 "
    "3.0.0-beta.2"
).split()
KINDS = ("dependencies", "dependencies", "dependencies", "peerDependencies", "optionalDependencies")


class World(NamedTuple):
    """The packages of a registry, and the package.json files of a project by their directories."""

    releases: Releases
    manifests: Dict[str, Json]


class Maker:
    """Makes worlds. The URLs of archives are those of a registry."""

    def __init__(self, seed: int, archive_at: Callable[[str, str], str], is_npm: bool) -> None:
        self.chance = random.Random(seed)
        self.archive_at, self.is_npm = archive_at, is_npm
        self.releases: Releases = {}

    def maybe(self, share: float) -> bool:
        """Returns true with a probability."""
        return self.chance.random() < share

    def range_of(self, name: str) -> str:
        """Returns a range that some version of a name may be required by."""
        version = self.chance.choice(list(self.releases[name]))
        major, minor, _ = version.partition("-")[0].split(".")
        forms = [f"^{version}"] * 4 + [f"~{version}"] * 2 + [version, f">={version}", f"{major}.x"]
        forms += [f"^{major}.{minor} || ^{int(major) + 1}", f">={version} <{int(major) + 2}"]
        forms += ["*", ""]
        return self.chance.choice(forms)

    def require(self, manifest: Json, name: str) -> None:
        """Makes a package require a name, as one of its kinds of requirements, and perhaps under
        another name."""
        kind, spec = self.chance.choice(KINDS), self.range_of(name)
        known_as = name
        if kind == "dependencies" and self.maybe(0.08):
            version = self.chance.choice(list(self.releases[name]))
            spec = self.archive_at(name, version)
        elif kind == "dependencies" and self.maybe(0.08):
            spec = "latest"
        elif kind == "dependencies" and self.maybe(0.1):
            known_as, spec = f"like-{name.rpartition('/')[2]}", f"npm:{name}@{spec or '*'}"
        manifest.setdefault(kind, {})[known_as] = spec
        if kind == "peerDependencies" and self.maybe(0.4):
            manifest.setdefault("peerDependenciesMeta", {})[name] = {"optional": True}

    def package(self, name: str, version: str, others: List[str], most: int) -> Json:
        """Returns a package.json that requires some of the other packages."""
        manifest: Json = {"name": name, "version": version}
        count = min(len(others), self.chance.randint(0, most))
        for other in self.chance.sample(others, count):
            self.require(manifest, other)
        return manifest

    def world(self) -> World:
        """Returns a world."""
        for index, name in enumerate(NAMES[: self.chance.randint(3, len(NAMES))]):
            versions = self.chance.sample(VERSIONS, self.chance.randint(1, 5))
            others = list(NAMES[:index])
            self.releases[name] = {it: self.package(name, it, others, 3) for it in versions}
        names = list(self.releases)
        project = self.package("project", "1.0.0", names, 5)
        project.pop("peerDependencies", None)
        manifests = {"": project}
        for name in names[-2:] if self.maybe(0.4) else []:
            if self.maybe(0.7):
                project.setdefault("devDependencies", {}).setdefault(name, self.range_of(name))
        if self.maybe(0.4):
            self.add_workspaces(manifests, names)
        if self.maybe(0.35):
            self.add_overrides(project, names)
        if self.is_npm and self.maybe(0.2):
            manifests["linked"] = self.package("linked", "1.0.0", names, 2)
            project.setdefault("dependencies", {})["linked"] = "file:linked"
        return World(self.releases, manifests)

    def add_workspaces(self, manifests: Dict[str, Json], names: List[str]) -> None:
        """Adds workspaces. The last one may require the first."""
        project = manifests[""]
        project.update({"private": True, "workspaces": ["packages/*"]})
        for name in ("one", "two"):
            workspace = self.package(name, self.chance.choice(("1.0.0", "2.3.0")), names, 3)
            manifests[f"packages/{name}"] = workspace
        first = manifests["packages/one"]["version"]
        spec = self.chance.choice((f"^{first}", "*", first, f">={first}"))
        manifests["packages/two"].setdefault("dependencies", {})["one"] = spec

    def add_overrides(self, project: Json, names: List[str]) -> None:
        """Adds overrides for npm, or resolutions for yarn, of what the project doesn't require."""
        direct = {it for kind in project.values() if isinstance(kind, dict) for it in kind}
        free = [name for name in names if name not in direct]
        for name in self.chance.sample(free, min(len(free), 2)):
            version: Any = self.chance.choice(list(self.releases[name]))
            if not self.is_npm:
                project.setdefault("resolutions", {})[name] = version
                continue
            key = f"{name}@{self.range_of(name) or '*'}" if self.maybe(0.3) else name
            if self.maybe(0.3):
                outer = self.chance.choice(names)
                project.setdefault("overrides", {}).setdefault(outer, {})
                if isinstance(project["overrides"][outer], dict):
                    project["overrides"][outer][key] = version
            else:
                project.setdefault("overrides", {})[key] = version
