"""Random crates in a directory, and workspaces of Cargo that require them, from a seed."""

import hashlib
import json
import os
import random
import shutil
import subprocess
from dataclasses import dataclass, field
from pathlib import Path
from typing import Dict, List, NamedTuple, Optional, Tuple

NAMES = ("ada", "bob-core", "cid", "dot", "eve_macros", "fay", "gus")
VERSIONS = (
    "0.1.0 0.1.4 0.2.0 1.0.0 1.0.1 1.1.0 1.2.0-rc.1 1.2.0 1.2.3 2.0.0-alpha.1 2.0.0 2.1.0"
).split()
TABLES = ("dependencies", "dependencies", "dev-dependencies", "build-dependencies")
TARGETS = ("cfg(windows)", "cfg(unix)", "x86_64-unknown-linux-gnu")
WAITING = 60

Crate = Tuple[str, str]
"""The name and the version of a crate."""


class Need(NamedTuple):
    """A requirement of a manifest: its table, its key, the crate, the version requirement, whether
    it is optional, the directory of the crate if that is at a path, and its features."""

    table: str
    key: str
    name: str
    requirement: str
    is_optional: bool
    place: str = ""
    features: Tuple[str, ...] = ()

    def line(self, own_place: str) -> str:
        """Returns the line for the table of a manifest in a directory."""
        fields = [f'version = "{self.requirement}"'] if self.requirement else []
        if self.place:
            fields.append(f'path = "{os.path.relpath(self.place, own_place)}"')
        fields += [f'package = "{self.name}"'] if self.key != self.name else []
        fields += ["optional = true"] if self.is_optional else []
        listed = ", ".join(f'"{it}"' for it in self.features)
        fields += [f"features = [{listed}]"] if listed else []
        return f"{self.key} = {{ {', '.join(fields)} }}\n"


Needs = Dict[Crate, List[Need]]


@dataclass
class Local:
    """A package at a path: its name and version, its requirements, its features, and further lines
    of its table."""

    name: str
    version: str
    needs: List[Need]
    features: Dict[str, List[str]] = field(default_factory=dict)
    more: str = ""


@dataclass
class World:
    """The crates of a registry, the packages at paths by their directories, the members of the
    workspace, which may be a single package, and the patches of crates by their directories."""

    crates: Needs
    locals: Dict[str, Local]
    members: List[str]
    patches: List[str]


class Maker:
    """Makes worlds."""

    def __init__(self, seed: int) -> None:
        self.chance = random.Random(seed)
        self.crates: Needs = {}

    def maybe(self, share: float) -> bool:
        """Returns true with a probability."""
        return self.chance.random() < share

    def requirement_of(self, version: str) -> str:
        """Returns a requirement that a version may be required by."""
        major, minor, _ = version.partition("-")[0].split(".")
        forms = [f"^{version}", version, f"{major}.{minor}", f"~{version}", f"={version}"]
        forms += [f">={version}, <{int(major) + 2}", f">{major}.0.0", f"<={version}"]
        forms += ["*", f"{major}.*"]
        return self.chance.choice(forms)

    def requirement_for(self, name: str) -> str:
        """Returns a requirement that some version of a crate may be required by."""
        return self.requirement_of(self.chance.choice(self.versions_of(name)))

    def versions_of(self, name: str) -> List[str]:
        """Returns the versions of a crate."""
        return [it for known, it in self.crates if known == name]

    @property
    def names(self) -> List[str]:
        """Returns the names of the crates."""
        return list(dict.fromkeys(name for name, _ in self.crates))

    def need(self, name: str, has_optional: bool) -> Need:
        """Returns a requirement of a crate."""
        table, key = self.chance.choice(TABLES), name
        if self.maybe(0.15):
            table = f"target.'{self.chance.choice(TARGETS)}'.{table}"
        if self.maybe(0.15):
            key = f"my-{name}"
        may_lack = "dev-" not in table and has_optional and self.maybe(0.15)
        return Need(table, key, name, self.requirement_for(name), may_lack)

    def needs_of(self, names: List[str], most: int, has_optional: bool) -> List[Need]:
        """Returns the requirements of a crate, each name once."""
        chosen = self.chance.sample(names, min(len(names), self.chance.randint(0, most)))
        return [self.need(name, has_optional) for name in chosen]

    def local(self, name: str, most: int) -> Local:
        """Returns a package at a path, which may have features for its optional requirements."""
        made = Local(name, self.chance.choice(VERSIONS), self.needs_of(self.names, most, True))
        optional = [it.key for it in made.needs if it.is_optional]
        for number, key in enumerate(optional):
            form = self.chance.choice(("dep:{}", "{}", ""))
            if form:
                made.features[f"with-{number}"] = [form.format(key)]
        if made.features and self.maybe(0.4):
            made.features["default"] = [self.chance.choice(list(made.features))]
        return made

    def require_local(self, world: World, own: str, place: str) -> None:
        """Makes a package at a path require another one."""
        local = world.locals[place]
        version = self.requirement_of(local.version) if self.maybe(0.5) else ""
        features = tuple(it for it in local.features if it != "default" and self.maybe(0.4))
        need = Need("dependencies", local.name, local.name, version, False, place, features)
        world.locals[own].needs.append(need)

    def world(self) -> World:
        """Returns a world: crates, each of which requires some of those before it, a workspace with
        two members or a single package, and packages at paths that aren't members."""
        for index, name in enumerate(NAMES[: self.chance.randint(3, len(NAMES))]):
            versions = self.chance.sample(VERSIONS, self.chance.randint(1, 4))
            made = {(name, it): self.needs_of(list(NAMES[:index]), 3, True) for it in versions}
            self.crates.update(made)
        world = World(self.crates, {}, [], [])
        world.members = [""] if self.maybe(0.3) else ["members/app", "members/tool"]
        for place in world.members:
            world.locals[place] = self.local(os.path.basename(place) or "app", 4)
        for place in ("beside/low", "beside/side") if self.maybe(0.6) else ():
            world.locals[place] = self.local(os.path.basename(place), 2)
            asking = [it for it in world.locals if it != place]
            self.require_local(world, self.chance.choice(asking), place)
        if len(world.members) > 1 and self.maybe(0.4):
            self.require_local(world, *world.members)
        if self.maybe(0.3):
            self.add_patch(world)
        return world

    def add_patch(self, world: World) -> None:
        """Adds a patch of a crate."""
        name = self.chance.choice(self.names)
        place = f"patched/{name}"
        world.locals[place] = Local(name, self.chance.choice(VERSIONS), [])
        world.patches.append(place)


# ---- on the disk


def sum_of(crate: Crate) -> str:
    """Returns the checksum of a crate's archive, which is made up."""
    return hashlib.sha256(" ".join(crate).encode()).hexdigest()


def manifest_of(
    name: str, version: str, needs: List[Need], place: str = "", more: str = ""
) -> str:
    """Returns the text of a Cargo.toml in a directory, without its features."""
    tables: Dict[str, List[str]] = {}
    for need in needs:
        tables.setdefault(need.table, []).append(need.line(place))
    head = f'[package]\nname = "{name}"\nversion = "{version}"\nedition = "2021"\n{more}'
    return head + "".join(f"\n[{table}]\n{''.join(lines)}" for table, lines in tables.items())


def text_of(world: World, place: str) -> str:
    """Returns the text of the Cargo.toml of a package at a path."""
    local = world.locals[place]
    text = manifest_of(local.name, local.version, local.needs, place, local.more)
    if local.features:
        lines = (f"{key} = {list(values)}\n" for key, values in local.features.items())
        text += "\n[features]\n" + "".join(lines)
    return text + (patches_of(world) if place == "" else "")


def patches_of(world: World) -> str:
    """Returns the table of patches."""
    lines = [f'{world.locals[it].name} = {{ path = "{it}" }}\n' for it in world.patches]
    return "\n[patch.crates-io]\n" + "".join(lines) if lines else ""


def top_of(world: World) -> Optional[str]:
    """Returns the text of the Cargo.toml of a workspace that isn't a package itself, or None."""
    if "" in world.members:
        return None
    members = ", ".join(f'"{it}"' for it in world.members)
    head = f'[workspace]\nresolver = "2"\nmembers = [{members}]\n'
    return f'{head}exclude = ["beside", "patched", "vendor"]\n{patches_of(world)}'


def texts_of(world: World) -> Dict[str, str]:
    """Returns the texts of all Cargo.toml files by their directories."""
    texts = {place: text_of(world, place) for place in world.locals}
    top = top_of(world)
    return texts if top is None else {"": top, **texts}


def write_package(folder: Path, text: str) -> None:
    """Writes a package without code."""
    (folder / "src").mkdir(parents=True, exist_ok=True)
    (folder / "src" / "lib.rs").touch()
    (folder / "Cargo.toml").write_text(text)


def write_manifests(top: Path, world: World) -> None:
    """Replaces the packages at paths."""
    for name in ("members", "beside", "patched", "src"):
        shutil.rmtree(top / name, ignore_errors=True)
    for place, text in texts_of(world).items():
        write_package(top / place, text)
    if top_of(world) is not None:
        shutil.rmtree(top / "src", ignore_errors=True)


def crate_folder(top: Path, crate: Crate) -> Path:
    """Returns the directory of a crate of the registry."""
    return top / "vendor" / f"{crate[0]}-{crate[1]}"


def write_world(top: Path, world: World) -> None:
    """Writes everything, and makes Cargo use the crates from there."""
    for crate, needs in world.crates.items():
        write_package(crate_folder(top, crate), manifest_of(*crate, needs))
        sums = json.dumps({"files": {}, "package": sum_of(crate)})
        (crate_folder(top, crate) / ".cargo-checksum.json").write_text(sums)
    write_manifests(top, world)
    (top / ".cargo").mkdir(exist_ok=True)
    (top / ".cargo" / "config.toml").write_text(
        '[source.crates-io]\nreplace-with = "made"\n[source.made]\ndirectory = "vendor"\n'
    )


def cargo(folder: Path, *arguments: str) -> Optional[str]:
    """Returns what Cargo prints, without the user's settings, or None if it fails."""
    ended = subprocess.run(
        ["cargo", *arguments, "--offline", "--quiet"], cwd=folder, timeout=WAITING,
        env={**os.environ, "CARGO_HOME": str(folder / "home")},
        capture_output=True, text=True, check=False,
    )  # fmt: skip
    return ended.stdout if ended.returncode == 0 else None


def graph_at(folder: Path) -> Optional[str]:
    """Returns what `cargo metadata --locked` prints, or None if the lock file would have to be
    changed."""
    return cargo(folder, "metadata", "--format-version", "1", "--locked")
