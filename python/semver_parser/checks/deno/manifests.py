"""The deno.json and package.json files of a project and its members, for which a `deno.lock` was
written. `deno install --frozen` rejects it if they list something else."""

import os
from typing import Iterator, List, NamedTuple, Optional, Set, Tuple

from ..files import Entry, bytes_of, is_there, list_at, object_at, taking, text_at
from ..findings import Finding, NotRequired, Stale
from ..model import FOR_DEVELOPMENT, PROJECT, USUAL, Keys, Requirement, Requirer
from ..node.json_with_comments import object_with_comments
from ..node.package_json import MANIFEST, manifest_in
from ..node.specifiers import name_and_rest
from ..node.workspaces import directories_of, patterns_in

CONFIGS = ("deno.json", "deno.jsonc")
KEY = "dependencies"
REGISTRIES = ("npm:", "jsr:")


class Member(NamedTuple):
    """The project or a member: its directory, which is empty for the project; the name of its
    deno.json, the specifiers that this lists, and the members that it has; and its package.json.
    What isn't there is None."""

    folder: str
    config_name: str
    config: Optional[Set[str]]
    members: List[str]
    manifest: Optional[Entry]


def member_at(top: str, folder: str) -> Member:
    """Returns the member in a directory."""
    at = os.path.join(top, folder)
    manifest = manifest_in(at)
    with taking(os.path.join(at, MANIFEST), MANIFEST):
        members = patterns_in((manifest or {}).get("workspaces") or [], "packages")
    for name in CONFIGS:
        path = os.path.join(at, name)
        with taking(path, name):
            if is_there(path):
                config = object_with_comments(bytes_of(path))
                members += patterns_in(config.get("workspace") or [], "members", "members")
                return Member(folder, name, set(specifiers_of_config(config)), members, manifest)
    return Member(folder, CONFIGS[0], None, members, manifest)


def members_of(top: Optional[str]) -> List[Member]:
    """Returns the project and its members, if the project is there."""
    if top is None:
        return []
    project = member_at(top, "")
    if project.config is None and project.manifest is None:
        return []
    members = (member_at(top, it) for it in directories_of(project.members, top))
    return [project, *(it for it in members if it.config is not None or it.manifest is not None)]


# ---- what they list, in the form of the lock file


def specifier_of(text: str) -> Optional[str]:
    """Returns the specifier to which a deno.json maps a name, without a path inside the package."""
    if text[:4] not in REGISTRIES:
        return None
    name, rest = name_and_rest(text[4:].lstrip("/"))
    parts = name.split("/")
    bare = "/".join(parts[: 2 if name.startswith("@") else 1])
    return f"{text[:4]}{bare}@{rest.partition('/')[0] or '*'}"


def specifiers_of_config(config: Entry) -> Iterator[str]:
    """Yields the specifiers in the import map of a deno.json."""
    scopes = object_at(config.get("scopes") or {}, "scopes")
    for table in (config.get("imports") or {}, *scopes.values()):
        for text in object_at(table, "imports").values():
            found = specifier_of(text) if isinstance(text, str) else None
            if found is not None:
                yield found


def specifiers_of_manifest(manifest: Entry) -> Iterator[str]:
    """Yields the specifiers for the ranges and tags in a package.json."""
    for kind in (USUAL, FOR_DEVELOPMENT):
        for name, spec in (manifest.get(kind) or {}).items():
            if spec[:4] in REGISTRIES:
                found = specifier_of(spec)
                yield from () if found is None else [found]
            elif ":" not in spec and "/" not in spec:
                yield f"npm:{name}@{spec or '*'}"


# ---- findings


def listed_in(entry: Entry) -> Set[str]:
    """Returns the specifiers that the lock file has of a deno.json or a package.json."""
    return {text_at(it, KEY) for it in list_at(entry.get(KEY, []), KEY)}


def parts_of(specifier: str) -> Tuple[str, str]:
    """Returns the registry and the name of a specifier, and its range."""
    name, wanted = name_and_rest(specifier[4:])
    return specifier[:4] + name, wanted


def different_lists(
    own: Set[str], locked: Set[str], requirer: Requirer, file: str
) -> Iterator[Finding]:
    """Yields the findings about specifiers that only one of two lists has."""
    gone = dict(map(parts_of, sorted(locked - own)))
    for name, wanted in map(parts_of, sorted(own - locked)):
        yield Stale(Requirement(requirer, name[4:], wanted), wanted, gone.pop(name, ""), file)
    for name in gone:
        yield NotRequired(Requirement(requirer, name[4:], ""))


def stale_lists(lock: Entry, top: Optional[str]) -> Iterator[Finding]:
    """Yields the findings about manifests that list something else than the lock file."""
    workspace = object_at(lock.get("workspace", {}), "workspace")
    members = object_at(workspace.get("members", {}), "workspace: members")
    for it in members_of(top):
        locked = object_at(members.get(it.folder, {}) if it.folder else workspace, "workspace")
        at: Keys = ("workspace", "members", it.folder) if it.folder in members else ("workspace",)
        requirer = Requirer(it.folder or PROJECT, "", it.folder, at)
        own = it.config or set()
        yield from different_lists(own, listed_in(locked), requirer, it.config_name)
        inner = object_at(locked.get("packageJson", {}), "packageJson")
        required = set(specifiers_of_manifest(it.manifest or {}))
        yield from different_lists(required, listed_in(inner), requirer, MANIFEST)
