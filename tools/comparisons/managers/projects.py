"""Writes projects of npm and yarn to disk, and returns the environment for their tools."""

import json
import os
from pathlib import Path
from typing import Dict

from worlds import World


def environment(top: Path) -> Dict[str, str]:
    """Returns the environment for a tool, without anything of the user. It fetches only once: the
    registry always replies, and other URLs never do."""
    own = {"npm_config_cache": str(top / "cache"), "npm_config_userconfig": os.devnull}
    own["npm_config_fetch_retries"] = "0"
    path = {"PATH": os.environ["PATH"], "NODE_PATH": "/usr/share/nodejs"}
    return {**path, "HOME": str(top), **own}


def write_project(folder: Path, world: World) -> None:
    """Writes the package.json files of a project."""
    for place, manifest in world.manifests.items():
        (folder / place).mkdir(parents=True, exist_ok=True)
        (folder / place / "package.json").write_text(json.dumps(manifest))
