"""A project's settings of yarn 1, in its .yarnrc. It has a key and a value in each line."""

import os
import re
from typing import Optional

from ..files import bytes_of, is_there, taking

FILE = ".yarnrc"

# The setting by which yarn 1 has no workspaces. It is on by default.
WORKSPACES_SETTING = "workspaces-experimental"

LINE = re.compile(r'"?([^\s"]+)"?:?\s+"?([^\s"]*)"?\s*')


def is_off(directory: Optional[str], name: str) -> bool:
    """Returns whether the .yarnrc in a directory turns off a setting. The last value counts."""
    if directory is None:
        return False
    path = os.path.join(directory, FILE)
    with taking(path, FILE):
        text = bytes_of(path).decode("utf-8", "replace") if is_there(path) else ""
    lines = map(LINE.fullmatch, text.splitlines())
    values = [it.group(2) for it in lines if it is not None and it.group(1) == name]
    return values[-1:] == ["false"]
