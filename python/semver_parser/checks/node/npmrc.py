"""A project's settings of npm, in its .npmrc."""

import os
import re
from typing import Optional

from ..files import bytes_of, taking

LINE_ENDS = re.compile("[\r\n]+")
COMMENT = re.compile("[;#].*")
LEGACY_PEERS = "legacy-peer-deps"
STRICT_PEERS = "strict-peer-deps"
OFF = ("false", "null", "0")


def is_set(project: Optional[str], name: str) -> bool:
    """Returns whether the .npmrc in a project's directory turns on a setting."""
    path = os.path.join(project or "", ".npmrc")
    if project is None or not os.path.exists(path):
        return False
    with taking(path, ".npmrc"):
        return is_on(bytes_of(path).decode("utf-8", "replace"), name)


def is_on(settings: str, name: str) -> bool:
    """Returns whether a setting is on. Its last value counts. After the head of a section there are
    no settings of npm."""
    found = False
    for line in LINE_ENDS.split(settings):
        if line.startswith("["):
            break
        key, _, value = COMMENT.sub("", line).partition("=")
        if unquoted(key) == name:
            found = unquoted(value) not in OFF
    return found


def unquoted(text: str) -> str:
    """Returns a key or a value without blanks and quotes around it."""
    return text.strip().strip("\"'")
