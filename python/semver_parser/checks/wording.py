"""How names, versions and ranges are written in a sentence, so that it is clear where each ends."""

import json
import re
from typing import Callable

from .program import escaped, visible

__all__ = ["PACKAGE", "RANGE", "VERSION", "Paint", "escaped", "plain", "quoted", "visible"]

Paint = Callable[[str, str], str]
"""Returns a text in the style of a part of a sentence."""

PACKAGE, VERSION, RANGE = "package", "version", "range"
"""The parts of a sentence that have their own style."""

MISLEADING = re.compile(r'\A\Z|[\s",]')


def quoted(text: str) -> str:
    """Returns a text in quotes if it is empty or has blanks, commas or quotes."""
    if MISLEADING.search(text):
        return visible(json.dumps(text, ensure_ascii=False))
    return escaped(text)


def plain(text: str, part: str) -> str:
    """Returns a part of a sentence without a look."""
    return text
