"""JSON with comments and trailing commas, which Bun and Deno use."""

import re

from ..files import Entry, json_object

# A string or a comment; and a string, or a comma before the end of a list or an object.
COMMENT = re.compile(rb'"(?:[^"\\]|\\.)*"|//[^\n]*|/\*.*?\*/', re.S)
LAST_COMMA = re.compile(rb'"(?:[^"\\]|\\.)*"|,(?=\s*[\]}])', re.S)


def plain_json(text: bytes) -> bytes:
    """Returns a text as plain JSON. All offsets stay the same."""
    bare = COMMENT.sub(lambda it: kept(it.group()), text)
    return LAST_COMMA.sub(lambda it: b" " if it.group() == b"," else it.group(), bare)


def kept(part: bytes) -> bytes:
    """Returns a string as it is. A comment becomes blanks, and keeps its line ends."""
    return part if part.startswith(b'"') else re.sub(rb"[^\n]", b" ", part)


def object_with_comments(text: bytes) -> Entry:
    """Returns the object in a text of JSON with comments."""
    return json_object(plain_json(text))
