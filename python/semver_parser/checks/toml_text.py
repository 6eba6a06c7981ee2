"""A text of TOML 1.1, which Cargo reads, in the words of TOML 1.0, which Python reads.

TOML 1.1 has line breaks, comments and a comma at the end in inline tables, `\\e` and `\\xHH` in
strings, and times without seconds. What follows keeps its line: the line breaks of an inline table
come after it.
"""

import re
from typing import List

# A string, a comment, a line break, a mark, blanks, or a word.
TOKEN = re.compile(
    r'"""(?:[^"\\]|\\.|"(?!""))*"{3,5}|"(?:[^"\\\n]|\\.)*"'
    r"|'''(?:[^']|'(?!''))*'{3,5}|'[^'\n]*'"
    r"|\#[^\n]*|\r?\n|[\[\]{},=]|[ \t]+|[^\s\[\]{},=\"'#]+|.",
    re.S,
)
ESCAPE = re.compile(r"\\(?:(e)|x([0-9A-Fa-f]{2})|.)", re.S)
MINUTES = re.compile(r"((?:\A|[0-9][Tt])[0-9]{2}:[0-9]{2})(?=\Z|[Zz+-])")

# What was before in an array, or outside of arrays and tables, and in an inline table: nothing, a
# key, `=`, a value, or a comma.
ARRAY, OPENED, KEY, EQUALS, VALUE, COMMA = "[", "{", "key", "=", "value", ","


def toml_1_0(text: str) -> str:
    """Returns the text in the words of TOML 1.0. What is neither stays as it is, for the reader to
    refuse."""
    made: List[str] = []
    states = [ARRAY]
    breaks, comma = 0, 0
    for token in TOKEN.findall(text):
        state = states[-1]
        if token.isspace() or token.startswith("#"):
            is_break = "\n" in token
            if state in (OPENED, VALUE, COMMA) and (is_break or token.startswith("#")):
                # A tabulator is in no value.
                token, breaks = "\t" * is_break, breaks + is_break
            elif state == ARRAY and is_break:
                token, breaks = token + "\n" * breaks, 0
            made.append(token)
            continue
        if token in ("]", "}"):
            if state == COMMA:
                made[comma] = ""
            states.pop()
            states = states or [ARRAY]
        elif state != ARRAY:
            states[-1] = after(state, token)
            comma = len(made)
        if token in (ARRAY, OPENED):
            states.append(token)
        made.append(in_words(token))
    return "".join(made)


def after(state: str, token: str) -> str:
    """Returns what is before the next token of an inline table."""
    if token == ",":
        return COMMA if state == VALUE else KEY
    if token == "=":
        return EQUALS
    return VALUE if state in (EQUALS, VALUE) else KEY


def in_words(token: str) -> str:
    """Returns a token in the words of TOML 1.0."""
    if token.startswith('"'):
        return ESCAPE.sub(unescaped, token)
    if ":" in token and not token.startswith("'"):
        return MINUTES.sub(r"\1:00", token)
    return token


def unescaped(found: "re.Match[str]") -> str:
    """Returns what an escape of TOML 1.1 is in TOML 1.0; any other is its own."""
    if found.group(1):
        return "\\u001B"
    return f"\\u00{found.group(2)}" if found.group(2) else found.group()
