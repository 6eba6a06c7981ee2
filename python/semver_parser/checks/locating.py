"""Finds the lines on which entries of a file begin, by one scan of its bytes.

Nothing here rejects a file: an entry that isn't found has no line. So locating can't change a
verdict.
"""

import json
import os
import re
from typing import Dict, Iterator, List, Pattern, Set, Tuple

from .files import Refusal, Unreadable, bytes_of, taking
from .model import Keys
from .tool import Offsets

# What follows a key in JSON, and a key whose value is an object.
AFTER_KEY = re.compile(rb'"\s*:')
AFTER_KEY_OF_OBJECT = re.compile(rb'"\s*:\s*\{')

# In an object in JSON, what is before the next key or the end; and what is between a key and its
# value.
NEXT = re.compile(r'\s*,?\s*(["}])')
COLON = re.compile(r"\s*:\s*")

# A key in YAML as pnpm writes it, at the beginning of a line and inside of others.
KEY_OF_YAML = rb"""('(?:[^'\n]|'')*'|"(?:[^"\\\n]|\\.)*"|[^\s#'"][^\n]*?):(?=[ \r\n]|\Z)"""
TOP_OF_YAML = re.compile(rb"^" + KEY_OF_YAML, re.M)
INDENT = 2

# A header of a table in TOML, and a key at the beginning of a line.
HEAD = re.compile(r"\[\s*([^\[\]]+?)\s*\]")
KEY = re.compile(r"""(["']?)([A-Za-z0-9_-]+)\1\s*[.=]""")
DEPENDENCIES = re.compile(r"(?:.*\.)?(?:dev-|build-)?dependencies")


def lines_at(text: bytes, found: Offsets, wanted: Set[Keys]) -> Dict[Keys, int]:
    """Returns the lines of the entries that are wanted. An entry that is found twice has none,
    since it isn't known which is meant."""
    offsets: Dict[Keys, int] = {}
    try:
        for keys, offset in found:
            if keys in wanted:
                offsets[keys] = -1 if keys in offsets else offset
    except (Unreadable, ValueError, RecursionError):
        return {}
    return with_lines(text, {keys: at for keys, at in offsets.items() if at >= 0})


def with_lines(text: bytes, offsets: Dict[Keys, int]) -> Dict[Keys, int]:
    """Returns the lines of offsets, from 1."""
    lines: Dict[Keys, int] = {}
    line, last = 1, 0
    for keys, offset in sorted(offsets.items(), key=lambda it: it[1]):
        line += text.count(b"\n", last, offset)
        lines[keys], last = line, offset
    return lines


# ---- JSON


def json_offsets(
    text: bytes, wanted: Set[Keys], after: "Pattern[bytes]" = AFTER_KEY
) -> Offsets:
    """Yields the entries that are wanted: by their last keys, if no other entry has the same one,
    and else by the whole path to them."""
    by_last: Dict[bytes, List[Keys]] = {}
    for keys in wanted:
        by_last.setdefault(as_written(keys[-1]), []).append(keys)
    found: Dict[bytes, List[int]] = {key: [] for key in by_last}
    for match in after.finditer(text):
        start = text.rfind(b'"', 0, match.start()) + 1
        offsets = found.get(text[start : match.start()])
        if offsets is not None:
            offsets.append(start)
    unsure: Set[Keys] = set()
    for key, several in by_last.items():
        if len(several) == len(found[key]) == 1:
            yield several[0], found[key][0]
        else:
            unsure.update(several)
    yield from by_whole_path(text, unsure) if unsure else ()


def as_written(key: str) -> bytes:
    """Returns a key as JSON has it if it needs no escape."""
    return json.dumps(key, ensure_ascii=False)[1:-1].encode("utf-8", "replace")


def by_whole_path(text: bytes, wanted: Set[Keys]) -> Offsets:
    """Yields the keys of the objects that lead to what is wanted, each with its offset."""
    whole = text.decode("utf-8", "surrogateescape")
    on_the_way = {keys[:count] for keys in wanted for count in range(len(keys))}
    decoder = json.JSONDecoder()
    path: List[str] = []
    at = whole.find("{") + 1
    counted, offset = 0, 0
    while True:
        found = NEXT.match(whole, at)
        if found is None or (found.group(1) == "}" and not path):
            return
        at = found.end(1)
        if found.group(1) == "}":
            path.pop()
            continue
        key, end = decoder.raw_decode(whole, at - 1)
        keys = (*path, key)
        if keys in wanted:
            offset += len(whole[counted:at].encode("utf-8", "surrogateescape"))
            counted = at
            yield keys, offset
        colon = COLON.match(whole, end)
        if colon is None:
            return
        at = colon.end()
        if keys in on_the_way and whole[at : at + 1] == "{":
            path.append(key)
            at += 1
        else:
            _, at = decoder.raw_decode(whole, at)


# ---- YAML


def yaml_offsets(text: bytes, wanted: Set[Keys]) -> Offsets:
    """Yields the keys of the parts that have what is wanted, no deeper than that."""
    deepest: Dict[str, int] = {}
    for keys in wanted:
        deepest[keys[0]] = max(len(keys), deepest.get(keys[0], 0))
    tops = list(TOP_OF_YAML.finditer(text))
    ends = [*(it.start() for it in tops[1:]), len(text)]
    for top, end in zip(tops, ends):
        name = key_of_yaml(top.group(1))
        if name in deepest:
            yield (name,), top.start()
            if deepest[name] > 1:
                yield from inside_yaml(text, top.end(), end, name, deepest[name])


def inside_yaml(text: bytes, start: int, end: int, name: str, deepest: int) -> Offsets:
    """Yields the keys of one part, no deeper than a number of keys leads to."""
    below = b"^( {1,%d})(?! )" % (INDENT * (deepest - 1))
    left = [(0, name)]
    for found in re.compile(below + KEY_OF_YAML, re.M).finditer(text, start, end):
        indent = len(found.group(1))
        while left[-1][0] >= indent:
            left.pop()
        left.append((indent, key_of_yaml(found.group(2))))
        yield tuple(key for _, key in left), found.start(2)


def key_of_yaml(key: bytes) -> str:
    """Returns a key without its quotes."""
    text = key.decode("utf-8", "replace")
    if text.startswith("'"):
        return text[1:-1].replace("''", "'")
    return text[1:-1] if text.startswith('"') else text


# ---- TOML


def toml_lines(text: str) -> Iterator[Tuple[str, str, str]]:
    """Yields the lines, each with its table and its key. The head of a table and what is on several
    lines have no key."""
    table = ""
    for line in text.split("\n"):
        head, key = HEAD.match(line.strip()), KEY.match(line.strip())
        if head is not None and not line.strip().startswith("[["):
            table = head.group(1)
        yield table, "" if key is None or head is not None else key.group(2), line


def toml_offsets(text: bytes, wanted: Set[Keys], is_table: "Pattern[str]") -> Offsets:
    """Yields the keys of some tables, and the tables inside of these, by their names. Of one name
    the first counts."""
    seen: Set[Keys] = set()
    offset = 0
    for table, key, line in toml_lines(text.decode("utf-8", "surrogateescape")):
        outer, _, last = table.rpartition(".")
        found: Keys = ()
        if key and is_table.fullmatch(table):
            found = (key,)
        elif not key and is_table.fullmatch(outer):
            found = (last.strip("\"'"),)
        if found and found not in seen:
            seen.add(found)
            yield found, offset
        offset += len(line.encode("utf-8", "surrogateescape")) + 1


# ---- manifests


def text_at_path(path: str) -> bytes:
    """Returns what a manifest has, which the check has read; nothing if it can't be read now."""
    try:
        with taking(path, "manifest"):
            return bytes_of(path) if os.path.isfile(path) else b""
    except (Refusal, ValueError):
        return b""


def statement_offsets(path: str, text: bytes, wanted: Set[Keys]) -> Offsets:
    """Yields where a manifest has keys."""
    if path.endswith(".toml"):
        return toml_offsets(text, wanted, DEPENDENCIES)
    return yaml_offsets(text, wanted) if path.endswith(".yaml") else json_offsets(text, wanted)


def statement_lines(path: str, wanted: Set[Keys]) -> Dict[Keys, int]:
    """Returns the lines of a manifest that have keys."""
    text = text_at_path(path)
    return lines_at(text, statement_offsets(path, text, wanted), wanted)
