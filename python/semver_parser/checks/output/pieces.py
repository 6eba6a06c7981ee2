"""JSON that is written piece by piece, since it may have many findings."""

import json
from typing import Any, Dict, Iterable, Iterator, List, Tuple

from ..program import visible

Object = Dict[str, Any]

ENCODER = json.JSONEncoder(ensure_ascii=False)


def encoded(value: Any) -> str:
    """Returns a value on one line, in which control characters are JSON escapes."""
    return visible(ENCODER.encode(value))


def lines_of(value: Any) -> List[str]:
    """Returns the lines of a value, as `json.dumps` indents them. With an indent, each call of that
    leaves cycles of references, which stay, since the programs run without garbage collection."""
    if value and isinstance(value, dict):
        return ["{", *inside((f"{encoded(key)}: ", it) for key, it in value.items()), "}"]
    if value and isinstance(value, list):
        return ["[", *inside(("", it) for it in value), "]"]
    return [encoded(value)]


def inside(items: Iterable[Tuple[str, Any]]) -> List[str]:
    """Returns the lines inside of an object or a list: its values, each with what is before it."""
    lines: List[str] = []
    for before, value in items:
        first, *rest = lines_of(value)
        lines += [f"  {before}{first}", *(f"  {line}" for line in rest)]
        lines[-1] += ","
    lines[-1] = lines[-1][:-1]
    return lines


def filled(value: Object, name: str, items: Iterable[Iterable[str]]) -> Iterator[str]:
    """Yields the lines of an object. Its first list of a name is empty, and is filled with items, of
    which only one is kept at a time."""
    lines = lines_of(value)
    number = [it.strip().rstrip(",") for it in lines].index(f'"{name}": []')
    head, _, tail = lines[number].rpartition("[]")
    indent = head[: -len(head.lstrip())]
    yield from lines[:number]
    last, is_empty = f"{head}[", True
    for item in items:
        comma = "" if is_empty else ","
        for line in item:
            yield last + comma
            last, comma = f"{indent}  {line}", ""
        is_empty = False
    yield lines[number] if is_empty else last
    yield from [] if is_empty else [f"{indent}]{tail}"]
    yield from lines[number + 1 :]
