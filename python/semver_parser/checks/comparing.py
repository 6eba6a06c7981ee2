"""What `compare-requirements` does: it prints what changed requirements lose and gain."""

import json
from typing import Iterator, List, Optional, Tuple

from .files import Refusal
from .program import Misuse, Options, Outcome, escaped, one_of, visible
from .requirements.changes import FIELDS, SAME, WHOLE, Change, changes
from .requirements.sources import pairs_of

NAME = "compare-requirements"

ANY = "any"
"""The value of `--fail-on` that names all changes."""


def shown(text: Optional[str]) -> str:
    """Returns a requirement as it is printed. An empty one is in quotes."""
    return text or '""'


def lines_of(it: Change) -> Iterator[str]:
    """Yields the lines of a change."""
    table = it.table if it.new_table is None else f"{it.table} -> {it.new_table}"
    if it.old is None or it.new is None:
        yield f"{it.name} ({table}): {it.note} {shown(it.new if it.old is None else it.old)}"
        return
    note = f": {it.note}" if it.note else ""
    yield f"{it.name} ({table}): {shown(it.old)} -> {shown(it.new)}{note}"
    for field in WHOLE:
        versions = getattr(it, field)
        if versions is not None and it.note != SAME:
            yield f"  {field.replace('_pre_', ' pre-')}: {versions}"


def failing(options: Options) -> str:
    """Returns which changes make the status 1."""
    what = options.given.get("--fail-on", ANY)
    values = (*FIELDS, ANY)
    if what not in values:
        raise Misuse(f'--fail-on: "{what}" isn\'t {one_of(values)}')
    return what


def fails(it: Change, what: str) -> bool:
    """Returns whether a change makes the status 1."""
    if what == ANY:
        return it.differs
    return any(getattr(it, field) is not None for field in FIELDS[what])


def compare(options: Options) -> Outcome:
    """Returns the lines about what changed."""
    what = failing(options)
    refusals: List[Refusal] = []
    found: List[Tuple[Optional[str], Change]] = [
        (pair.file, it)
        for pair in pairs_of(options, refusals.append)
        for it in changes(pair.old, pair.new, pair.dialect)
    ]
    if "--json" in options.given:
        objects = [{"file": file, **it._asdict()} for file, it in found]
        whole = json.dumps(objects, indent=2, ensure_ascii=False)
        lines = [visible(line) for line in whole.split("\n")]
    else:
        lines = [
            escaped(line if file is None else f"{file}: {line}")
            for file, it in found
            for line in lines_of(it)
        ]
    notes = [f"{NAME}: {escaped(str(it))}" for it in refusals]
    return Outcome(lines, notes, 2 if refusals else int(any(fails(it, what) for _, it in found)))
