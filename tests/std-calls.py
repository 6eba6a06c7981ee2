#!/usr/bin/env python3
"""Compares the calls of std in rust/src/proved with the table in docs/ERASURE.md, which says what
Rust requires of each. Each call has a row, and each row has a call: one of `KNOWN` in
tests/erased_types.py, which compares that list with the calls by their types, or a macro that
tools/erase.py writes. Then it drops a row and adds one, and fails if that isn't noticed."""
import os
import re
import sys

sys.dont_write_bytecode = True
TOP = os.path.dirname(os.path.dirname(os.path.realpath(__file__)))
sys.path.insert(0, f'{TOP}/tools')
from erase_stops import MACROS, PREFIX, SAME_MACROS  # noqa: E402
from erased_types import KNOWN, UNWRITTEN  # noqa: E402

BEGIN, END = '<!-- std -->\n', '\n<!-- end of std -->'
# `map` and `eprintln` are called by macros of rattle_std, and `write_fmt` by `write!`.
OF_MACROS = {'eprintln', 'map', 'write_fmt'}


def rows(page):
    """Returns the names in the first column of the table, without types and modules."""
    table = page[page.index(BEGIN) + len(BEGIN):page.index(END)].split('\n')[2:]
    return [name for row in table
            for name in re.findall(r'`(?:\w+::)*([^`]+)`', row.split(' | ')[0])]


def called():
    """Returns the names of what is called, without what the compiler calls for signs. `{:?}` is a
    call, too."""
    macros = {f'{name}!' for name in SAME_MACROS} | {f'{PREFIX}{name}!' for name in MACROS}
    typed = {name.split('::')[0] for kind, names in KNOWN.items()
             if kind.split(' as ')[-1] not in UNWRITTEN for name in names.split()}
    return macros | {'{:?}'} | typed - OF_MACROS


def differences(page):
    """Yields what one of the table and the calls has and the other one doesn't."""
    named, known = rows(page), called()
    yield from (f'{name} has two rows' for name in sorted(named) if named.count(name) > 1)
    yield from (f'{name} is called and has no row' for name in sorted(known - set(named)))
    yield from (f'{name} has a row and is not called' for name in sorted(set(named) - known))


def unnoticed(page):
    """Yields which of these isn't noticed: a row that is dropped, and one that is added."""
    name, begin = rows(page)[0], page.index(BEGIN)
    dropped = page[:begin] + page[begin:].replace(f'{name}`', '`', 1)
    changes = [(dropped, f'{name} is called and has no row'),
               (page.replace(END, '\n| `leak` | nothing | |' + END),
                'leak has a row and is not called')]
    for changed, wanted in changes:
        if wanted not in differences(changed):
            yield f'not noticed: {wanted}'


def main():
    with open(f'{TOP}/docs/ERASURE.md', encoding='utf-8') as file:
        page = file.read()
    found = [*differences(page)] or [*unnoticed(page)]
    for line in found:
        print(f'docs/ERASURE.md: {line}')
    if found:
        sys.exit('calls of std: failed')
    print(f'calls of std: {len(rows(page))}, each with its row')


if __name__ == '__main__':
    main()
