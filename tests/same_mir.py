#!/usr/bin/env python3
"""Compares what rustc makes of each function in two builds: tests/same_mir.py [--part] ONE OTHER..
ONE is the file .mir of a crate, and OTHER are those of the other build. rustc writes them with
`--emit=mir -Ztrim-diagnostic-paths=no`. In them the type of each value is written out, and which
method each call means: `Version::cmp` is a method of the type, `<Version as Ord>::cmp` one of a
trait. It lists the functions that differ, and exits with 1 if there are any. With `--part`, ONE may
lack functions of the other build.

The names of modules and crates, positions in files and the numbers of constants in memory differ
in any case, so they are left out."""
import re
import sys
from collections import Counter
from pathlib import Path

# Where an item begins that is compared: a function or a constant.
ITEM = re.compile(r'\n(?=(?:fn|const|static) )')
LEFT_OUT = [
    (r'//[^\n]*', ''),  # comments
    (r'\nalloc\d+ \((?s:.*)', ''),  # the constants in memory that follow an item
    (r'\balloc\d+', 'alloc'),
    (r'[\w/.-]+\.rs:\d+:\d+: \d+:\d+(?: \(#\d+\))?', ''),
    (r'\b(?:[a-z_]\w*::)+', ''),
    (r'\s+', ' '),
]


def items(paths):
    """Returns how often each item is in some files."""
    found = Counter()
    for path in paths:
        for item in ITEM.split('\n' + Path(path).read_text(encoding='utf-8'))[1:]:
            for pattern, instead in LEFT_OUT:
                item = re.sub(pattern, instead, item)
            # ROOT is the directory of the package.
            if not item.startswith('const ROOT: '):
                found[item.strip()] += 1
    return found


def main():
    is_part = sys.argv[1] == '--part'
    one, *other = sys.argv[1 + is_part:]
    one, other = items([one]), items(other)
    functions = sum(count for item, count in one.items() if item.startswith('fn '))
    if not functions:
        sys.exit('tests/same_mir.py: there are no functions')
    differing = [('the first', one - other), ('the other', Counter() if is_part else other - one)]
    for build, found in differing:
        for item in sorted(found)[:10]:
            print(f'only in {build} build: {item.split(" {")[0][:200]}')
    if any(found for _, found in differing):
        sys.exit(1)
    print(f'{functions} functions are the same in both builds')


if __name__ == '__main__':
    main()
