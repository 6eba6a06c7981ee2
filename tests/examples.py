#!/usr/bin/env python3
"""Checks that each public item of the Rust crate has an example: each page of `cargo doc` is an
item and has a block of Rust in its own text, and so does each of its methods that isn't of a trait.
`cargo test --doc` runs the blocks.

tests/examples.py          makes the pages.
tests/examples.py PAGES    checks the pages in a directory, such as target/doc/semver_parser.
"""
import pathlib
import re
import subprocess
import sys
import tempfile

TOP = pathlib.Path(__file__).resolve().parent.parent

METHOD = re.compile(r'<section id="method\.(\w+)[-\d]*" class="method">')
EXAMPLE = '<div class="example-wrap"><pre class="rust rust-example-rendered">'


def up_to_end(text):
    return text.partition('</details>')[0]


def items(pages):
    """Yields the name of each public item, and its text."""
    for path in sorted(pages.rglob('*.*.html')):
        *modules, file = path.relative_to(pages).parts
        page = path.read_text()
        if 'http-equiv="refresh"' in page:
            continue
        name = '::'.join([*modules, file.split('.')[1]])
        yield name, up_to_end(page.partition('<details class="toggle top-doc"')[2])
        its_own = page.partition('<h2 id="implementations"')[2].partition('<h2 id="')[0]
        _, *parts = METHOD.split(its_own)
        for method, text in zip(parts[::2], parts[1::2]):
            yield f'{name}::{method}', up_to_end(text)


with tempfile.TemporaryDirectory() as made:
    pages = pathlib.Path(*sys.argv[1:] or [made, 'doc', 'semver_parser'])
    if not sys.argv[1:]:
        subprocess.run(['cargo', 'doc', '--quiet', '--offline', '--no-deps', '--target-dir', made],
                       cwd=TOP, check=True)
    found = dict(items(pages))

lacking = [name for name, text in found.items() if EXAMPLE not in text]
if lacking or not found:
    print('examples: there is none at', ', '.join(lacking) or pages)
    sys.exit(1)
print(f'examples: {len(found)} public items, each has one')
