#!/usr/bin/env python3
"""Checks the pages that cargo generates from the Rust crate's documentation:

- Each link between them leads to a page and a heading that exist.
- No page names a file that the package doesn't have.
- The first page links to the standards and to the original crate.
- A method of the original comes before its form that begins with try_.

tests/doc-links.py PAGES    checks the pages in a directory, such as target/doc/semver_parser.
"""
import html
import pathlib
import re
import sys

FILES = re.compile(r'\b(?:crates|docs|js|python|rust|specs|tests|tools)/[\w*.]|\b\w+\.(?:antt|md|rt|sh|svg)\b')

LINKS = (
    'https://semver.org/spec/v2.0.0.html', 'https://doc.rust-lang.org/cargo/reference/specifying-dependencies.html',
    'https://github.com/npm/node-semver', 'https://docs.rs/semver-parser/0.10.3',
)


def errors(top):
    pages = {path: path.read_text(encoding='utf-8') for path in sorted(top.rglob('*.html'))}
    shown = {path: page for path, page in pages.items() if 'http-equiv="refresh"' not in page}
    if not shown:
        yield f'{top} has no page'
        return
    for path, page in shown.items():
        name = path.relative_to(top)
        for target in re.findall(r'\bhref="([^"]+)"', page.partition('<main>')[2]):
            file, _, anchor = html.unescape(target).partition('#')
            if re.match(r'[a-z]+:', file):
                continue
            found = (path.parent / file).resolve() if file else path
            if top not in found.parents:
                continue
            if found not in pages:
                yield f'{name}: {target} leads nowhere'
            elif anchor and not re.fullmatch(r'[\d-]+', anchor) and f'id="{anchor}"' not in html.unescape(pages[found]):
                yield f'{name}: {target} leads to no heading'
        own = re.sub(r'<(dl|ul) class="item-table.*?</\1>', '', page.partition('<main>')[2], flags=re.S)
        named = FILES.search(html.unescape(re.sub('<[^>]*>', '', own)))
        if named:
            yield f'{name} names a file that the package lacks: {named[0]}'
        methods = re.findall(r'<section id="method\.(\w+)" class="method">', page)
        for method in methods:
            if method.startswith('try_') and method[4:] in methods and methods.index(method) < methods.index(method[4:]):
                yield f'{name}: {method} comes before {method[4:]}'
    for link in LINKS:
        if f'href="{link}"' not in pages[top / 'index.html']:
            yield f'index.html has no link to {link}'


found = list(errors(pathlib.Path(sys.argv[1]).resolve()))
for error in found:
    print(f'documentation: {error}')
print(f'documentation: {"failed" if found else "links, files and order, passed"}')
sys.exit(1 if found else 0)
