#!/usr/bin/env python3
"""Checks that the manuals of the C library and its header agree.

- Each type of the header is in the section Name of exactly one page of docs/manual. That page has
  all sections, takes the declarations and constants of its types from the header, and has a program
  with its output.
- semver_parser.3.md lists each type and each function once.
- tools/make-manuals.py makes a page for each of them, and for each page that another one names.

Prints what differs, and exits with 1 if anything does.

    tests/c-manuals.py                checks all this
    tests/c-manuals.py --examples TO  writes each program to TO/PAGE.c, and its output to
                                      TO/PAGE.wanted
    tests/c-manuals.py --must-fail    checks that an error of each kind is found
"""
import os
import re
import subprocess
import sys
import tempfile

TOP = os.path.dirname(os.path.dirname(os.path.abspath(__file__)))
OVERVIEW = 'semver_parser'
HEADER = 'rust/capi/include/semver_parser.h'
SECTIONS = [
    'Name', 'Library', 'Synopsis', 'Description', 'Return value', 'Errors', 'Examples', 'See also']


def read(path):
    with open(os.path.join(TOP, path), encoding='utf-8') as file:
        return file.read()


def by_hand():
    """Returns the pages that are written by hand, by name."""
    files = os.listdir(os.path.join(TOP, 'docs/manual'))
    names = sorted(name[:-5] for name in files if name.startswith('semver_parser'))
    return {name: read(f'docs/manual/{name}.3.md') for name in names}


def types_of(header):
    """Returns the types of the header, each with whether it has constants."""
    enumerations = re.findall(r'^typedef int32_t (\w+);\nenum \{', header, re.M)
    names = re.findall(r'^(?:\} |typedef .* )(semver_parser_\w+);$', header, re.M)
    return {name: name in enumerations for name in names}


def functions_of(header):
    return re.findall(r'^(?:static inline )?(?:const )?\w+ \*?(semver_parser_\w+)\(', header, re.M)


def names_of(page):
    """Returns the names in the section Name."""
    found = re.search(r'^## Name\n\n(.*?) - ', page, re.M | re.S)
    return re.split(r',\s*', found[1]) if found else []


def named_in(page):
    """Returns the pages of section 3 that a page names."""
    return re.findall(r'(?:\\fB|`|\[)(\w+)(?:\\fR|`)?\(3\)', page)


def examples_of(page):
    """Returns the blocks of the section Examples: a program and its output."""
    section = page.split('## Examples\n', 1)[-1].split('\n## ', 1)[0]
    return re.findall(r'^```text\n(.*?)^```$', section, re.M | re.S)


def errors_of_page(name, page, types):
    """Yields what is wrong with the page of a type."""
    if names_of(page)[:1] != [name]:
        yield f'{name}.3 has another name'
    if [it for it in re.findall(r'^## (.*)$', page, re.M) if it in SECTIONS] != SECTIONS:
        yield f'{name}.3 lacks a section, or has them in another order'
    if page.count(f'\n## Synopsis\n\n[Declarations in semver_parser.h](../../{HEADER})\n') != 1:
        yield f"{name}.3 doesn't take its declarations from the header"
    constants = [it for it in names_of(page) if types.get(it)]
    if sorted(re.findall(r'^\[Constants of (\w+)\]\(.*\)$', page, re.M)) != sorted(constants):
        yield f'{name}.3 has the constants of other types than its own'
    if len(examples_of(page)) != 2:
        yield f'{name}.3 has no program with what it prints'
    if f'[{OVERVIEW}(3)]' not in page.split('## See also')[-1]:
        yield f"{name}.3 doesn't name {OVERVIEW}(3)"


def errors_of_made(header, pages):
    """Yields what is wrong with the pages that are made from the header and the pages by hand."""
    with tempfile.TemporaryDirectory() as work:
        texts = {f'docs/manual/{name}.3.md': page for name, page in pages.items()}
        tools = {name: read(name) for name in ('tools/make-manuals.py', 'tools/roff.py')}
        for path, text in {HEADER: header, **texts, **tools}.items():
            os.makedirs(os.path.dirname(os.path.join(work, path)), exist_ok=True)
            with open(os.path.join(work, path), 'w', encoding='utf-8') as file:
                file.write(text)
        command = [sys.executable, f'{work}/tools/make-manuals.py', '1', '2026-01-01', f'{work}/made']
        made = subprocess.run(command, capture_output=True, text=True, check=False)
        if made.returncode != 0:
            yield made.stderr.strip().split('\n')[-1]
            return
        there = {name[:-2] for name in os.listdir(f'{work}/made')}
        for name in sorted({OVERVIEW, *types_of(header), *functions_of(header)} ^ there):
            yield f'{name} has no page, or its page is of nothing in the header'
        for name in sorted(there):
            with open(f'{work}/made/{name}.3', encoding='utf-8') as file:
                yield from errors_of_links(name, file.read(), there)


def errors_of_links(name, page, there):
    for other in named_in(page):
        if other not in there and other != 'memset':
            yield f'{name}.3 names {other}(3), which does not exist'


def errors_of_overview(header, page):
    """Yields the types and functions that the section Description doesn't list exactly once."""
    listed = named_in(page.split('### Types', 1)[-1].split('## Return value', 1)[0])
    for name in sorted({*listed, *types_of(header), *functions_of(header)}):
        if listed.count(name) != 1:
            yield f'{OVERVIEW}.3 lists {name} {listed.count(name)} times'


def errors(header, pages):
    types, functions = types_of(header), functions_of(header)
    of_types = {name: page for name, page in pages.items() if name != OVERVIEW}
    if len(types) < 12 or len(functions) < 36:
        yield f'{len(types)} types and {len(functions)} functions are too few'
    named = [name for page in of_types.values() for name in names_of(page)]
    for name in sorted({*named, *types}):
        if (named.count(name), name in types) != (1, True):
            what = 'a type' if name in types else 'no type'
            yield f'{name} is in the section Name of {named.count(name)} pages, and is {what}'
    for name, page in of_types.items():
        yield from errors_of_page(name, page, types)
    yield from errors_of_overview(header, pages[OVERVIEW])
    if not any(name not in types for name in named):
        yield from errors_of_made(header, pages)


# One error of each kind: the page or `header`, the old text, and the new text.
PLANTED = [
    ('header', '} semver_parser_version;', '} semver_parser_parts;'),
    ('header', 'semver_parser_check_range(', 'semver_parser_check_ranges('),
    ('header', '    /* An allocation failed. */\n', ''),
    ('semver_parser_error', 'semver_parser_reason - ', 'semver_parser_reasons - '),
    ('semver_parser_error', '[Constants of semver_parser_reason]', '[Constant of semver_parser_reason]'),
    ('semver_parser_error', '`semver_parser_status_name`(3)', '`semver_parser_names`(3)'),
    ('semver_parser_error', 'which string or range', 'which `string or range'),
    ('semver_parser_range', '## Errors\n', '## Status\n'),
    ('semver_parser_range', '[Declarations in semver_parser.h]', '[semver_parser.h]'),
    ('semver_parser_options', 'It prints:\n\n```text', 'It prints:\n\n```c'),
    ('semver_parser_options', '[semver_parser(3)](semver_parser.3.md), ', ''),
    ('semver_parser', '`semver_parser_free`(3), ', ''),
    ('semver_parser', '`semver_parser_free`(3), ', '`semver_parser_free`(3), `semver_parser_free`(3) '),
]


def must_fail(header, pages):
    """Plants one error at a time."""
    missed = 0
    for where, before, after in PLANTED:
        texts = {'header': header, **pages}
        assert before in texts[where], (where, before)
        texts[where] = texts[where].replace(before, after, 1)
        found = list(errors(texts.pop('header'), texts))
        if not found:
            print(f'not found in {where}: {before!r} is {after!r}')
            missed += 1
    return missed


def write_examples(pages, to):
    for name, page in pages.items():
        for ending, text in zip(('c', 'wanted'), examples_of(page)):
            with open(os.path.join(to, f'{name}.{ending}'), 'w', encoding='utf-8') as file:
                file.write(text)


def main():
    header, pages = read(HEADER), by_hand()
    if sys.argv[1:2] == ['--examples']:
        write_examples(pages, sys.argv[2])
        return 0
    if sys.argv[1:] == ['--must-fail']:
        missed = must_fail(header, pages)
        print(f'C manuals, {len(PLANTED)} errors: {"failed" if missed else "each found, passed"}')
        return 1 if missed else 0
    found = list(errors(header, pages))
    for error in found:
        print(error)
    print('C manuals: failed' if found else 'C manuals: passed')
    return 1 if found else 0


sys.exit(main())
