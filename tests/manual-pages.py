#!/usr/bin/env python3
"""Checks the manual pages that tools/make-manuals.py makes, as mandoc lays them out. Needs mandoc.

- Each page has the words of its page in docs/manual, in the same order. For this, the markup of
  Markdown is removed by other rules than those of tools/roff.py.
- Signs that roff or tbl would read as their own are shown as they are, and in the right fonts.
- Markdown that isn't closed, or has no rule, is an error.
- An error that is planted in tools/roff.py is found.
"""

import os
import re
import shutil
import subprocess
import sys
import tempfile
import types

TOP = os.path.dirname(os.path.dirname(os.path.abspath(__file__)))

# Markdown, and what mandoc shows of it: <b> and <i> are its fonts.
SHOWN = [
    ('a\n.PP b', 'a .PP b'),
    ('.npmrc is read.', '.npmrc is read.'),
    ("'tis a test. 'Tis one.", "'tis a test. 'Tis one."),
    ('`.x` is. .git is', '<b>.x</b> is. .git is'),
    (r'`a\nb`, \\fB and \_a_b\_', r'<b>a\nb</b>, \fB and _a_b_'),
    ("`'^1'` ~1 ^2", "<b>'^1'</b> ~1 ^2"),
    ('*a \\* b* and **c `d` e**, `f *g*`', '<i>a * b</i> and <b>c d e</b>, <b>f *g*</b>'),
    ('[x(1)](x.1.md), [words](y.md)', '<b>x</b>(1), words'),
    ("```text\n.TH\n'x\n$ a -b \\\n\n  c\n```", ".TH 'x $ a -b \\ c"),
    ('- `--x` *Y*\n\n  Said.\n\n  ```text\n  .Z\n  ```', '<b>--x</b> <i>Y</i> Said. .Z'),
    ('- **x**: .Said\n  more', '<b>x</b> .Said more'),
    ('| a | b |\n|---|---|\n| `\\|\\|` | = |\n| .x | T{ |\n| _ | |', 'a b <b>||</b> = .x T{ _'),
]
REJECTED = [
    'an `unclosed span', 'an *unclosed emphasis', 'a [link without a target]', 'a <b>tag</b>',
    '```text\nno end', '    indented', '> quoted', '1. numbered', '* a star', '![a](b.svg)',
    '#### deep', '- a tag only', '- `a`\n\n  - b\n\n    said', '| a | b |\n|---|---|\n| c |',
    'a \u2013 b', '- **a**: b\nc', '| a |\n| b |',
]
# Texts of tools/roff.py, and errors that they become.
PLANTED = [
    ('"\\\\": "\\\\e", ', ''),
    ('"-": "\\\\-", ', ''),
    ('"\'": "\\\\(aq", ', ''),
    ('if line.startswith(".")', 'if line.startswith("%")'),
    ('if cell in ("_", "=")', 'if cell in ("_",)'),
    ('or cell.startswith("T{")', ''),
    ('.replace("\\\\|", "|")', ''),
    ('(?<!\\\\)\\|', '\\|'),
    ('re.compile(r"[`*', 're.compile(r"[*'),
    ('.replace("\\\\fR", "\\\\fB")', ''),
    ('f"\\\\fI{', 'f"\\\\fR{'),
    (', *laid_out(explanation.split("\\n"), ".IP")', ''),
    ('if end == len(lines):', 'if False:'),
]


def read(path):
    with open(os.path.join(TOP, path), encoding='utf-8') as file:
        return file.read()


def laid_out(page):
    """Returns what mandoc shows of a manual page, without its first and last line."""
    with tempfile.NamedTemporaryFile('w', encoding='utf-8') as file:
        file.write(page)
        file.flush()
        command = ['mandoc', '-T', 'utf8', '-O', 'width=1000', file.name]
        shown = subprocess.run(command, capture_output=True, text=True, check=True).stdout
    return '\n'.join(shown.strip().splitlines()[1:-1])


def with_fonts(shown):
    """Returns a text with <b> for characters that are printed over themselves, and <i> for those
    that are printed over an underscore."""
    text = re.sub('(.)\b\\1', '<b>\\1</b>', re.sub('_\b([^_])', '<i>\\1</i>', shown))
    return re.sub('</(.)>( ?)<\\1>', '\\2', text)


def errors_of_signs(roff):
    """Yields each text that mandoc doesn't show as it has to, and each that isn't rejected."""
    texts = ''.join(f'## Text {at}\n\n{text}\n\n' for at, (text, _) in enumerate(SHOWN))
    try:
        page = roff.manual(f'# x(1)\n\n{texts}', '1', '2000')
    except roff.Unknown as error:
        yield f'rejected: {error}'
        return
    if re.search(r"(?<!\\)-|'", page.partition('\n.TH')[2]):
        yield 'a hyphen or an apostrophe is not escaped'
    shown = re.split(r'<b>TEXT \d+</b>\n', with_fonts(laid_out(page)))[1:]
    if len(shown) != len(SHOWN):
        yield f'{len(shown)} of {len(SHOWN)} texts are shown'
    for (text, wanted), found in zip(SHOWN, shown):
        if ' '.join(found.split()) != wanted:
            yield f'{text!r} is shown as {" ".join(found.split())!r}'
    for text in REJECTED:
        try:
            roff.manual(f'# x(1)\n\n## Text\n\n{text}\n', '1', '2000')
            yield f'{text!r} is accepted'
        except roff.Unknown:
            pass


def words_of(page):
    """Returns the words of Markdown, without its markup."""
    parts = re.split(r'^ *```text\n(.*?)^ *```\n', page, flags=re.M | re.S)
    for at in range(0, len(parts), 2):
        text = re.sub(r'^#+ |^\|[-|]+\|$', '', parts[at], flags=re.M)
        text = re.sub(r'^( *)- (?:\*\*(.+?)\*\*: )?', r'\1\2 ', text, flags=re.M)
        text = re.sub(r'^\|.*', lambda row: re.sub(r'(?<!\\)\|', ' ', row[0]), text, flags=re.M)
        text = re.sub(r'(?<!\\)\[((?:[^]`]|`[^`]*`)*)\]\([^)]*\)', r'\1', text)
        pieces = re.split(r'(`[^`]*`)', text)
        pieces[1::2] = [it.strip('`').replace('\\|', '|') for it in pieces[1::2]]
        pieces[::2] = [re.sub(r'(?<!\\)\*|\\(?=\n)|\\(.)', r'\1', it) for it in pieces[::2]]
        parts[at] = ''.join(pieces)
    return ' '.join('\n'.join(parts).lower().split())


def errors_of_words(made):
    """Yields each page of docs/manual whose manual page has other words, apart from what replaces a
    link."""
    for name in sorted(os.listdir(os.path.join(TOP, 'docs/manual'))):
        _, _, page = read(f'docs/manual/{name}').partition('\n')
        page = page.replace('[RANGES](../../rust/docs/RANGES.md)\n', read('rust/docs/RANGES.md').partition('\n')[2])
        shown = re.sub('.\b', '', laid_out(read(os.path.join(made, name[:-3]))))
        shown = ' '.join(shown.lower().split())
        parts = map(words_of, re.split(r'\n\[(?:Declarations in|Constants of) .*\n', page))
        for at, part in enumerate(parts):
            before, _, after = shown.partition(part)
            if part not in shown or (at == 0 and before):
                same = os.path.commonprefix([part, shown])
                yield f'{name}: {part[len(same):][:60]}\ninstead of\n{shown[len(same):][:60]}'
            shown = after
        if shown:
            yield f'{name} ends with: {shown[:60]}'


def load(source):
    """Returns the module with this source."""
    module = types.ModuleType('roff')
    exec(source, module.__dict__)
    return module


def errors_of_planted(source):
    """Yields each planted error that isn't found."""
    for old, new in PLANTED:
        assert source.count(old) == 1, old
        if not any(errors_of_signs(load(source.replace(old, new)))):
            yield f'not found: {old} is {new}'


def main():
    if not shutil.which('mandoc'):
        print('manual pages: no mandoc (Debian: mandoc), so they are not laid out')
        return 0
    source = read('tools/roff.py')
    with tempfile.TemporaryDirectory() as work:
        made = os.path.join(work, 'man')
        command = [os.path.join(TOP, 'tools/make-manuals.py'), '1', '2000-01-01', made]
        subprocess.run(command, check=True)
        found = [*errors_of_signs(load(source)), *errors_of_words(made), *errors_of_planted(source)]
    print('\n'.join([*found, f'manual pages: {"failed" if found else "passed"}']))
    return 1 if found else 0


sys.exit(main())
