#!/usr/bin/env python3
"""Compares rust/src/proved with crates/, token by token, by the rules of docs/ERASURE.md, and
compares its counts with the table on that page. Then it plants changes in a copy, and fails if one
of them isn't rejected.

- tests/erasure.py has the rules.
- tests/erasure_refusals.py has what is rejected before anything is compared.
- tests/attacks.py has edits of a small repository, most of them for this program.

It shares no code with tools/erase.py.

tests/erased.py --counts  prints the table.
"""
import collections
import os
import re
import shutil
import sys
import tempfile

sys.dont_write_bytecode = True
from erasure import Source, World, below, read  # noqa: E402
from attacked import make, write  # noqa: E402
from attacks import EDITS, edit  # noqa: E402
from erasure_tokens import Refused, tokens_of  # noqa: E402

BEGIN, END = '<!-- counts -->\n', '\n<!-- end of counts -->'
LABELS = {
    1: 'ghost items and fields', 2: 'clauses', 3: '`impl Model`, and its imports', 4: '`tactic`',
    5: '`Drop`', 6: 'allocators', 7: 'laws: files, `mod`, imports, calls', 8: 'no longer public',
    9: 'other names', 10: '`derive(Error)`', 11: '`derive(Clone)`', 12: 'calls that allocate',
    13: 'macros', 14: 'files that need `std`', 15: 'formatters', 16: 'beginnings of paths',
    17: '`main`', 18: 'first lines'}
NEVER = {'Drop', 'Global', 'Model', 'alloc', 'ensures', 'ghost', 'laws', 'requires', 'tactic',
         'unsafe'}


def difference(source, text, name, written):
    """Returns the first difference between a generated file and the tokens of its source, or
    None."""
    where, there = f'crates/{source.crate}/src/{source.path}', f'rust/src/proved/{name}'
    found = tokens_of(there, written)
    due = [token.text for token in tokens_of(there, source.expected())]
    source.counts.update(files=1, source=sum(map(size, tokens_of(where, text))), written=len(found))
    if written.split('\n')[0] != f'// Made by tools/erase.py from {where}; not edited by hand.':
        return f'{there}:1: not the first line of what is made of {where}'
    for token in found:
        if token.kind in NEVER or token.kind == 'word' and token.text in NEVER:
            return f'{there}:{token.line}: `{token.text}`, which no rule writes'
    here = [token.text for token in found]
    if here == due:
        return None
    i = next((i for i, both in enumerate(zip(here, due)) if both[0] != both[1]),
             min(len(here), len(due)))
    shown = [' '.join(texts[max(i - 6, 0):i + 6]) for texts in (here, due)]
    line = found[i].line if i < len(found) else 'end'
    return f'{there}:{line}: {shown[0]}\n  {where}:{line_after(where, text, due[:i])}: {shown[1]}'


def size(token):
    """Returns how many tokens a token counts for: a clause or ghost item counts for those in its
    text."""
    return len(re.findall(r'\w+|[^\w\s]', token.text)) if token.kind in NEVER else 1


def line_after(where, text, before):
    """Returns the line of a source that has the last of these tokens, as far as the source has
    them."""
    tokens = tokens_of(where, text)
    texts = [token.text for token in tokens]
    sizes = ((size, i) for size in range(12, 0, -1) for i in range(size, len(texts)))
    return next((tokens[i].line for size, i in sizes if texts[i - size:i] == before[-size:]), 1)


def names_crates(world, text):
    """Returns whether mod.rs has each crate once, a program only for tests, and nothing else."""
    try:
        tokens = tokens_of('rust/src/proved/mod.rs', text)
    except Refused:
        return False
    code = re.sub(r'\A(# ! \[ (?:allow|warn) \( [\w :,]*\) \] )*', '', ''.join(
        token.text + ' ' for token in tokens if token.kind != 'inner'))
    lines = [f'{"# [ cfg ( test ) ] " * ((crate, "main.rt") in world.files)}pub mod {crate} '
             for crate in world.crates]
    return sorted(code.split('; ')[:-1]) == sorted(lines) and code.endswith('; ')


def check(top, right):
    """Returns the differences, as pairs of a generated file and a message, and the counts. Files
    without a difference are added to `right`; files that are already in it aren't compared
    again."""
    world, counts, made = World(top), collections.Counter(), {'mod.rs'}
    if world.refused:
        return [(refused.where, str(refused)) for refused in world.refused], counts
    wrong = [] if names_crates(world, read(f'{top}/rust/src/proved/mod.rs')) else \
        [('mod.rs', 'rust/src/proved/mod.rs: not exactly the crates')]
    for (crate, path), text in world.files.items():
        name = f'{crate}/' + re.sub(r'^(lib|main)$', 'mod', path[:-3]) + '.rs'
        if path == 'laws.rt':
            counts[7] += 1
            continue
        made.add(name)
        written = read(f'{top}/rust/src/proved/{name}') if name in world.generated else ''
        if (name, text, written) not in right:
            source = Source(world, crate, path)
            try:
                message = difference(source, text, name, written)
            except Refused as refused:
                message = str(refused)
            counts.update(source.counts)
            wrong += [(name, message)] if message else []
            right |= set() if message else {(name, text, written)}
    wrong += [(name, f'rust/src/proved/{name}: made from no source')
              for name in world.generated if name not in made]
    counts['crates'] = len(world.crates)
    return wrong, counts


def table(counts):
    rows = [f'| {rule} | {label} | {counts[rule]} |' for rule, label in LABELS.items()]
    rows += [f'| | {label} | {counts[label]} |' for label in ('crates', 'files')]
    rows += [f'| | thousands of tokens {label} | {round(counts[key] / 1000)} |'
             for key, label in (('source', 'in Rattle'), ('written', 'in Rust'))]
    return '\n'.join(['| rule | what | times |', '|---|---|---|', *rows])


# The planted changes: a name, a pattern in generated code, and its replacement.
PLANTED = (
    ('a statement dropped', r'\n +[a-z_.]+ [+|&]?= [^;{}]*;(?=\n)', ''),
    ('a call dropped', r'\n +[a-z_.]+\([^;{}]*\)\??;(?=\n)', ''),
    ('two arguments exchanged', r'(?<=\w\()(\w+), (?!\1\b)(\w+)(?=\)[;?)])', r'\2, \1'),
    ('`<` made `<=`', r'(?<= )<(?= )', '<='),
    ('a number changed', r'(?<=[ (])\d(?=[,;)])', r'1\g<0>'),
    ('a text changed', r'(?<=")[a-z ]+(?=")', r'\g<0>!'),
    ('an item added', r'\Z', r'fn planted() {}\n'),
    ('a function made public', r'pub\(crate\)(?= fn)', 'pub'),
    ('a function made private', r'pub(?= fn)', 'pub(crate)'),
    ('a call that panics', r'fallible_push(?=\()', 'push'),
    ('a `?` dropped', r'(?<=\))\?(?=;)', ''),
    ('a doc comment added', r'(?<=\n)(?=/// )', r'/// Planted.\n'))


def places(folder, pattern):
    """Yields the matches of a pattern in code, outside of comments, each with the path of its
    file."""
    for path in below(folder, '.rs'):
        text = read(f'{folder}/{path}')
        for match in re.finditer(pattern, text) if path != 'mod.rs' else ():
            if '//' not in text[text.rfind('\n', 0, match.start()) + 1:match.start()]:
                yield path, match


def plants(top):
    """Yields each planted change: its name, the file to be rejected, and the new contents of
    files."""
    base = f'{top}/rust/src/proved'
    for what, pattern, instead in PLANTED:
        found = list(places(base, pattern))
        name, match = found[len(found) // 2]
        text = match.string[:match.start()] + match.expand(instead) + match.string[match.end():]
        yield what, name, {f'{base}/{name}': text}
    # Without the only file of a crate, it's mod.rs that is rejected, since it names the crate.
    name = next(name for name, _ in found[len(found) // 2:] if not name.endswith('/mod.rs'))
    yield 'a file removed', name, {f'{base}/{name}': None}
    yield 'a file added', 'planted.rs', {f'{base}/planted.rs': ''}
    yield 'a crate dropped', 'mod.rs', {
        f'{base}/mod.rs': re.sub(r'pub mod \w+;\n', '', read(f'{base}/mod.rs'), count=1)}
    # Moves a statement of a function into a clause of that function.
    statement = re.compile(r'(\n +ensures (?:\w+ )?\{[^{}]*\})(\n *\{)(\n *let [^;{}]*;)(?=\n)')
    source, name, text, match = next(
        (f'{top}/crates/{crate}/src/{path}', f'{crate}/{path[:-3]}.rs', text, match)
        for (crate, path), text in World(top).files.items()
        if os.path.exists(f'{base}/{crate}/{path[:-3]}.rs') for match in statement.finditer(text)
        if read(f'{base}/{crate}/{path[:-3]}.rs').count(match[3]) == 1)
    clause = f'{text[:match.end(1)]} ensures planted {{{match[3]} }}{match[2]}'
    yield 'a statement hidden by a clause', name, {
        source: clause + text[match.end(2):],
        f'{base}/{name}': read(f'{base}/{name}').replace(match[3], '')}
    yield 'a statement moved to a clause', name, {source: clause + text[match.end(3):]}


def missed_edits():
    """Yields the edits of tests/attacks.py for this program that it doesn't see, and the repository
    without an edit if something is reported in it."""
    for each in (edit('none', '', erased=None), *EDITS):
        if 'erased' not in each.seen:
            continue
        with tempfile.TemporaryDirectory() as copy:
            make(copy, each)
            said = '\n'.join(message for _, message in check(copy, set())[0])
        if each.seen['erased'] not in said if each.seen['erased'] else said:
            yield f'not as it should be: {each.name}: {each.seen["erased"]}, but {said}'


def refused(top, right, changed):
    """Returns what is rejected, as files and messages, if files have these contents. None removes a
    file."""
    kept = {path: read(path) if os.path.exists(path) else None for path in changed}
    write(changed)
    wrong = check(top, right)[0]
    write(kept)
    return wrong


def must_fail(top, right):
    """Returns how many changes are planted in a copy. Exits if one of them isn't rejected."""
    missed = [*missed_edits()]
    count = sum('erased' in each.seen for each in EDITS)
    with tempfile.TemporaryDirectory() as copy:
        for part in ('crates', 'rust/src/proved'):
            shutil.copytree(f'{top}/{part}', f'{copy}/{part}')
        shutil.copy(f'{top}/crates.txt', copy)
        shutil.copy(f'{top}/rust/interface.txt', f'{copy}/rust')
        for what, name, changed in plants(copy):
            if [file for file, _ in refused(copy, right, changed)] != [name]:
                missed.append(f'not refused: {what}, {name}')
            count += 1
        name, match = next(places(f'{copy}/rust/src/proved', r';(?=\n)'))
        text = f'{match.string[:match.end()]} // Planted.{match.string[match.end():]}'
        if refused(copy, right, {f'{copy}/rust/src/proved/{name}': text}):
            missed.append(f'refused: a comment added, {name}')
    if missed:
        sys.exit('\n'.join(f'erased: {what}' for what in missed))
    return count


def main():
    if sys.argv[1:] not in ([], ['--counts']):
        print('usage: tests/erased.py [--counts]', file=sys.stderr)
        sys.exit(2)
    top, right = os.path.dirname(os.path.dirname(os.path.realpath(__file__))), set()
    wrong, counts = check(top, right)
    messages = [message for _, message in wrong]
    if BEGIN + table(counts) + END not in read(f'{top}/docs/ERASURE.md'):
        messages.append('docs/ERASURE.md: not the counts that `tests/erased.py --counts` prints')
    if sys.argv[1:]:
        print(table(counts))
    elif messages:
        sys.exit('\n'.join(messages))
    else:
        print(f'erased: {counts["files"]} files, {counts["written"]} tokens, as their sources; '
              f'{must_fail(top, right)} planted changes rejected')


main()
