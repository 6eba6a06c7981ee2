"""Checks that each lemma and definition in the files of lemmas is cited: in its own file or in a
file that imports it. Citations by the lemma itself, or by what is inside of it, don't count."""
import os
import re

HEAD = re.compile(r'( *)((?:(?:pub|abbrev|unfoldable|record|data) )*)([^\s(){}\[\],;.:@◌]+)')
NO_NAMES = {'module', 'use', 'unfolding', 'let', 'in', 'where', 'mod'}
WORD = re.compile(r'[^\s(){}\[\],;.:@]+')
NAMED = re.compile(r'\bRattle\.(\w+)\.proofs\.([A-Z]\w*)|\b(\w+)::proofs::([A-Z]\w*)')


def read_all(top, crates):
    """Yields the sources, definitions and lemmas of crates, with their paths."""
    for crate in crates:
        for at, folders, names in os.walk(os.path.join(top, 'crates', crate)):
            folders[:] = [it for it in folders if it not in ('out', 'must-fail')]
            for name in names:
                if name.endswith(('.antt', '.rt')):
                    with open(os.path.join(at, name), encoding='utf-8') as file:
                        yield os.path.relpath(os.path.join(at, name), top), file.read()


def declared_and_cited(text):
    """Returns the names that a file of lemmas declares, with their indentation, and the names that
    it cites, each with the declarations around it. A line doesn't count as citing the name that
    begins it, or that begins a line above it with less indentation."""
    declared, lines, above = set(), [], []
    for line in text.split('\n'):
        head = HEAD.match(line)
        if line.lstrip().startswith('--') or not head:
            lines.append((set(WORD.findall(line)), {(at, name) for at, name, _ in above}))
            continue
        indent, kind, name = len(head[1]), head[2], head[3]
        above = [it for it in above if it[0] < indent]
        in_record = any('record ' in it[2] or 'data ' in it[2] for it in above)
        if name not in NO_NAMES and not in_record and not line.endswith(';') and (kind or re.match(' : ', line[head.end():])):
            declared.add((indent, name))
        above.append((indent, name if kind or re.search(' [:=]( |$)', line) else '', kind))
        if not line.lstrip().startswith('use '):
            lines.append((set(WORD.findall(line)), {(at, name) for at, name, _ in above}))
    cited = {it for it in declared if any(it[1] in words and it not in inside for words, inside in lines)}
    return declared, cited


def errors(top, crates):
    """Yields each name that nothing cites."""
    texts = dict(read_all(top, crates))
    naming = {}
    for path, text in texts.items():
        for found in set(NAMED.findall(text)):
            crate = found[0] or found[2].replace('crate', path.split('/')[1])
            naming.setdefault((crate, found[1] or found[3]), set()).add(path)
    words = {path: set(WORD.findall(text)) for path, text in texts.items()}
    for path in sorted(texts):
        found = re.fullmatch(r'crates/(\w+)/proofs/([A-Z]\w*)\.antt', path)
        if not found or found[2] == 'Lib' or 'Examples' in found[2]:
            continue
        declared, cited = declared_and_cited(texts[path])
        others = set().union(*(words[it] for it in naming.get(found.groups(), ()) if it != path))
        for _, name in sorted(declared - cited):
            if name not in others:
                yield f'{path}: nothing cites {name}'
