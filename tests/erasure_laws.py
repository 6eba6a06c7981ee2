"""Checks that what rule 7 of docs/ERASURE.md removes does nothing, for
tests/erasure_refusals.py."""
import re

from erasure_code import in_use


def modules(code):
    """Checks that `mod NAME;` is only at the top level, and `mod laws;` only in the root of a
    crate."""
    root = code.where.endswith(('/src/lib.rt', '/src/main.rt'))
    for i in code.all('mod'):
        if code.at(i + 2) != ';' or code.outer[i] != -1:
            yield i, f'`mod {code.at(i + 1)}` that is no file'
        elif code.at(i + 1) == 'laws' and not root:
            yield i, '`mod laws;` that is not of the crate'


def is_module_of_laws(path, names):
    match = re.fullmatch(r'(\w+) :: (?:laws|\{ (?:\w+ , )*laws(?: ,)?(?: \w+ ,?)* \})', path)
    return match is not None and match[1] in (*names, 'crate')


def calls_of_laws(code, names):
    """Yields the index of each call of a law in a function, and whether it is a statement without
    an argument."""
    is_here = any('laws' in code.words[use.start:use.stop] for use in code.uses) \
        or 'mod laws ;' in ' '.join(code.words)
    for i in code.all('laws'):
        if in_use(code, i) or code.at(i - 1) == 'mod':
            continue
        first = i - 2 * (code.at(i - 1) == '::')
        yield i, (code.at(i + 1) == '::' and code.words[i + 3:i + 6] == ['(', ')', ';']
                  and (code.at(first) in (*names, 'crate') if first < i else is_here)
                  and code.at(first - 1) in (';', '{', '}'))


def laws_as_statements(code, names):
    for i, is_known in calls_of_laws(code, names):
        if not is_known:
            closing = code.pair.get(i + 3, i)
            yield i, f'`{code.said(i, closing + 2)}`, not a law as a statement without an argument'


def laws_alone(code):
    """Checks that a file of laws has only functions and imports, and exports only laws."""
    for i in code.all('mod', 'struct', 'enum', 'trait', 'impl', 'static', 'type', 'const'):
        yield i, f'`{code.at(i)}` in a file of laws'
    for use in code.uses:
        words = code.words[use.start:use.stop]
        if code.at(use.start - 1) in ('pub', ')') and ('laws' not in words or 'as' in words):
            yield use.start, f'`{" ".join(words)}`, which lends a name of something else to a law'


def does_nothing(laws, name):
    """Returns whether each law of a name has no parameter, no result and an empty body. What it
    has besides are clauses, each of which is one token."""
    found = [(code, law) for code in laws for law in code.functions if law.name == name]
    return found != [] and all(
        [word for word in code.words[law.at + 2:law.closing + 1]
         if not word.startswith(('requires', 'ensures'))] == ['(', ')', '{', '}']
        for code, law in found)


def calls_that_do(codes, names):
    """Yields calls of laws that may do something."""
    laws = [code for code in codes if is_laws(code)]
    for code in codes:
        for i, _ in calls_of_laws(code, names) if not is_laws(code) else ():
            if not does_nothing(laws, code.at(i + 2)):
                yield code, i, f'`{code.said(i, i + 3)}`, a law that may do something'


def is_laws(code):
    return code.where.endswith('/src/laws.rt')
