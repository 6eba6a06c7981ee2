"""Rejects sources in Rattle whose tokens would mean something else in Rust, or from which a rule of
docs/ERASURE.md would remove something that does something. For tests/erased.py."""
import functools
import re

from erasure_code import Code, is_listed, is_name, refusal
from erasure_known import (
    ATTRIBUTE, KNOWN, MACROS, NO_MACROS, NOT_ERASED, ORDERED, ORDERS, UNKNOWN, WITH_DEBUG)
from erasure_laws import calls_that_do, is_laws, laws_alone, laws_as_statements, modules
from erasure_names import (
    declared, facts, implementations, imports, invariants_elsewhere, methods, other_names)
from erasure_numbers import casts, ranges
from erasure_tokens import Refused


def known_words(code):
    for i, token in enumerate(code.tokens):
        if token.kind == 'word' and token.text in UNKNOWN:
            yield i, f'`{token.text}`, which no rule knows'
        if code.words[i:i + 2] == ['const', 'fn']:
            yield i, '`const fn`, which no rule knows'
        elif token.text == 'const' and code.outer[i] != -1:
            yield i, f'`const {code.at(i + 1)}`, not at the top'
        if token.text == 'by_ref' and code.words[i + 1:i + 4] != ['(', ')', '{']:
            yield i, '`by_ref`, but not at the head of a loop'


def formats(code):
    """Rejects formats of values that no source needs, such as widths, and `{:?}` elsewhere than in
    `WITH_DEBUG`."""
    for i, token in enumerate(code.tokens):
        found = re.findall(r'\{\w*:([^{}]*)\}', token.text) if token.kind == 'literal' else []
        for wanted in found:
            if wanted not in ('04x', 'x') and (wanted != '?' or code.name not in WITH_DEBUG):
                yield i, f'`{{:{wanted}}}`, a format that no rule knows'


def attributes(code):
    for i in code.all('#'):
        opening = i + 1 + (code.at(i + 1) == '!')
        inside = ' '.join(code.words[opening + 1:code.pair.get(opening, opening)])
        if code.at(opening) != '[' or not ATTRIBUTE.fullmatch(inside) \
                or (opening > i + 1 and not inside.startswith('tactic')):
            yield i, f'`#[{inside}]`, an attribute that no rule knows'


def macros(code):
    for i in code.all('!'):
        name, given = code.at(i - 1), code.words[i + 2:i + 4]
        if not is_name(name) or code.at(i + 1) not in ('(', '[', '{') or name in NO_MACROS:
            continue
        if name not in MACROS or MACROS[name] == 'in' and given[:1] != ['in'] \
                or MACROS[name] == ';' and given[1:] != [';']:
            yield i - 1, f'`{name}!`, a macro that no rule knows'


def error_texts(code):
    """Rejects `#[error(..)]` unless its placeholders are fields and nothing is escaped."""
    for i in code.all('error'):
        text = code.tokens[i + 2].text if code.at(i + 2) == '"' else ''
        if code.words[i - 2:i] == ['#', '['] and not re.fullmatch(
                r'"([^{}\\]|\{(\d+|[a-z_]\w*)(:\?)?\})*"', text):
            yield i, f'`#[error({text})]`, in which only `{{FIELD}}` and `{{FIELD:?}}` are known'


def orders(code):
    """Rejects calls that need an order, except those in `ORDERS`. For a sort, a clause has to say
    that the order is total."""
    for i, token in enumerate(code.tokens):
        if token.kind == 'word' and token.text in ORDERED:
            text = code.said(i, code.pair.get(i + 1, i) + 1)
            if not is_listed((code.name, text), ORDERS):
                yield i, f'`{text}`, a call that needs an order, and none that is known'
            elif token.text.startswith('sort') and not says_total_order(code, code.inside(i)):
                yield i, f'`{text}`, a sort, and no clause says that its order is total'


def says_total_order(code, found):
    return found is not None and any(
        token.kind == 'ensures' and re.match(r'ensures total_order \{ IsTotalOrder ', token.text)
        for token in code.tokens[found.at:found.opening])


@functools.lru_cache(maxsize=None)
def checked(where, text, names):
    """Returns the tokens of a source, and what is rejected in it."""
    code = Code(where, text)
    if is_laws(code):
        checks = [laws_alone(code)]
    else:
        checks = [check(code) for check in (
            known_words, formats, attributes, macros, error_texts, orders, modules, methods,
            casts, ranges, facts, invariants_elsewhere)]
        checks += [check(code, names) for check in (declared, imports, laws_as_statements)]
    return code, [refusal(code, i, what) for found in checks for i, what in found]


def refusals(files, names):
    """Returns what is rejected in all sources, each with file and line."""
    erased = NOT_ERASED | {crate for crate, _ in files}
    codes, found = [], [
        Refused('crates.txt', 1, f'`{name}`, a crate that isn\'t erased, or is called as another')
        for name in names if name in KNOWN or name not in erased]
    for (crate, path), text in files.items():
        try:
            code, wrong = checked(f'crates/{crate}/src/{path}', text, names)
            codes.append(code)
            found += wrong
        except Refused as refused:
            found.append(refused)
    sources = [code for code in codes if not is_laws(code)]
    return found + [refusal(*each) for checks in (
        other_names(sources), implementations(sources), calls_that_do(codes, names))
                    for each in checks]
