"""Rejects what numbers do differently if `usize` has 32 bits, and ranges that Rust evaluates
differently, for tests/erasure_refusals.py."""
import re

from erasure_code import in_use, is_name
from erasure_known import CASTS


def ranges(code):
    """Rejects ranges without an end, which end at the highest number in Rattle but go on in Rust,
    and `..V` in a struct literal if V isn't a plain name."""
    for i in code.all('..'):
        before, after = code.at(i - 1), code.at(i + 1)
        is_part = code.words[code.outer[i] - 2:code.outer[i]] == ['.', 'get'] or after == ']' and \
            ends_value(code, code.outer[i] - 1)
        if before not in (',', '(', '[', '{', '@') and after in (')', ']', '{', '}', ',', ';') \
                and not is_part:
            yield i, f'`{before}..`, a range without an end'
        if code.at(code.outer[i]) == '{' and before in (',', '{') and after != '}' and not (
                is_name(after) and code.at(i + 2) == '}'):
            yield i, f'`..{after}`, more than a name for the other fields'


def casts(code):
    """Rejects casts, except to a number with as many bits everywhere: Rattle proves that the value
    fits."""
    for i in code.all('as'):
        if not in_use(code, i) and code.at(i + 1) not in CASTS:
            yield i, f'`as {code.at(i + 1)}`, a cast that may lose something'


def ends_value(code, i):
    """Returns whether a value or pattern may end here, so that `|` doesn't begin a closure."""
    return code.at(i) in ('"', ')', ']', '?') or re.fullmatch(r'\w+', code.at(i)) is not None \
        and code.at(i) not in ('return', 'move', 'in', 'if', 'while', 'match', 'else', 'break')
