"""The meaning of range texts by the definitions of rust/docs/CRATE.md: a separate model next to the
proved code.

A version is a tuple `(numbers, identifiers)`: three numbers, and the identifiers of its
pre-release, each a number or a text. A term is `(operator, stated numbers, identifiers)`. Only the
table "The meaning of a text" determines whether a version satisfies a term, one version at a time;
there are no comparators and no lists of bounds here. The lowest version with some property is
looked for among all points at which a result about the terms can change, of which there are few.
`tools/set-rows.py` and `tools/compare.sh grid` check that against a grid of versions.
"""

import re

LAST = 2**64 - 1
RULES = ("releases", "stated", "mean")


class Refused(Exception):
    """A text that isn't a range, or whose numbers don't fit."""


# ---- versions


def identifiers(text, in_range):
    """Returns the identifiers in the text of a pre-release. Digits are a number up to 2^64 - 1; in
    a version only without a leading zero."""
    if text is None:
        return ()
    return tuple(
        int(part) if part.isascii() and part.isdigit() and int(part) <= LAST and (in_range or part == str(int(part))) else part
        for part in text.split(".")
    )


def version(text):
    numbers, _, pre = text.partition("+")[0].partition("-")
    return tuple(map(int, numbers.split("."))), identifiers(pre or None, False)


def shown(it):
    if it is None:
        return "none"
    numbers, pre = it
    return ".".join(map(str, numbers)) + ("-" + ".".join(map(str, pre)) if pre else "")


def precedence(it):
    """Returns a sort key for precedence."""
    numbers, pre = it
    return numbers, not pre, tuple((isinstance(part, str), part) for part in pre)


# ---- texts

_PARTIAL = r"(?P<numbers>[0-9xX*]+(?:\.[0-9xX*]+){0,2})(?:-(?P<pre>[0-9A-Za-z.-]+))?(?:\+[0-9A-Za-z.-]+)?"
_SIMPLE = re.compile(r"(?P<sign>>=|<=|~>|[<>=~^]?) *" + _PARTIAL)
_SIDE = re.compile(_PARTIAL)


def _partial(found):
    stated = []
    for word in found["numbers"].split("."):
        if not word.isdigit():
            break
        stated.append(int(word))
    return tuple(stated), identifiers(found["pre"], True) if len(stated) == 3 else ()


def _range(text):
    if " - " in text:
        sides = [_partial(_SIDE.fullmatch(side.strip(" "))) for side in text.split(" - ")]
        terms = [(sign, *side) for sign, side in zip((">=", "<="), sides)]
        return [term for term in terms if term[1]] or terms[:1]
    terms, at = [], 0
    while text[at:].strip(" "):
        found = _SIMPLE.match(text, at + len(text[at:]) - len(text[at:].lstrip(" ")))
        terms.append((found["sign"].replace("~>", "~"), *_partial(found)))
        at = found.end()
    return terms or [("", (), ())]


def ranges(text, mode):
    """Returns the terms of each range of a valid text. In Cargo mode a partial version with three
    numbers and no operator is a caret."""
    read = [_range(part) for part in text.split("||")]
    return [[("^" if mode == "cargo" and sign == "" and len(stated) == 3 else sign or "=", stated, pre) for sign, stated, pre in terms] for terms in read]


def fits(text, mode):
    """Returns whether every stated number and every number of a raised bound is at most 2^64 -
    1."""
    for sign, stated, _ in sum(ranges(text, mode), []):
        k = raised_place(sign, stated)
        if any(number > LAST for number in stated) or (k and stated[k - 1] == LAST):
            return False
    return True


def raised_place(sign, stated):
    """Returns which number, from 1, a term's raised bound raises; 0 if it has no such bound."""
    n = len(stated)
    if sign == "^":
        return next((at + 1 for at, number in enumerate(stated) if number), n)
    if sign == "~":
        return min(n, 2)
    return n if sign in ("=", "<=") and n < 3 else 0


# ---- meaning


def meets_term(it, term):
    """Returns whether a version satisfies a term: the table of rust/docs/CRATE.md, row by row."""
    sign, stated, pre = term
    n, numbers = len(stated), it[0]
    z = stated + (0,) * (3 - n), pre
    at = precedence(it)
    if n == 0:
        below = at < precedence(((0, 0, 0), ()))
        return below if sign in "<>" else not below
    if sign == "^":
        k = next((place + 1 for place, number in enumerate(stated) if number), n)
        return at >= precedence(z) and numbers[:k] == stated[:k]
    if sign == "~":
        return at >= precedence(z) and numbers[: min(n, 2)] == stated[:2]
    if sign == "<":
        return at < precedence(z)
    if sign == ">":
        return at > precedence(z)
    if sign == ">=":
        return at >= precedence(z)
    if sign == "<=":
        return at <= precedence(z) if n == 3 else numbers[:n] <= stated
    assert sign == "="
    return at == precedence(z) if n == 3 else numbers[:n] == stated and at >= precedence(z)


def meets_range(it, terms, rule):
    numbers, pre = it
    if pre and rule == "releases":
        return False
    if pre and rule == "stated" and not any(stated == numbers and own for _, stated, own in terms):
        return False
    return all(meets_term(it, term) for term in terms)


def meets(it, read, rule):
    """Returns whether a version satisfies the ranges of a text by a rule for pre-releases."""
    return any(meets_range(it, terms, rule) for terms in read)


# ---- points


def raised(front):
    """Returns the lowest numbers above all that begin with these, or None if there are none."""
    front = list(front)
    while front and front[-1] == LAST:
        front.pop()
    if not front:
        return None
    return tuple(front[:-1]) + (front[-1] + 1,) + (0,) * (3 - len(front))


def places(*texts):
    """Returns the versions, by precedence, at which a result about the terms of these texts can
    begin or end.

    Each condition of the tables compares a version, or its first numbers, with z. So it begins or
    ends at z, directly after z, at the lowest version with some numbers, or directly after the
    highest.
    """
    numbers, found = {(0, 0, 0)}, set()
    for _, stated, pre in (term for read in texts for terms in read for term in terms):
        z = stated + (0,) * (3 - len(stated))
        numbers |= {z[:k] + (0,) * (3 - k) for k in (1, 2, 3)} | {raised(z[:k]) for k in (1, 2, 3)}
        if pre:
            found |= {(z, pre), (z, pre + (0,))}
    for these in numbers - {None}:
        found |= {(these, ()), (these, (0,))}
    return sorted(found, key=precedence)


def least(found, holds):
    """Returns the lowest of some versions for which this holds."""
    return next((it for it in found if holds(it)), None)


# ---- whole results


def right_after(it):
    """Returns the next version of the same kind by precedence, if there is one."""
    numbers, pre = it
    if pre:
        return numbers, pre + (0,)
    above = raised(numbers)
    return above and (above, ())


def intervals(found, holds):
    """Returns the intervals of the versions of one kind for which this holds: each begins with a
    version and ends below another, or has no end (`None`).

    `found` has the points of this kind, in order, at which the result can change. It is the same
    from one up to the next.
    """
    answer, inside = [], False
    for it in found:
        if holds(it) != inside:
            inside = not inside
            if inside:
                answer.append([it, None])
            else:
                answer[-1][1] = it
    return [tuple(interval) for interval in answer]


def end_of(begin, end):
    """Returns the version that an interval is written to end below. An interval with all remaining
    pre-releases of its numbers ends below their release: `>=1.2.3-a <1.2.3`."""
    numbers, pre = begin
    above = raised(numbers)
    return (numbers, ()) if pre and above and end == (above, (0,)) else end


def interval_text(interval, lowest):
    begin, end = interval
    if end == right_after(begin):
        return f"={shown(begin)}"
    bounds = [f">={shown(begin)}"] if begin != lowest else []
    return " ".join(bounds + ([f"<{shown(end_of(begin, end))}"] if end else [])) or "*"


def whole(found, holds):
    """Returns two range texts: for the releases and for the pre-releases for which this holds."""
    texts = []
    for pre in ((), (0,)):
        of_kind = [it for it in found if bool(it[1]) == bool(pre)]
        shown_ones = [interval_text(interval, ((0, 0, 0), pre)) for interval in intervals(of_kind, holds)]
        texts.append(" || ".join(shown_ones) or "<0.0.0-0")
    return texts
