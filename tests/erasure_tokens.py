"""The tokens of Rattle and of Rust, for tests/erasure.py. Anything that isn't certainly the same
token in both languages is rejected. Doc comments are tokens; other comments aren't. A clause or
ghost item is one token. Its text is in antt, in which `--` and `{-` begin comments."""
import collections
import functools
import re


class Refused(Exception):
    """Something that no rule knows, with its file and line."""

    def __init__(self, where, line, what):
        super().__init__(f'{where}:{line}: {what}')
        self.where = where


Token = collections.namedtuple('Token', 'kind text line')
ESCAPE = r'''\\(?:[nrt0\\'"]|x[0-9A-Fa-f]{2}|u\{[0-9A-Fa-f_]+\})'''
TOKEN = re.compile(rf'''(?P<space>[ \n]+)
    |(?P<inner>//![^\n]*)|(?P<doc>///(?!/)[^\n]*)
    |//\ In\ Rust:\ (?P<name>\w+)\.(?=\n)|(?P<comment>//[^\n]*)
    |(?P<literal>b?"(?:[^"\\]|{ESCAPE}|\\\n)*"|b?r(?P<hashes>\#*)".*?"(?P=hashes)
    |b?'(?:[^'\\\n]|{ESCAPE})')
    |(?P<life>'[A-Za-z_]\w*\b)
    |(?P<number>(?:0x[0-9a-fA-F_]+|0[bo][0-7_]+|[0-9][0-9_]*)(?:[iu](?:8|16|32|64|128|size))?)(?!\w)
    |(?P<word>[A-Za-z_]\w*\b)
    |(?P<sign>::|->|=>|\.\.=|\.\.\.|\.\.|[=!<>+\-*/%&|^]=|&&|\|\||[-+*/%^!&|=<>@.,;:\#?(){{}}\[\]])
    ''', re.X | re.S | re.A)
CLAUSE = re.compile(r'(requires|ensures)\s+(?:[A-Za-z_]\w*\s+)?\{', re.A)
GHOST = re.compile(r'ghost\s+(?:(?P<use>use\s)|[A-Za-z_]\w*\s*[=:]\s*\{)', re.A)
GHOST_USE = re.compile(r'''ghost\s+use\s+[\w.]+(?:\.\{[^{}"';/\\]*\}|\s+as\s+\w+)?;''')
# For texts in antt: opening and closing braces, what is neither, and what is rejected.
ANTT = re.compile(r'''(?P<brace>[{}])|(?<![\w\#])"[^"\\{}\n]*"|(?<=\w)'(?![{}"'\\])
    |'[a-z_]+\b(?!')|(?P<no>--|//|/\*|\{-|-\}|!\}|["'\\])|.''', re.X | re.S)
# Rejected everywhere: unusual ends of lines, and characters that no reader sees.
HIDDEN = re.compile('[^\n\x20-\x7e\xa1-\uffff\U00010000-\U0010ffff]|[\xad\u061c\u200b-\u200f'
                    '\u2028-\u202e\u2060-\u206f\ufeff\ufff0-\uffff\ud800-\udfff]')


def line_of(text, at):
    return text.count('\n', 0, at) + 1


def end_of_antt(where, text, at):
    """Returns the index after the brace that closes the one before `at`."""
    depth = 1
    for match in ANTT.finditer(text, at):
        if match['no'] or text.startswith(('{-', '{!'), match.start()):
            raise Refused(where, line_of(text, match.start()),
                          f'`{text[match.start():match.start() + 2]}` in a clause or ghost item')
        depth += {'{': 1, '}': -1}.get(match['brace'], 0)
        if depth == 0:
            return match.end()
    raise Refused(where, line_of(text, at), 'a clause or ghost item that nothing ends')


def end_of_ghost(where, text, at, match):
    """Returns the index after a ghost item that begins at `at`."""
    if match['use']:
        item = GHOST_USE.match(text, at)
        if item and '--' not in item[0] and '{-' not in item[0]:
            return item.end()
    else:
        end = re.compile(r'\s*[;,]').match(text, end_of_antt(where, text, match.end()))
        if end:
            return end.end()
    raise Refused(where, line_of(text, at), 'a ghost item of another form')


def special(where, text, at):
    """Returns the kind of a clause or ghost item that begins at `at`, and its end; or None."""
    clause, ghost = CLAUSE.match(text, at), GHOST.match(text, at)
    if clause:
        return clause[1], end_of_antt(where, text, clause.end())
    if ghost:
        return 'ghost', end_of_ghost(where, text, at, ghost)
    return None


def kind_of(match, found):
    """Returns the kind of a token, or None for anything that isn't certainly one token."""
    kind = 'literal' if match['hashes'] is not None else match.lastgroup
    after = match.string[match.end():match.end() + 2]
    # A prefix or suffix of a literal, a raw name, or a quote that may belong to another token.
    if kind in ('literal', 'life', 'number', 'word') and re.match(r'[\w\'"]|#["\w]', after):
        return None
    if kind == 'literal' and re.search(r'\\\n *\n', match[0]):
        return None
    if kind == 'number' and re.match(r'\.(?![.A-Za-z_])', after):
        return kind if found and found[-1].text == '.' else None
    return kind


@functools.lru_cache(maxsize=None)
def tokens_of(where, text):
    """Returns the tokens of a text. `// In Rust: NAME.` is a token, too."""
    hidden = HIDDEN.search(text)
    if hidden:
        raise Refused(where, line_of(text, hidden.start()), f'the character {hidden[0]!a}')
    found, at, line = [], 0, 1
    while at < len(text):
        match = TOKEN.match(text, at)
        kind = match and kind_of(match, found)
        if kind is None or text.startswith('/*', at):
            raise Refused(where, line, f'`{text[at:at + 20].splitlines()[0]}` is no token')
        end = match.end()
        if kind == 'word' and match[0] in ('requires', 'ensures', 'ghost'):
            kind, end = special(where, text, at) or (kind, end)
        if kind not in ('space', 'comment'):
            shown = match[kind] if kind == 'name' else text[at:end]
            found.append(Token(kind, shown.rstrip(), line))
        line += text.count('\n', at, end)
        at = end
    return found
