"""Reads the Rattle files in crates/ for tools/erase.py: their tokens, without contracts. It stops,
with file and line, at what one of the languages could read differently."""
import os
import re
import sys
import unicodedata

TOP = os.path.dirname(os.path.dirname(os.path.realpath(__file__)))

TOKEN = re.compile(r"""
    (?P<space>[ \n]+)
  | (?P<doc>//[/!](?!/)[^\n]*)
  | (?P<comment>//[^\n]*)
  | (?P<text>b?"(?:\\(?:.|\n)|[^"\\])*")
  | (?P<char>b?'(?:\\(?:x[0-9a-fA-F]{2}|u\{[0-9a-fA-F]+\}|[nrt0\\'"])|[^'\\\n])')
  | (?P<word>'?[A-Za-z_]\w*)
  | (?P<number>(?:0x[0-9a-fA-F_]+|0b[01_]+|\d[\d_]*)(?:u8|u32|u64|usize)?\b)
  | (?P<sign>::|->|=>|\.\.=|\.\.|&&|\|\||[<>=!+\-*/%^&|]=|<<|[-+*/%^&|!<>=.,;:\#?@()\[\]{}])
""", re.X | re.A)
# The categories of Unicode that aren't letters, marks, numbers, signs or spaces.
NO_READER_SEES = {'Cc', 'Cf', 'Cn', 'Co', 'Cs', 'Zl', 'Zp'}
# What may not follow a token, or begin one: it would be another token in Rust or in Rattle.
NOT_BEFORE = {'word': r'["\'#]', 'number': r'\.(?!\.)(?:[^a-zA-Z_]|$)',
              'sign': r'(?<=-)-|(?<=/)\*'}
SILENT = {'space', 'comment', 'doc'}
# Texts, braces, and everything that could hide a brace from one of the readers.
ANTT = re.compile(r"""
    (?P<text>"[^"\\{}\n]*")
  | (?P<odd>--|\{-|-\}|\{!|!\}|//|/\*|\*/|["\\«»]|'(?=[{}"])|[^\S \n])
  | (?P<brace>[{}])
""", re.X)
GHOST_USE = re.compile(r'ghost\s+use\s+[\w.]+(?:\{[^{};]*\}|\s+as\s+\w+)?;')
GHOST = re.compile(r'ghost\s+\w+\s*[:=]\s*(?=\{)')
CLAUSE = re.compile(r'(?:requires|ensures)\s+(?:(\w+)\s+)?(?=\{)')
AFTER_CLAUSE = re.compile(r'(?:\s|//[^\n]*\n)*(?:[{;]|(?:requires|ensures)\b)')
OPEN, CLOSE = {'(', '[', '{'}, {')', ']', '}'}
# Words before a parenthesis that isn't a call, and before an operand.
NO_CALLEES = {'break', 'else', 'for', 'if', 'in', 'let', 'match', 'return', 'while'}
NO_OPERANDS = NO_CALLEES | {'as', 'mut'}


class Token:
    def __init__(self, kind, text, line):
        self.kind, self.text, self.line = kind, text, line
        self.owes = False  # for a `fn`: whether the function has a `requires`
        self.clauses = set()  # for a `fn`: the names of its clauses
        self.facts = []  # for a bracket: the facts about fields that are directly within it


class Source:
    """The text of a file, and its tokens without ghost items (rule 1) and clauses (rule 2)."""
    def __init__(self, path):
        with open(f'{TOP}/{path}', encoding='utf-8', newline='') as file:
            self.path, self.all, self.tokens = path, file.read(), []
        for at, char in enumerate(self.all):
            if char != '\n' and unicodedata.category(char) in NO_READER_SEES:
                self.stop(at, 'no rule for a carriage return, or a character that nobody sees')

    def stop(self, at, why):
        line = self.all.count('\n', 0, at) + 1
        end = self.all.find('\n', at)
        shown = self.all[at:end if end >= 0 else len(self.all)][:24].strip()
        sys.exit(f'tools/erase.py: {self.path}:{line}: {why}: {shown}')

    def read(self):
        at = 0
        while at < len(self.all):
            found = TOKEN.match(self.all, at)
            kind, text = (found.lastgroup, found.group()) if found else (None, '')
            if kind == 'word' and text in ('ghost', 'requires', 'ensures'):
                at = self.ghost(at) if text == 'ghost' else self.clause(at)
                continue
            if not found or re.compile(NOT_BEFORE.get(kind, '(?!)')).match(self.all, found.end()):
                if kind != 'number' or not self.tokens or self.tokens[-1].text != '.':
                    self.stop(at, 'no rule for what begins here')
            self.tokens.append(Token(kind, text, self.all.count('\n', 0, at) + 1))
            at = found.end()
        return self.tokens

    def block(self, at):
        """Returns the end of a block of antt. Each brace counts that isn't part of a text."""
        depth = 0
        for found in ANTT.finditer(self.all, at):
            if found.lastgroup == 'odd':
                self.stop(found.start(), 'no rule for this in a clause or ghost item')
            depth += (found.group() == '{') - (found.group() == '}')
            if depth == 0 and found.lastgroup == 'brace':
                return found.end()
        self.stop(at, 'a block that nothing closes')

    def ghost(self, at):
        """Drops a ghost item or field, with the comments before it, and returns its end."""
        tokens = self.tokens
        while tokens and (tokens[-1].kind in SILENT and not tokens[-1].text.startswith('//!')
                          or tokens[-1].text == 'pub'):
            tokens.pop()
        if not begins_item(tokens, len(tokens)):
            self.stop(at, 'no rule for a ghost item at this place')
        found = GHOST_USE.match(self.all, at)
        if found:
            for odd in ANTT.finditer(found.group()):
                if odd.lastgroup != 'brace':
                    self.stop(at + odd.start(), 'no rule for this in a clause or ghost item')
            return found.end()
        found = GHOST.match(self.all, at) or self.stop(at, 'no rule for a ghost item of this form')
        end = self.block(found.end())
        if self.all[end:end + 1] not in (';', ','):
            self.stop(at, 'no rule for a ghost item of this form')
        if ':' in found.group() or re.match(r'ghost\s+invariant\b', found.group()):
            around = self.around() or self.stop(at, 'no rule for a ghost item at this place')
            around.facts.append(self.all[found.end():end])
        return end + 1

    def around(self):
        """Returns the bracket around what comes next."""
        depth = 0
        for token in reversed(self.tokens):
            if token.kind == 'sign':
                depth += (token.text in CLOSE) - (token.text in OPEN)
            if depth < 0:
                return token
        return None

    def clause(self, at):
        """Drops a clause, with the comments before it, and returns its end."""
        while self.tokens and self.tokens[-1].kind in ('space', 'comment'):
            self.tokens.pop()
        found = CLAUSE.match(self.all, at)
        function = self.header()
        end = self.block(found.end()) if found and function else at
        if end == at or not AFTER_CLAUSE.match(self.all, end):
            self.stop(at, 'no rule for a clause of this form, or at this place')
        function.owes = function.owes or self.all.startswith('requires', at)
        function.clauses.add(found[1])
        return end

    def header(self):
        """Returns the `fn` whose head ends here, if it is one: nothing began outside of its
        brackets."""
        depth = 0
        for token in reversed(self.tokens):
            depth += (token.kind, token.text) in (('sign', ')'), ('sign', ']'))
            depth -= (token.kind, token.text) in (('sign', '('), ('sign', '['))
            if depth < 0 or depth == 0 and token.text in ('{', '}', ';'):
                return None
            if depth == 0 and (token.kind, token.text) == ('word', 'fn'):
                return token


def begins_item(tokens, at, public=False):
    """Returns whether an item or field may begin there: there is no attribute left before it, and
    no `pub` unless `public` is set."""
    seen = [t.text for t in tokens[:at] if t.kind not in SILENT]
    while public and seen and (seen[-1] == 'pub' or seen[-4:-2] + seen[-1:] == ['pub', '(', ')']):
        del seen[-1 if seen[-1] == 'pub' else -4:]
    if not seen or seen[-1] in ('{', '}', ';', ','):
        return True
    inner = len(seen) - seen[::-1].index('#') if '#' in seen else 0
    return seen[-1] == ']' and seen[inner] == '!'


class Code:
    """The tokens of a file, and a view of those that aren't comments."""
    def __init__(self, crate, module, path):
        self.crate, self.module, self.path = crate, module, path
        self.t = Source(path).read()

    def stop(self, i, why):
        shown = self.t[i].text.split('\n')[0][:40]
        sys.exit(f'tools/erase.py: {self.path}:{self.t[i].line}: {why}: {shown}')

    def text(self, i):
        return '' if i is None else self.t[i].text

    def at(self, i):
        """Returns the first token at `i` or after it that isn't a comment."""
        return next((k for k in range(i, len(self.t)) if self.t[k].kind not in SILENT), None)

    def after(self, i):
        return self.at(i + 1)

    def before(self, i):
        return next((k for k in range(i - 1, -1, -1) if self.t[k].kind not in SILENT), None)

    def close(self, i):
        """Returns the bracket that closes the one at `i`."""
        depth, angle = 0, self.text(i) == '<'
        for j in range(i, len(self.t)):
            if self.t[j].kind == 'sign':
                opens = self.text(j) in OPEN or angle and self.text(j) == '<'
                depth += opens - (self.text(j) in CLOSE or angle and self.text(j) == '>')
                if depth == 0:
                    return j
        self.stop(i, 'a bracket that nothing closes')

    def parts(self, opened, angles=False):
        """Returns what is between the commas in the brackets that open there, as pairs of
        indices."""
        parts, begin, i, end = [], opened + 1, opened + 1, self.close(opened)
        while i < end:
            text = self.text(i)
            if text == '|' and not self.ends_operand(self.before(i)):
                i = self.find_from(i + 1, '|')  # the parameters of a closure
            elif text in OPEN and self.t[i].kind == 'sign' or text == '<' and (
                    angles or self.text(self.before(i)) == '::'):
                i = self.close(i)
            elif text == ',':
                parts.append((begin, i))
                begin = i + 1
            i += 1
        return parts + [(begin, end)] if (self.at(begin) or end) < end else parts

    def ends_operand(self, i):
        """Returns whether an operand ends there, so that a sign after it is between two
        operands."""
        token = self.t[i]
        return (token.kind in ('number', 'text', 'char') or token.text in CLOSE
                or token.kind == 'word' and token.text not in NO_OPERANDS)

    def words(self, begin, end):
        return [t.text for t in self.t[begin:end] if t.kind not in SILENT]

    def source(self, begin, end):
        return ''.join(t.text for t in self.t[begin:end])

    def drop(self, begin, end):
        for token in self.t[begin:end]:
            token.kind, token.text = 'space', ''

    def drop_lines(self, begin, end):
        """Drops something that has lines of its own. The white space on one side of it stays."""
        around = [self.t[i] for i in (begin - 1, end)
                  if 0 <= i < len(self.t) and self.t[i].kind == 'space']
        self.drop(begin, end)
        if len(around) == 2:
            around[0].text, around[1].text = '', max((t.text for t in around), key=len)

    def drop_part(self, parts, k):
        """Drops one of the parts between commas, with a comma."""
        if k:
            self.drop(parts[k - 1][1], parts[k][1])
        elif len(parts) > 1:
            self.drop(self.at(parts[0][0]), self.at(parts[1][0]))
        else:
            self.drop(parts[k][0], parts[k][1] + (self.text(parts[k][1]) == ','))

    def find(self, *texts):
        """Yields the indices at which these tokens follow each other."""
        for i, token in enumerate(self.t):
            places = [i] if token.kind not in SILENT and token.text == texts[0] else []
            while places and len(places) < len(texts):
                place = self.after(places[-1])
                places = places + [place] if self.text(place) == texts[len(places)] else []
            if places:
                yield places

    def in_use(self, i):
        """Returns whether this is in an import: there was a `use` since the last `;`."""
        while i >= 0 and self.text(i) not in ('use', ';'):
            i -= 1
        return i >= 0 and self.text(i) == 'use'

    def uses(self):
        """Returns the imports: the index of `use`, and of the `;` after it."""
        return [(i, self.find_from(i, ';')) for (i,) in self.find('use')]

    def around(self, i):
        """Returns the bracket around the token at `i`, if there is one."""
        depth = 0
        for k in range(i - 1, -1, -1):
            if self.t[k].kind == 'sign':
                depth += (self.text(k) in CLOSE) - (self.text(k) in OPEN)
                if depth < 0:
                    return k
        return None

    def find_from(self, i, text):
        for k in range(i, len(self.t)):
            if self.text(k) == text:
                return k
        self.stop(i, f'nothing ends this by {text}')

    def item(self, i):
        """Returns where the item at `i` begins, with its `pub`, and where it ends."""
        end = i
        while self.text(end) not in (';', '{'):
            end = self.close(end) if self.text(end) in ('(', '[') else end + 1
        end = self.close(end) if self.text(end) == '{' else end
        before = self.before(i)
        return (before if self.text(before) == 'pub' else i), end + 1
