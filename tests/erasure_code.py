"""The tokens of a source in Rattle, with its brackets, functions and imports.
tests/erasure_refusals.py and the modules that it imports use it to reject sources."""
import collections
import re

from erasure_tokens import Refused, tokens_of

Function = collections.namedtuple('Function', 'name at parameters opening closing')


class Code:
    """The tokens of a source. A bracket has the index of its pair, and each token has the index of
    the bracket around it, or -1."""

    def __init__(self, where, text):
        self.where, self.name = where, re.sub('^crates/|src/', '', where)
        self.tokens = tokens_of(where, text)
        self.words = [{'literal': '"', 'inner': '///', 'doc': '///'}.get(token.kind, token.text)
                      for token in self.tokens]
        self.pair, self.outer = {}, []
        self.find_pairs()
        self.functions = [self.function(i) for i in self.all('fn') if self.at(i + 1) != '(']
        self.uses = [range(i, self.end(i, (';',))) for i in self.all('use')]

    def find_pairs(self):
        opened = [-1]
        for i, word in enumerate(self.words):
            if word in (')', ']', '}'):
                if self.at(opened[-1]) + word not in ('()', '[]', '{}'):
                    raise refusal(self, i, f'`{word}` closes nothing')
                self.pair[i] = opened.pop()
                self.pair[self.pair[i]] = i
            self.outer.append(opened[-1])
            if word in ('(', '[', '{'):
                opened.append(i)
        if len(opened) > 1:
            raise refusal(self, opened[-1], f'nothing closes `{self.at(opened[-1])}`')

    def all(self, *words):
        return [i for i, word in enumerate(self.words) if word in words]

    def at(self, i):
        return self.words[i] if 0 <= i < len(self.words) else ''

    def said(self, first, last):
        """Returns the text of tokens, separated by blanks."""
        return ' '.join(token.text for token in self.tokens[first:last])

    def end(self, i, stops):
        """Returns the index of the first of some signs from `i` on, outside of brackets."""
        while i < len(self.words) and self.words[i] not in stops:
            i = self.pair[i] + 1 if self.words[i] in ('(', '[', '{') else i + 1
        return i

    def function(self, i):
        opening, first = self.end(i, ('{', ';')), self.end(i, ('(',))
        return Function(self.at(i + 1), i, range(first, self.pair.get(first, first)), opening,
                        self.pair.get(opening, opening))

    def inside(self, i):
        """Returns the innermost function around a token, or None."""
        around = [found for found in self.functions if found.opening < i < found.closing]
        return around[-1] if around else None

    def head(self, i):
        """Returns the index of the first token after the last `;` or brace before a token."""
        while self.at(i - 1) not in ('', ';', '{', '}'):
            i -= 1
        return i


def of_and_for(head):
    """Returns the words of an `impl` before its `for`, and the first word after it, or '' without
    `for`."""
    at = next((i for i in range(len(head) - 1) if head[i] == 'for' and head[i + 1] != '<'), None)
    return (head, '') if at is None else (head[:at], head[at + 1])


def is_name(word):
    return re.fullmatch(r'[A-Za-z_]\w*', word) is not None


def in_use(code, i):
    return any(i in use for use in code.uses)


def is_method(code, found):
    return 'self' in code.words[found.parameters.start:found.parameters.stop][:6]


def head_of(code, found):
    """Returns the words before the brace around a function: `impl`, a trait, a type."""
    return code.words[code.head(code.outer[found.at]):max(code.outer[found.at], 0)]


def refusal(code, i, what):
    return Refused(code.where, code.tokens[i].line, what)


def is_listed(entry, entries):
    """Returns whether a tuple of texts is in a list, ignoring blanks."""
    return tuple(map(squeezed, entry)) in {tuple(map(squeezed, known)) for known in entries}


def squeezed(text):
    return re.sub(r'\s+', '', text)
