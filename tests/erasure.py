"""The rules of docs/ERASURE.md for tests/erased.py: which tokens a source in Rattle has in Rust. It
shares no code with tools/erase.py."""
import collections
import functools
import os
import re

from erasure_refusals import refusals
from erasure_tokens import Refused, line_of, tokens_of

NO_CALL = {'match ', 'return ', 'in ', 'let ', 'if ', 'while ', 'else '}


@functools.lru_cache(maxsize=None)
def coded(where, text):
    """Returns the tokens of a text as one line with a blank after each, and the texts of some of
    them.

    Each bracket has the number of its pair, as in `{3 "7 }3 `, so that patterns can find what is
    between two brackets. A literal, doc comment, clause or ghost item becomes the index of its
    text. An allocator that isn't between the brackets of a call becomes a word that no pattern has.
    """
    code, texts, pairs, numbers = [], [], [], {
        'inner': '//!', 'doc': '///', 'literal': '"',
        'ghost': 'ghost$', 'requires': 'requires$', 'ensures': 'ensures$'}
    for token in tokens_of(where, text):
        word = '@' * (token.kind == 'name') + token.text
        if word in ('(', '[', '{'):
            pairs.append(len(code))
            word += str(len(code))
        elif word in (')', ']', '}'):
            word += str(pairs.pop())
        elif word == 'alloc' and pairs and code[-1] != ':: ':
            before = code[pairs[-1] - 1]
            word += '' if re.match(r'[\w>!]', before) and before not in NO_CALL else ' outside'
        elif token.kind in numbers:
            texts.append(token.text)
            word = f'{numbers[token.kind]}{len(texts) - 1}'
        code.append(word + ' ')
    return ''.join(code), texts


def parts(code):
    """Returns the parts of code between commas, outside of brackets."""
    found, depth = [''], 0
    for word in code.split(' ')[:-1]:
        depth += (word[0] in '([{') - (word[0] in ')]}')
        found[-1] += (word + ' ') * (word != ',' or depth > 0)
        found += [''] * (word == ',' and depth == 0)
    return [part for part in found if part]


def pair(name, brackets='{}'):
    """Returns a pattern for two brackets and what is between them. Its group is their number."""
    return rf'\{brackets[0]}(?P<{name}>\d+) .*?\{brackets[1]}(?P={name}) '


PUBLIC = r'(?:pub (?:\(\d+ crate \)\d+ )?)?'
ITEM = rf'(?:///\d+ |# {pair("a", "[]")})*{PUBLIC}'
CLAUSE = r'(requires|ensures)\$\d+ '
ALLOCATOR = r'(?:alloc|rt \. alloc \(\d+ \)\d+|_?alloc : Global) '
ERROR = re.compile(r'# \[(\d+) error \(\d+ "(\d+) \)\d+ \]\1 ')
STD = re.compile(r'\bstd :: (?:\{\d+ [^}]*\b)?(?:io|env|fs|process|rt) '
                 r'|\b(?:HostRuntime|AllocGlobal|Print|Eprint) ')
USE = re.compile(r'\buse (?P<path>[^;{]*)(?:\{(?P<b>\d+) (?P<names>.*?)\}(?P=b) )?; ')
WRITE, FORMATTER = '(?:fmt :: )?Write ', r'\((?P<f>\d+) (?:(?!\)(?P=f) ).)*?\bFormatter <'
# Patterns in code and their replacements, each with the number of its rule.
FIRST = (
    (1, rf'{ITEM}ghost\$\d+ ', ''),
    (3, rf'{ITEM}impl (?:<[^{{]*?> )?Model for [^{{]*\{{(?P<m>\d+) \}}(?P=m) ', ''),
    (4, rf'# (?:! )?\[(\d+) tactic .*?\]\1 ', ''),
    (8, r'pub (?=trait [^{]*\{(\d+) .*?requires\$.*?\}\1 )', 'pub(crate) '))
LAST = (
    (5, r'(?<=: )Drop (?=\{)', 'Sized '),
    (5, r': Drop (?=[,>])|\+ Drop |Drop \+ ', ''),
    (7, rf'{ITEM}mod laws ; ', ''),
    (7, r'(?<=[;\d] )(?:\w+ :: )*laws :: \w+ \((\d+) .*?\)\1 ; ', ''),
    (12, rf'\b((?:Vec|String) :: )(with_capacity|from_slice|from_elem|from_str) '
         rf'(?=\(\d+ {ALLOCATOR})', r'\1fallible_\2 '),
    (12, rf'(?<=\. )(to_string) (?=\(\d+ {ALLOCATOR}\))', r'fallible_\1 '),
    (12, r'(?<=\. )clone (?=\(\d+ \))', 'fallible_clone '),
    (13, r'\b(vec|format) (?=! [\[(]\d+ in )', r'crate::rattle_std::fallible_\1 '),
    (13, r'\b(e?print|e?println) (?=! \(\d+ \w+ ; )', r'crate::rattle_std::fallible_\1 '),
    (6, rf'(?<=! )([\[(]\d+ )in {ALLOCATOR}; ', r'\1'),
    (6, rf'([\w>] \(\d+ ){ALLOCATOR}(?:, |(?=\)))', r'\1'),
    (6, rf', {ALLOCATOR}(?=[,)])', ''),
    (15, rf'(fn \w+ <) \w+ : {WRITE},(?= [^(]*> {FORMATTER})', r'\1'),
    (15, rf'(fn \w+ )< \w+ : {WRITE}> (?={FORMATTER})', r'\1'),
    (0, r'\b(Formatter <) \w+ (?=>)', r"\1 '_ "),
    (16, r'\bstd :: alloc (?=:: )', 'crate::rattle_std '))


class Source:
    """A file in Rattle, and how it becomes Rust."""

    def __init__(self, world, crate, path):
        self.world, self.crate, self.path = world, crate, path
        self.code, self.texts = world.codes[crate, path]
        self.counts = collections.Counter()

    def refused(self, text, what):
        source = self.world.files[self.crate, self.path]
        return Refused(f'crates/{self.crate}/src/{self.path}', line_of(source, source.find(text)),
                       f'`{text}`, {what}')

    def put(self, rule, pattern, instead):
        self.code, times = re.subn(pattern, instead, self.code)
        self.counts[rule] += times

    def clauses(self, match):
        """Returns a function without its clauses, and not public if it has a `requires`."""
        found = [clause[1] for clause in re.finditer(CLAUSE, match['clauses'])]
        less = match['public'] == 'pub ' and 'requires' in found
        self.counts.update({2: len(found), 8: less})
        return ('pub(crate) ' if less else match['public']) + match['signature']

    def unlisted(self, block, name):
        """Returns the block of a type in which a function isn't public: rust/interface.txt
        lists it."""
        made, times = re.subn(rf'\bpub (?=(?:const )?fn {name} )', 'pub(crate) ', block)
        self.counts[8] += times
        return made

    def imports(self, match):
        """Returns an import without the names that Rust doesn't have, or nothing if none is
        left."""
        names = parts(match['names']) if match['names'] is not None else ['']
        kept = []
        for name in names:
            path = (match['path'] + name).replace(' ', '')
            rule = {'std::alloc::Global': 6, 'std::marker::Model': 3, 'thiserror::Error': 10}.get(
                path, 7 if 'laws' in path.split('::') else 0)
            self.counts[rule] += 1
            kept += [name] * (rule == 0)
        if len(kept) in (0, len(names)):
            return match[0] if kept else ''
        made = kept[0] if len(kept) == 1 else f'{{ {", ".join(kept)}}} '
        return f'{match["item"]}use {match["path"]}{made}; '

    def derives(self, match):
        """Returns the attribute without `Drop` and `Error`, or nothing if none is left."""
        kept = [name for name in parts(match[2]) if name not in ('Drop ', 'Error ')]
        self.counts[5] += 'Drop ' in match[2]
        return f'#[derive({", ".join(kept)})] ' if kept else ''

    def item(self, match):
        """Returns a type that derives something, with its implementations of `Clone` and
        `Error`."""
        derived, name, clones, shows = match['derived'].split(), match['name'], '', ''
        is_cloned = 'Clone' in derived and 'Copy' not in derived
        if not is_cloned and 'Error' not in derived:
            return match[0]
        whole = ERROR.search(match['before'])
        for case in parts(match['body']) if match['kind'] == 'enum' else [match['body']]:
            message = ERROR.search(case) or whole
            path, bracket, inside = name, '{', re.sub(r'///\d+ ', '', ERROR.sub('', case))
            if match['kind'] == 'enum':
                variant = re.match(r'(\w+) (?:([{(])\d+ (.*)[})]\d+ )?', inside)
                path, bracket, inside = f'{name}::{variant[1]}', variant[2], variant[3]
            fields = [(f'_{i} {part}' if bracket == '(' else re.sub(r'^.*?(\w+) :', r'\1', part))
                      .rstrip().split(' ', 1) for i, part in enumerate(parts(inside or ''))]
            clones += self.cloned(path, bracket, fields)
            shows += self.shown(path, bracket, fields, message) if 'Error' in derived else ''
        made = f'impl crate::rattle_std::%s for {name} {{ fn %s {{ match self {{ %s }} }} }} '
        item = ERROR.sub('', match[0])
        if is_cloned:
            self.counts[11] += 1
            item += made % ('FallibleClone', 'fallible_clone(&self) -> Result<Self, '
                            'crate::rattle_std::AllocError>', clones)
        if 'Error' in derived:
            self.counts[10] += 1
            item += made % ('fmt::Display', 'fmt(&self, f: &mut crate::rattle_std::fmt::Formatter'
                            "<'_>) -> crate::rattle_std::fmt::Result", shows)
            item += f'#[cfg(feature = "std")] impl crate::rattle_std::Error for {name} {{}} '
        return item

    def cloned(self, path, bracket, fields):
        plain = re.compile(r'[iu](8|16|32|64|128|size)|bool|char|& .*')
        names, copies = [name for name, _ in fields], []
        for name, kind in fields:
            is_copy = kind in self.world.copies or plain.fullmatch(kind)
            copies.append(f'{name}: ' * (bracket == '{')
                          + (f'*{name}' if is_copy else f'{name}.fallible_clone()?'))
        return f'{spelled(path, bracket, names)} => Ok({spelled(path, bracket, copies)}), '

    def shown(self, path, bracket, fields, message):
        given = self.texts[int(message[2])]
        text = re.sub(r'{(\d)', r'{_\1', given)
        for name in set(re.findall(r'{(\w+)', text)) - {name for name, _ in fields}:
            raise self.refused(given, f'of which `{name}` is no field')
        names = [name if re.search(rf'{{{name}[:}}]', text) else
                 f'{name}: _' if bracket == '{' else '_' for name, _ in fields]
        self.texts = self.texts + [text]
        return f'{spelled(path, bracket, names)} => write!(f, "{len(self.texts) - 1} ), '

    def calls(self, rule, pattern, count, instead):
        """Puts another name into calls that have `count` arguments besides an allocator."""
        def other(match):
            given = parts(match['given'])
            given = given if rule == 12 else without_allocator(given)
            self.counts[rule] += len(given) == count
            return match.expand(instead) + ' ' if len(given) == count else match[0]
        self.code = re.sub(rf'(?<=\. ){pattern} (?=\((?P<p>\d+) (?P<given>.*?)\)(?P=p) )',
                           other, self.code)

    def beginnings(self):
        def other(match):
            made = {'crate': f'crate::proved::{self.crate}', 'std': 'crate::rattle_std',
                    'str': 'crate::rattle_std::str'}.get(match[0], match[0])
            made = f'crate::proved::{made}' if made in self.world.names else made
            self.counts[16] += made != match[0]
            return made
        self.code = re.sub(r'(?<!:: )(?<!\. )\b\w+(?= :: )', other, self.code)
        self.texts = [re.sub(r'(?<=\]\()\w+(?=::)', other, text) if text.startswith('//') else text
                      for text in self.texts]

    def expected(self):
        """Returns the text of the generated file, up to its layout."""
        def sub(pattern, instead):
            self.code = re.sub(pattern, instead, self.code)
        for step in FIRST:
            self.put(*step)
        sub(rf'(?P<public>{PUBLIC})(?P<signature>(?:const )?fn \w+ (?:{pair("s", "[]")}|'
            rf'[^{{;\[])*?)(?P<clauses>(?:{CLAUSE})+)(?=\{{|;)', self.clauses)
        sub(rf'(?P<item>{ITEM}){USE.pattern}', self.imports)
        sub(rf'(?P<before># \[(?P<d>\d+) derive \(\d+ (?P<derived>[^)]*)\)\d+ \](?P=d) {ITEM}'
            r'(?P<kind>struct|enum) (?P<name>\w+) )\{(?P<b>\d+) (?P<body>.*?)\}(?P=b) ', self.item)
        sub(r'# \[(\d+) derive \(\d+ ([^)]*)\)\d+ \]\1 ', self.derives)
        left = re.search(r'(?:ghost|requires|ensures)\$(\d+)', self.code)
        if left:
            raise self.refused(self.texts[int(left[1])], 'that is not at the head of a function')
        self.put(9, rf'@(\w+) ({ITEM}fn )\w+ ', r'\2\1 ')
        for (owner, old), (new, count) in self.world.renames.items():
            self.put(9, rf'\b{owner} :: {old}\b', f'{owner} :: {new}')
            self.calls(9, old, count, new)
        for owner, *names in self.world.listed:
            for name in names:
                self.code = re.sub(rf'\bimpl (?:<[^{{]*?> )?{owner} (?:<[^{{]*?> )?{pair("b")}',
                                   lambda match, name=name: self.unlisted(match[0], name), self.code)
            if not names:
                crate, kind, traits = re.fullmatch(r'(?:(\w+)/)?(\w+)(?:: (.*))?', owner).groups()
                given = f'derive({traits})' if traits else 'non_exhaustive'
                if crate in (None, self.crate):
                    self.put(8, rf'\bpub (?=(?:struct|enum) {kind} )', f'#[{given}] pub ')
        self.calls(12, r'(push|push_str|extend_from_slice|reserve_exact)', 1, r'fallible_\1')
        for step in LAST:
            self.put(*step)
        self.beginnings()
        main, std = self.path == 'main.rt', (self.crate, self.path) in self.world.std
        self.put(17, 'fn (?=main )' * main or '$^', 'pub fn ')
        self.put(18, r'\A(//!\d+ )*', r'\g<0>' + '#![cfg(feature = "std")] ' * std
                 + 'use crate::rattle_std::prelude::*; ')
        self.counts[14] += std
        sub(r'([(\[{)\]}])\d+ ', r'\1 ')
        sub(r'("|//[/!])(\d+) ', lambda match: self.texts[int(match[2])] + '\n')
        return self.code


def spelled(path, bracket, names):
    return path + {None: '%s', '(': '(%s)', '{': ' { %s }'}[bracket] % ', '.join(names)


def without_allocator(given):
    return [part for part in given if not re.fullmatch(ALLOCATOR, part)]


class World:
    """The sources of all crates in rust/src/proved, and the facts about all of them that rules
    need."""

    def __init__(self, top):
        self.names = re.findall(r'^(\w+)\b.*:', read(f'{top}/crates.txt'), re.M)
        self.generated = below(f'{top}/rust/src/proved', '.rs')
        self.crates = sorted({path.split('/')[0] for path in self.generated if '/' in path})
        self.files = {(crate, path): read(f'{top}/crates/{crate}/src/{path}')
                      for crate in self.crates
                      for path in below(f'{top}/crates/{crate}/src', '.rt')}
        self.refused = refusals(self.files, tuple(self.names))
        if self.refused:
            return
        self.codes = {(crate, path): coded(f'crates/{crate}/src/{path}', text)
                      for (crate, path), text in self.files.items()}
        derived = [found for code, _ in self.codes.values() for found in re.findall(
            r'# \[\d+ derive \(\d+ ([^)]*)\)\d+ \]\d+ (?:# \[\d+ \w+ \]\d+ )*'
            rf'{PUBLIC}(?:struct|enum) (\w+)', code)]
        self.copies = ({kind for names, kind in derived if 'Copy' in names}
                       - {kind for names, kind in derived if 'Copy' not in names})
        self.std = {at for at, (code, _) in self.codes.items() if STD.search(code)}
        imported = {at: set(self.imported(*at)) for at in self.files}
        while more := {at for at in self.files if imported[at] & self.std} - self.std:
            self.std |= more
        lists = f'{top}/rust/interface.txt'
        lines = read(lists).splitlines() if os.path.exists(lists) else []
        self.listed = [line.split('::') for line in lines if line and line[0] != '#']
        self.renames = {}
        for code, _ in self.codes.values():
            self.renames.update(renames(code))

    def imported(self, crate, path):
        """Yields the files that a file imports from: for each import the last file that its path
        names."""
        folder = [] if path in ('lib.rt', 'main.rt') else path[:-3].split('/')
        for use in USE.finditer(self.codes[crate, path][0]):
            for name in parts(use['names']) if use['names'] else ['']:
                first, *words = re.findall(r'\w+', use['path'] + name)
                home = crate if first == 'crate' else first
                if home not in self.names:
                    around = folder[:-1] if first == 'super' else [*folder, first]
                    home, words = crate, around + words
                paths = ['/'.join(words[:i]) + '.rt' for i in range(len(words), 0, -1)]
                yield next(((home, at) for at in paths if (home, at) in self.files),
                           (home, 'lib.rt') if first in ('crate', home) else None)


def renames(code):
    """Returns the other names of methods, by type and name, each with the number of arguments after
    `self`."""
    found = {}
    for match in re.finditer(rf'@(\w+) {ITEM}fn (?P<old>\w+) \((?P<p>\d+) (?P<given>.*?)\)(?P=p) ',
                             code):
        owner = re.findall(r'\bimpl (?:<[^{]*?> )?(\w+) [^{]*\{', code[:match.start()])
        given = without_allocator(parts(match['given']))
        dotted = 'self' in given[0].split() if given else False
        found[owner[-1], match['old']] = (match[1], len(given) - 1 if dotted else None)
    return found


def read(path):
    with open(path, encoding='utf-8', newline='') as file:
        return file.read()


def below(folder, ending):
    return sorted(os.path.relpath(os.path.join(at, name), folder)
                  for at, _, names in os.walk(folder) for name in names if name.endswith(ending))
