#!/usr/bin/env python3
"""Writes rust/src/proved, or another directory, from crates/*/src: the plain Rust of the proved
Rattle, without its contracts. docs/ERASURE.md has the rules; `Rule N` below is a rule of its table.
Each crate becomes a module of one Rust crate, and rust/src/rattle_std.rs stands for Rattle's std.
At a word that no rule knows it stops, prints file and line, and writes nothing.
tools/rattle_source.py reads the sources, and tools/erase_stops.py has most of the checks that stop
it."""
import glob
import os
import re
import shutil
import sys

sys.dont_write_bytecode = True
from rattle_source import NO_CALLEES, SILENT, TOP, Code, begins_item  # noqa: E402
from erase_stops import (DERIVES, MACROS, PREFIX, SAME_ATTRIBUTES, around,  # noqa: E402
                         check, check_message, check_use, crate_of_laws, does_nothing, stops,
                         tidied)

# Crates that have only laws.
NOT_ERASED = {'result_laws'}

# Rule 12. Methods and functions of std that return a `Result` in Rattle because they allocate, by
# the number of arguments without the allocator. They get the prefix, and are in rattle_std.
METHODS = {('push', 1), ('push_str', 1), ('extend_from_slice', 1), ('reserve_exact', 1),
           ('clone', 0)}
# These only if an allocator is passed; without one it is another method.
METHODS_IN = {('to_string', 0)}
FUNCTIONS = {('Vec', 'with_capacity'), ('Vec', 'from_slice'), ('Vec', 'from_elem'),
             ('String', 'with_capacity'), ('String', 'from_str')}
# Rule 14. Names that are in std but not in core.
OF_STD = (r'\bstd :: (\{ [^}]*)?\b(io|env|fs|process|rt)\b'
          r'|\b(HostRuntime|AllocGlobal|Eprint|Print)\b')

ALLOCATORS = [['alloc'], ['rt', '.', 'alloc', '(', ')']]


# ---------------------------------------------------------------- attributes
def skip_attributes(code, i):
    """Returns the index of an item or variant after its attributes and `pub`, and its
    `#[error(..)]`."""
    message = None
    while code.text(code.at(i)) in ('#', 'pub'):
        i = code.at(i)
        opened = code.after(i)
        if code.text(i) == 'pub':
            i = code.close(opened) + 1 if code.text(opened) == '(' else opened
            continue
        end, name = code.close(opened), code.after(opened)
        if code.text(name) == 'error':
            message = code.source(code.after(name) + 1, code.close(code.after(name)))
            code.drop(i, code.at(end + 1))
        i = end + 1
    return code.at(i), message


def cases(code, i, message):
    """Returns each case of a struct or enum: path, names and types of fields, whether these are
    named, and message."""
    name, body = code.text(code.after(i)), code.after(code.after(i))
    if code.text(body) not in ('{', '('):
        code.stop(body, 'a derive on a generic type')
    if code.text(i) == 'struct':
        return [(name, *fields(code, body), message)]
    found = [skip_attributes(code, begin) for begin, _ in code.parts(body, angles=True)]
    return [(f'{name}::{code.text(at)}', *fields(code, code.after(at)), of_case)
            for at, of_case in found]


def fields(code, opened):
    if code.text(opened) not in ('{', '('):
        return [], None
    parts = code.parts(opened, angles=True)
    if code.text(opened) == '(':
        return [(f'_{k}', code.words(*part)) for k, part in enumerate(parts)], False
    begins = [skip_attributes(code, part[0])[0] for part in parts]
    types = [code.words(code.after(b) + 1, part[1]) for b, part in zip(begins, parts)]
    return [(code.text(b), kind) for b, kind in zip(begins, types)], True


def pattern(path, names, named):
    inner = ', '.join(names)
    return path if named is None else f'{path} {{ {inner} }}' if named else f'{path}({inner})'


def displayed(code, i, name, found):
    """Rule 10: returns what `derive(Error)` stands for: a message for each case."""
    arms = ''
    for path, members, named, message in found:
        check_message(code, i, [member for member, _ in members], message)
        message = re.sub(r'\{(\d)', r'{_\1', message)
        shown = [n if re.search(r'\{' + n + r'\b', message) else f'{n}: _' if named else '_'
                 for n, _ in members]
        arms += f'            {pattern(path, shown, named)} => write!(f, {message}),\n'
    return (f'\n\nimpl crate::rattle_std::fmt::Display for {name} {{\n'
            "    fn fmt(&self, f: &mut crate::rattle_std::fmt::Formatter<'_>)"
            ' -> crate::rattle_std::fmt::Result {\n'
            f'        match self {{\n{arms}        }}\n    }}\n}}\n\n'
            f'#[cfg(feature = "std")]\nimpl crate::rattle_std::Error for {name} {{}}')


def cloned(name, found, copied):
    """Rule 11: returns a clone, field by field, that returns an error if an allocation fails."""
    arms = ''
    for path, members, named, _ in found:
        made = [f'*{n}' if kind[0] == '&' and 'mut' not in kind or kind[0] in copied and not kind[1:]
                else f'{n}.{PREFIX}clone()?' for n, kind in members]
        made = [f'{n}: {m}' if named else m for (n, _), m in zip(members, made)]
        head = pattern(path, [n for n, _ in members], named)
        arms += f'            {head} => Ok({pattern(path, made, named)}),\n'
    return (f'\n\nimpl crate::rattle_std::FallibleClone for {name} {{\n'
            f'    fn {PREFIX}clone(&self) -> Result<Self, crate::rattle_std::AllocError> {{\n'
            f'        match self {{\n{arms}        }}\n    }}\n}}')


def attributes(code, copied):
    """Rule 4 removes `tactic`. Rules 5, 10 and 11 replace the derives that Rust doesn't have."""
    for i, token in enumerate(code.t):
        if (token.kind, token.text) != ('sign', '#'):
            continue
        opened = code.after(i)
        opened = code.after(opened) if code.text(opened) == '!' else opened
        if code.text(opened) != '[':
            code.stop(i, 'no rule for this sign')
        end, name = code.close(opened) + 1, code.after(opened)
        if code.text(name) == 'tactic':
            code.drop(i, code.at(end))
        elif code.text(name) == 'derive':
            begin = code.after(name)
            names = [code.source(*part).strip() for part in code.parts(begin)]
            if not set(names) <= DERIVES:
                code.stop(name, 'no rule for one of these derives')
            write_derives(code, end, set(names), copied)
            kept = [n for n in names if n not in ('Drop', 'Error')]
            code.drop(begin + 1, code.close(begin))
            code.t[begin].text = '(' + ', '.join(kept)
            if not kept:
                code.drop(i, code.at(end))
        elif code.text(name) not in SAME_ATTRIBUTES | {'error'}:
            code.stop(name, 'no rule for this attribute')


def write_derives(code, i, names, copied):
    """Appends the implementations of `Error` and `Clone` to the item at `i`."""
    if not ('Error' in names or ('Clone' in names and 'Copy' not in names)):
        return
    at, message = skip_attributes(code, i)
    name, found = code.text(code.after(at)), cases(code, at, message)
    last = code.t[code.item(at)[1] - 1]
    last.text += displayed(code, at, name, found) if 'Error' in names else ''
    last.text += cloned(name, found, copied) if 'Clone' in names and 'Copy' not in names else ''


def copied_types(code):
    """Yields the types that derive `Copy`."""
    for places in code.find('derive', '('):
        if ['Copy'] in [code.words(*part) for part in code.parts(places[1])]:
            at, _ = skip_attributes(code, code.after(code.close(places[1])) + 1)
            yield code.text(code.after(at))


# ---------------------------------------------------------------- items
def models(code):
    """Rule 3: removes `impl Model`."""
    for (i,) in code.find('impl'):
        j = code.after(i)
        j = code.after(code.close(j)) if code.text(j) == '<' else j
        if code.text(j) == 'Model':
            begin, end = code.item(i)
            if code.before(end - 1) != code.find_from(i, '{') or not begins_item(code.t, begin):
                code.stop(i, 'no rule for a model with code, or at this place')
            code.drop_lines(begin, end)


def uses(code, crates):
    """Rules 3, 6, 7 and 10: removes names from imports that have no meaning in Rust."""
    gone = {'Model', 'Global', 'laws'}
    for (i,) in code.find('use'):
        end = code.find_from(i, ';')
        words = code.words(i, end)
        check_use(code, i, words, {'std', 'crate', 'super', 'thiserror', *crates})
        opened = next((k for k in range(i, end) if code.text(k) == '{'), None)
        parts = code.parts(opened) if opened else []
        kept = [code.source(*p).strip() for p in parts if code.words(*p) not in [[g] for g in gone]]
        if words[1] == 'thiserror' or words[-1] in gone or parts and not kept:
            if not begins_item(code.t, i):
                code.stop(i, 'no rule for an import of this, with pub or an attribute')
            code.drop_lines(i, end + 1)
        elif len(kept) < len(parts):
            code.drop(opened + 1, code.close(opened))
            one = len(kept) == 1 and kept[0] != 'self'
            code.t[code.close(opened)].text = '' if one else '}'
            code.t[opened].text = ('' if one else '{') + ', '.join(kept)


def laws(code, files):
    """Rule 7: removes the module `laws` and the calls of its functions, which do nothing."""
    for places in code.find('mod', 'laws', ';'):
        if code.module != 'lib' or code.crate not in files:
            code.stop(places[0], 'laws that are not in the file laws.rt of a crate')
        code.drop_lines(*code.item(places[0]))
    for places in code.find('laws', '::'):
        name = code.after(places[1])
        opened = code.after(name)
        begin = places[0]
        while code.text(code.before(begin)) == '::':
            begin = code.before(code.before(begin))
        end = code.after(code.close(opened)) if code.text(opened) == '(' else None
        if code.text(end) != ';' or code.text(code.before(begin)) not in ('{', ';', '}'):
            code.stop(places[0], 'a law that is no call of its own')
        if code.parts(opened):
            code.stop(places[0], 'an argument of a law')
        crate = crate_of_laws(code, begin, places[0])
        if crate not in files or not does_nothing(files[crate], code.text(name)):
            code.stop(name, 'a function that is not known to be a law')
        code.drop_lines(begin, end + 1)


def listed(top):
    """Returns what rust/interface.txt lists, with the attribute of each type: functions as pairs of
    a type and a name, and types as pairs without a name."""
    path = f'{top}/rust/interface.txt'
    lines = open(path).read().splitlines() if os.path.exists(path) else []
    found = {}
    for line in (line for line in lines if line and not line.startswith('#')):
        name, _, traits = line.partition(': ')
        found[(*name.split('::'), '')[:2]] = (
            f'#[derive({traits})]' if traits else '#[non_exhaustive]')
    return found


def type_with(code, i):
    """Returns the type whose functions are in the block with the function at `i`, or None: the
    block of `impl TYPE`, but not that of a trait."""
    block = code.around(i)
    for (at,) in code.find('impl'):
        name = code.after(at)
        name = code.after(code.close(name)) if code.text(name) == '<' else name
        end = code.after(name)
        end = code.after(code.close(end)) if code.text(end) == '<' else end
        if block is not None and end == block:
            return code.text(name)
    return None


def visible(code, private, seen):
    """Rule 8: makes a function with a `requires`, and one that rust/interface.txt lists,
    `pub(crate)`, and gives a type that it lists its attribute. Rule 17: makes `main` callable from
    another file."""
    for kind in ('struct', 'enum'):
        for pub, _, name in ((*found, code.after(found[1])) for found in code.find('pub', kind)):
            for key in ((code.text(name), ''), (f'{code.crate}/{code.text(name)}', '')):
                if key in seen:
                    code.stop(name, 'no rule for the name of two types, which is listed')
                if key in private:
                    seen.add(key)
                    code.t[pub].text = f'{private[key]}\n{code.t[pub].text}'
    for (i,) in code.find('fn'):
        before = code.before(i)
        if code.text(before) == 'const':
            before = code.before(before)
        name = (type_with(code, i), code.text(code.after(i)))
        if name in private and code.text(before) == 'pub':
            seen.add(name)
        if (code.t[i].owes or name in private) and code.text(before) == 'pub':
            code.t[before].text = 'pub(crate)'
        if code.text(code.after(i)) == 'main':
            code.t[i].text = 'pub fn'
    for places in code.find('pub', 'trait'):
        if any(token.owes for token in code.t[slice(*code.item(places[1]))]):
            code.t[places[0]].text = 'pub(crate)'


def is_method(code, name):
    """Returns whether the function of this name has a `self`."""
    opened = code.after(name)
    opened = code.after(code.close(opened)) if code.text(opened) == '<' else opened
    parts = code.parts(opened)
    return bool(parts) and 'self' in code.words(*parts[0])


def names_for_rust(code, codes):
    """Rule 9: yields the names that functions have in Rust, by type (empty for methods) and
    name."""
    for i, token in enumerate(code.t):
        if not token.text.startswith('// In Rust:'):
            continue
        found = re.fullmatch(r'// In Rust: (\w+)\.', token.text) or code.stop(i, 'no rule for this')
        fn = code.find_from(i, 'fn')
        name, new, block = code.after(fn), found[1], code.around(fn)
        owner = max((p[0] for p in code.find('impl') if p[0] < i), default=0)
        if set(code.words(i, fn)) & {';', '{', '}'} or block != code.find_from(owner, '{'):
            code.stop(i, 'no rule for this name at another place than a function of a type')
        method, of = is_method(code, name), code.text(code.after(owner))
        if new != f'try_{code.text(name)}' or any(
                method or of in around(each, place[0])
                for each in codes for place in each.find('fn', new)):
            code.stop(i, 'no rule for this name, which another function has or may have')
        yield ('' if method else of, code.text(name)), new
        code.t[name].text = new


# ---------------------------------------------------------------- signatures and calls
def bounds(code):
    """Rule 5: removes the bound `Drop`, which every type in Rust satisfies."""
    for colon, drop in code.find(':', 'Drop'):
        if code.text(code.before(code.before(colon))) == 'trait':
            code.t[drop].text = 'Sized'  # every type that is `Drop` is also `Sized`
        elif code.text(code.after(drop)) != '+':
            code.drop(colon, drop + 1)
    for plus, drop in code.find('+', 'Drop'):
        code.drop(plus, drop + 1)


def formatters(code):
    """Rule 15: replaces `Formatter<W>` with `W: fmt::Write` by Rust's `Formatter<'_>`."""
    for places in code.find('Formatter', '<', 'W', '>'):
        code.t[places[2]].text = "'_"
        opened = code.after(code.after(max(p[0] for p in code.find('fn') if p[0] < places[0])))
        parts = code.parts(opened, angles=True) if code.text(opened) == '<' else []
        for k, part in enumerate(parts):
            if code.words(*part) == ['W', ':', 'fmt', '::', 'Write']:
                if len(parts) == 1:
                    code.drop(opened, code.close(opened) + 1)
                else:
                    code.drop_part(parts, k)


def calls(code, names, defined, methods):
    """Rule 6: removes allocators, as parameters and arguments. Rules 9 and 12: renames calls."""
    for i, token in enumerate(code.t):
        callee = code.t[code.before(i) or 0]
        if (token.kind, token.text) != ('sign', '(') or callee.text in NO_CALLEES or (
                callee.kind != 'word' and callee.text != '>'):
            continue
        parts = code.parts(i)
        words = [code.words(*part) for part in parts]
        passed = [k for k, w in enumerate(words) if w in ALLOCATORS or w[1:] == [':', 'Global']]
        if any(w[1:] == [':', 'Global'] and w[0] not in ('alloc', '_alloc') for w in words):
            code.stop(i, 'no rule for an allocator of another name')
        for k in passed:
            code.drop_part(parts, k)
        count, name = len(parts) - len(passed), code.before(i)
        dot = code.before(name) if name else None
        text, how = code.text(name), code.text(dot)
        owner = code.text(code.before(dot)) if how == '::' else ''
        if how == '.' and (text, count) in (METHODS_IN if passed else METHODS):
            if text in methods - {'push'}:  # `fallible_push` wouldn't compile for another type
                code.stop(name, 'no rule for the name of two functions, of which one is renamed')
            code.t[name].text = PREFIX + text
        elif how == '::' and (owner, text) in FUNCTIONS:
            code.t[name].text = PREFIX + text
        elif how in ('.', '::') and (owner, text) in names:
            if not owner and text in defined:
                code.stop(name, 'no rule for the name of two functions, of which one is renamed')
            code.t[name].text = names[owner, text]
        elif how == '::' and not owner.islower() and text in {known for _, known in names}:
            code.stop(name, 'no rule for this call but by the name of its type')


def macros(code):
    """Rule 13: uses the macros of rattle_std for those that allocate or print."""
    for name in MACROS:
        for places in code.find(name, '!'):
            code.t[places[0]].text = f'crate::rattle_std::{PREFIX}{name}'
            first = code.after(code.after(places[1]))
            if code.text(first) != 'in' and (
                    name in ('vec', 'format') or code.text(code.after(first)) != ';'):
                code.stop(first, 'no rule for this macro without an allocator or the runtime')
            if code.text(first) == 'in':
                end = code.find_from(first, ';')
                if code.words(first + 1, end) not in ALLOCATORS:
                    code.stop(first, 'no rule for an allocator of another form')
                code.drop(first, code.at(end + 1))


def roots(code, crates):
    """Rule 16: changes where paths begin. A crate becomes a module, and `std` becomes
    rattle_std."""
    for i, token in enumerate(code.t):
        if token.kind == 'doc':
            token.text = token.text.replace('](crate::', f'](crate::proved::{code.crate}::')
        if token.kind != 'word' or code.text(code.after(i)) != '::':
            continue
        if code.text(code.before(i)) in ('::', '.'):
            continue
        if token.text in crates or token.text == 'crate':
            token.text = f'crate::proved::{token.text if token.text in crates else code.crate}'
        elif token.text in ('std', 'str'):
            token.text = 'crate::rattle_std' + '::str' * (token.text == 'str')
            second = code.after(code.after(i))
            if code.text(second) == 'alloc':
                code.drop(second, code.after(second) + 1)


def needs_std(code):
    """Returns whether a file names something that is in std but not in core."""
    return re.search(OF_STD, ' '.join(code.words(0, len(code.t)))) is not None


def imports(code):
    """Yields the files that each `use` may begin with, as (crate, module)."""
    for (i,) in code.find('use'):
        first, *rest = [w for w in code.words(i + 1, code.find_from(i, ';')) if w.isidentifier()]
        inner = code.module.split('/')[:-1] if first == 'super' else []
        crate = code.crate if first in ('crate', 'super') else first
        for names in ['lib'], (inner + rest)[:1], (inner + rest)[:2], [first]:
            if names != ['lib'] or crate != code.crate:
                yield code.crate if names == [first] else crate, '/'.join(names)


def of_std(codes):
    """Rule 14: returns the files, as (crate, module), that name std or import from a file that
    does."""
    needing = {(code.crate, code.module) for code in codes if needs_std(code)}
    while True:
        more = {(code.crate, code.module) for code in codes if needing & set(imports(code))}
        if more <= needing:
            return needing
        needing |= more


def layout(code, of_std):
    """Rule 18: returns the text of a file with its first lines."""
    text = ''.join(token.text for token in code.t
                   if not re.match(r'// (Determined by|In Rust): ', token.text))
    text = tidied(text)
    head = re.match(r'(?:\s*//![^\n]*\n)*', text).end()
    first = f'// Made by tools/erase.py from {code.path}; not edited by hand.\n'
    return (first + text[:head].lstrip('\n') + '#![cfg(feature = "std")]\n' * of_std
            + '\nuse crate::rattle_std::prelude::*;\n' + text[head:].strip('\n') + '\n')


def root_of(crates):
    """Returns the module of all crates. It has programs only for tests."""
    text = ('// Made by tools/erase.py from crates.txt; not edited by hand.\n'
            '//! What is proved, as plain Rust: each crate of `crates/` without its contracts.\n'
            '#![allow(clippy::complexity, clippy::style, missing_docs, private_bounds, unused)]\n'
            '#![allow(clippy::large_const_arrays, clippy::large_enum_variant)]\n'
            '#![allow(clippy::manual_unwrap_or_default)]\n\n')
    programs = {name for name in crates if os.path.exists(f'{TOP}/crates/{name}/src/main.rt')}
    return text + ''.join('#[cfg(test)]\n' * (name in programs) + f'pub mod {name};\n'
                          for name in crates)


def files(name):
    """Yields the files of a crate except its laws."""
    root = f'crates/{name}/src'
    for path in sorted(glob.glob(f'{TOP}/{root}/**/*.rt', recursive=True)):
        module = os.path.relpath(path, f'{TOP}/{root}')[:-len('.rt')]
        if module != 'laws':
            yield Code(name, module, f'{root}/{module}.rt')


def law_files(crates):
    """Returns the laws of each crate that has some."""
    paths = {name: f'crates/{name}/src/laws.rt' for name in crates}
    return {name: Code(name, 'laws', path) for name, path in paths.items()
            if os.path.exists(f'{TOP}/{path}')}


def erase():
    """Returns each file of the result with its text."""
    crates = re.findall(r'^(\w+)[^:#\n]*:', open(f'{TOP}/crates.txt').read(), re.M)
    crates = [name for name in crates if name not in NOT_ERASED]
    missing = [name for name in crates if not list(files(name))]
    if missing:
        sys.exit(f'tools/erase.py: crates.txt names crates without sources: {", ".join(missing)}')
    codes = [code for name in crates for code in files(name)]
    of_laws = law_files(crates)
    stops(codes, crates)
    names = {name: new for code in codes for name, new in names_for_rust(code, codes)}
    defined = {code.text(code.after(p[0])) for code in codes for p in code.find('fn')}
    methods = {code.text(code.after(p[0])) for code in codes for p in code.find('fn')
               if is_method(code, code.after(p[0]))}
    copied = {'u8', 'u32', 'u64', 'usize', 'bool', 'char'}
    copied |= {name for code in codes for name in copied_types(code)}
    needing = of_std(codes)
    private, seen = listed(TOP), set()
    yield 'mod.rs', root_of(crates)
    for code in codes:
        attributes(code, copied)
        models(code)
        laws(code, of_laws)
        uses(code, crates)
        visible(code, private, seen)
        bounds(code)
        formatters(code)
        calls(code, names, defined, methods)
        macros(code)
        roots(code, crates)
        check(code)
        inner = 'mod' if code.module in ('lib', 'main') else code.module
        yield f'{code.crate}/{inner}.rs', layout(code, (code.crate, code.module) in needing)
    for owner, name in sorted(set(private) - seen):
        sys.exit(f'rust/interface.txt: no public type or function {owner} {name}')


if __name__ == '__main__':
    if len(sys.argv) > 2 or sys.argv[1:] and sys.argv[1].startswith('-'):
        sys.exit('usage: tools/erase.py [OUT]')
    out = sys.argv[1] if len(sys.argv) > 1 else f'{TOP}/rust/src/proved'
    made = dict(erase())
    shutil.rmtree(out, ignore_errors=True)
    for path, text in made.items():
        os.makedirs(os.path.dirname(f'{out}/{path}'), exist_ok=True)
        with open(f'{out}/{path}', 'w') as file:
            file.write(text)
