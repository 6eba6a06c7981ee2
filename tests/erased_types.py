#!/usr/bin/env python3
"""Compiles rust/src/proved, and fails at what the types show to mean something else than in Rattle.
tools/erase.py and tests/erased.py read only tokens.

- It has to compile, with and without the feature std.
- clippy finds no literal whose type is a guess, and no method of a type that is called like one of
  a trait.
- clippy's compiler prints its intermediate form, MIR, in which each call is written with the type
  that has the function, such as `<String as Clone>::clone`. Each call of std has to be in `KNOWN`.
  Also, `!` is for `bool` only, a shift is by a number below 32, a range without an end is of
  `usize`, and no constant of `usize` is named.

What `derive` makes isn't looked at. rust/src/rattle_std.rs is compiled as a crate of its own, so
what that file does isn't in the MIR, but calls of it are. Without clippy, the code is only
compiled. tests/eraser-attacks.py shows that each of these checks finds something."""
import json
import os
import re
import shutil
import subprocess
import sys
import tempfile

TOP = os.path.dirname(os.path.dirname(os.path.realpath(__file__)))
LINTS = {'clippy::default_numeric_fallback': 'a literal whose type is a guess',
         'clippy::same_name_method': 'a method called as one of a trait'}
ROOT = '#![no_std]\nextern crate alloc;\n#[cfg(feature = "std")]\nextern crate std;\n'
CALL = re.compile(r' -> (?:\[return: bb\d+, )?unwind')
LOCAL = re.compile(r' +let (?:mut )?(_\d+): (.*);')

# The calls of std and of rattle_std, by the type that has them: `own` is a type of the sources, and
# `T` a parameter. `X as Trait` has those of a trait. Before you add one, make sure that it means
# the same in Rust, that it doesn't allocate, and that it doesn't depend on the bits of `usize`.
KNOWN = {
    '&mut own as IntoIterator': 'into_iter', '&mut own as Iterator': 'next',
    '() as Ord': 'cmp',
    # What `{:?}` prints of a text differs, and so may what it prints of a type that has a text.
    'Argument': 'new_debug::<Result> new_debug::<Vec> new_debug::<own> new_display new_lower_hex',
    'BufReader as BufRead': 'lines', 'BufWriter as Write': 'flush write_all',
    'Bytes as IntoIterator': 'into_iter', 'Bytes as Iterator': 'next',
    'Chars as IntoIterator': 'into_iter', 'Chars as Iterator': 'all next',
    'Enumerate as IntoIterator': 'into_iter', 'Enumerate as Iterator': 'next',
    'Error': 'kind', 'Error as From': 'from', 'ErrorKind as PartialEq': 'eq ne',
    'ExitCode as From': 'from', 'Formatter': 'alternate pad write_fmt write_str',
    'IntoIter as IntoIterator': 'into_iter', 'IntoIter as Iterator': 'next',
    'Iter as IntoIterator': 'into_iter',
    'Iter as Iterator': 'all any enumerate next skip take_while zip',
    'Lines as IntoIterator': 'into_iter', 'Lines as Iterator': 'next',
    'Option': '''and_then as_ref copied is_none is_some is_some_and map_or take transpose unwrap_or
        unwrap_or_default''',
    'Option as FromResidual': 'from_residual', 'Option as PartialEq': 'eq',
    'Option as Try': 'branch',
    'Ordering': 'is_eq is_ge is_gt is_le is_lt is_ne reverse then', 'Ordering as PartialEq': 'ne',
    'Range as IntoIterator': 'into_iter', 'Range as Iterator': 'next', 'RangeInclusive': 'new',
    'RangeInclusive as IntoIterator': 'into_iter', 'RangeInclusive as Iterator': 'next',
    'Read as Read': 'read',
    'Result': 'and_then as_ref is_err is_ok is_ok_and map map_err',
    'Result as FromResidual': 'from_residual', 'Result as PartialEq': 'eq ne',
    'Result as Try': 'branch',
    'Split as IntoIterator': 'into_iter', 'Split as Iterator': 'enumerate next',
    'Stderr as IsTerminal': 'is_terminal',
    'String': 'as_bytes as_str clear is_empty new truncate', 'String as Deref': 'deref',
    'T as Fn': 'call', 'T as FnOnce': 'call_once',
    'T as PartialOrd': 'ge', 'T as Read': 'read', 'T as Write': 'flush write write_all write_fmt',
    'TakeWhile as Iterator': 'count', 'Utf8Error': 'valid_up_to',
    # `extend` is from `fallible_vec!`, which has allocated.
    'Vec': 'as_mut_slice as_slice clear into_boxed_slice is_empty len new pop truncate', 'Vec as Deref': 'deref',
    'Vec as DerefMut': 'deref_mut', 'Vec as Extend': 'extend', 'Vec as Index': 'index',
    'Vec as IndexMut': 'index_mut',
    'Zip as IntoIterator': 'into_iter', 'Zip as Iterator': 'all next',
    '[]': '''as_slice copy_from_slice escape_ascii first get is_empty iter last len
        partition_point reverse sort_unstable_by split_at split_first split_last starts_with
        strip_prefix''',
    '[] as Hash': 'hash', '[] as Index': 'index', '[] as IndexMut': 'index_mut',
    '[] as IntoIterator': 'into_iter',
    '[] as Ord': 'cmp', '[] as PartialEq': 'eq',
    'bool': 'then_some', 'char': 'encode_utf8 is_ascii', 'char as From': 'from',
    'own as Hash': 'hash', 'own as IntoIterator': 'into_iter',
    'own as Iterator': 'any by_ref next', 'own as Ord': 'cmp', 'own as PartialEq': 'eq ne',
    'own as Write': 'write write_fmt',
    'rattle_std': '''args eprintln fallible_clone fallible_extend_from_slice fallible_from_elem
        fallible_from_slice fallible_from_str fallible_push fallible_push_str fallible_reserve_exact
        fallible_to_string fallible_with_capacity new open println push_reserved reader stderr stdin
        stdout write_fmt writer''',
    'str': '''as_bytes bytes chars from_utf8 get is_ascii is_char_boundary is_empty len parse::<u32>
        split split_once starts_with strip_prefix strip_suffix trim_start_matches''',
    'str as Index': 'index', 'str as PartialEq': 'eq ne',
    'u128 as From': 'from', 'u32': 'saturating_add saturating_mul wrapping_add',
    'u32 as From': 'from',
    'u64': 'checked_add checked_ilog10 checked_mul saturating_add saturating_sub',
    'u64 as From': 'from', 'u64 as Hash': 'hash', 'u64 as Ord': 'cmp min',
    'u8': 'is_ascii_alphabetic is_ascii_alphanumeric is_ascii_digit',
    'u8 as Sub': 'sub', 'usize': 'saturating_add saturating_mul saturating_sub',
    'usize as From': 'from', 'usize as Ord': 'cmp min'}
CALLS = {f'{kind}::{name}' for kind, names in KNOWN.items() for name in names.split()}
# A function of the sources that may write to a `Vec`, only in a test: Rust ends the program if that
# can't grow.
CALLS |= {'run of a Vec'}
# Types and traits whose functions the compiler and macros call, such as those of signs.
UNWRITTEN = set('''Argument Deref DerefMut Extend Fn FnOnce FromResidual Index IndexMut IntoIterator
    PartialEq PartialOrd RangeInclusive Sub Try'''.split())


def tool(name):
    """Returns the path of `rustc` or `clippy-driver`, or None."""
    done = subprocess.run(['rustc', '--print', 'sysroot'], capture_output=True, text=True,
                          check=True)
    path = f'{done.stdout.strip()}/bin/{name}'
    return path if os.path.exists(path) else shutil.which(name)


def arguments(work, name, std):
    """Returns the arguments of rustc for the library `name` in a directory."""
    features = ['--cfg', 'feature="std"'] if std else []
    return ['--edition', '2021', '--crate-type', 'rlib', '--crate-name', name, '--out-dir', work,
            '--check-cfg', 'cfg(feature, values("std"))', *features, f'{work}/{name}.rs']


def compile_base(top, work, std):
    """Compiles rust/src/rattle_std.rs as a crate of its own, in a new directory."""
    os.makedirs(work)
    # Its macros are for one crate, and the code that uses them is another one here.
    text = read(f'{top}/rust/src/rattle_std.rs')
    text = text.replace('\nmacro_rules! ', '\n#[macro_export]\nmacro_rules! ')
    write(f'{work}/rattle_std.rs', text.replace('pub(crate) use {fallible', 'pub use crate::{fallible'))
    write(f'{work}/base.rs', ROOT + 'pub mod rattle_std;\n')
    subprocess.run([tool('rustc'), *arguments(work, 'base', std)], check=True, capture_output=True)


def compile_erased(proved, work, std, base):
    """Compiles erased code in a new directory. Returns what rustc and clippy say, and the MIR,
    which is empty without clippy, or None if it doesn't compile."""
    os.makedirs(work)
    shutil.copytree(proved, f'{work}/proved')
    modules = read(f'{work}/proved/mod.rs').replace('#[cfg(test)]', '#[cfg(feature = "std")]')
    write(f'{work}/proved/mod.rs', modules)
    write(f'{work}/erased.rs', ROOT + 'pub use base::rattle_std;\npub mod proved;\n')
    driver = tool('clippy-driver')
    lints = [f'-W{lint}' for lint in LINTS] if driver else []
    done = subprocess.run(
        [driver or tool('rustc'), '-Aclippy::all', *lints, '--error-format', 'json',
         '--extern', f'base={base}/libbase.rlib', '--emit', 'metadata,mir',
         *arguments(work, 'erased', std)], capture_output=True, text=True, check=False)
    said = [json.loads(line) for line in done.stderr.split('\n') if line.startswith('{')]
    mir = read(f'{work}/erased.mir') if driver and done.returncode == 0 else ''
    return said, mir if done.returncode == 0 else None


def said_by_rustc(said, work):
    """Yields the errors of rustc and what clippy reports, each with its judge, file and line. The
    number of a shift is exempt, because its type doesn't matter."""
    for found in said:
        code, spans = (found['code'] or {}).get('code'), found['spans']
        span = next((span for span in spans if span['is_primary']), None)
        if span is None or found['level'] != 'error' and code not in LINTS:
            continue
        text = span['text'][0]['text'][:span['column_start'] - 1]
        if code != 'clippy::default_numeric_fallback' or not text.endswith(('<< ', '>> ')):
            where = os.path.relpath(span['file_name'], work)
            judge = 'clippy' if code in LINTS else 'rustc'
            yield judge, f'{where}:{span["line_start"]}: {LINTS.get(code, found["message"])}'


def read(path):
    with open(path, encoding='utf-8') as file:
        return file.read()


def write(path, text):
    with open(path, 'w', encoding='utf-8') as file:
        file.write(text)


def end_of(text, at, stop):
    """Returns the index of a sign from `at` on, outside of angles."""
    depth = 0
    while at < len(text) and (depth > 0 or text[at] != stop):
        depth += (text[at] == '<') - (text[at] == '>' and text[at - 1] != '-')
        at += 1
    return at


def callee(line):
    """Returns what a line of MIR calls, or None: what is between ` = ` and the arguments."""
    found, at, depth = CALL.search(line), 0, 0
    while found and at < found.start() and (depth > 0 or not line.startswith(' = ', at)):
        depth += (line[at] in '([<') - (line[at] in ')]>')
        at += 1
    said = line[at + 3:found.start()] if found else ''
    return said[:end_of(said, 0, '(')] if said and not said.startswith(('assert(', 'drop(')) \
        else None


def segments(path):
    """Returns the parts of a path between `::`. What is in angles is left out, except
    `<impl ..>`."""
    parts, at = [], 0
    while at < len(path):
        end = end_of(path, at, ':')
        parts += [path[at:end]] if path[at] != '<' or path.startswith('<impl ', at) else []
        at = end + 2
    return parts


def head(kind):
    """Returns a type without its parameters."""
    kind = re.sub(r"^(?:&(?!mut )|'\w+ |impl |dyn )+", '', kind)
    if kind.startswith('&mut '):
        return '&mut ' + head(kind[5:])
    if kind[:1] in ('[', '(', '{'):
        return {'[': '[]', '(': '()', '{': 'closure'}[kind[0]]
    path = segments(kind[:end_of(kind, 0, '<')])
    return 'own' if path[0] == 'proved' else 'T' if len(path[-1]) == 1 else path[-1]


def with_type(path, callee):
    """Returns the end of a call as it is in `CALLS`, with the type that decides what it does."""
    typed = re.search(r'::<([^>]*>*)>$', callee) if path[-1] in ('parse', 'new_debug') else None
    return path[-1] + (f'::<{head(typed[1])}>' if typed else '')


def of_std(callee):
    """Returns a call as it is in `CALLS`, or None if it isn't one of std."""
    if callee.startswith('<'):
        end = end_of(callee, 1, '>')
        kind, of = re.match(r'(.*?) as ((?:\w+::)*\w+)(?:<.*>)?$', callee[1:end]).groups()
        name = segments(callee[end + 3:])[0] + (' of a &mut' if 'zip::<&mut ' in callee else '')
        if of.startswith(('base::', 'proved::')):
            return f'rattle_std::{name}' if of.startswith('base::') else None
        return f'{head(kind)} as {of.split("::")[-1]}::{name}'
    path = segments(callee)
    if path[0] == 'base':
        return f'rattle_std::{[name for name in path if name[0] != "<"][-1]}'
    if path[0] == 'proved':
        grows = re.search(r'<(?:.*, )?alloc::\w+::(Vec|String)\b', callee)
        return f'{path[-1]} of a {grows[1]}' if grows else None
    if len(path) == 1:
        return f'what {path[0]} points to'
    if path[-2] in ('Arguments', 'panicking'):  # each version of Rust has other functions of these
        return None
    kind = path[-2][6:-1] if path[-2].startswith('<impl ') else path[-2]
    return f'{head(kind)}::{with_type(path, callee)}'


def operations(line, types):
    """Yields what a line of MIR does that depends on a type, or on the bits of one."""
    inverted = re.search(r' = Not\(\w+ (.*)\);$', line)
    if inverted:
        field = re.search(r': ([^:]*)\)$', inverted[1])
        kind = field[1] if field else types.get(re.sub(r'[(*)]', '', inverted[1]), inverted[1])
        if kind.lstrip('&') != 'bool':
            yield f'`!` of {kind}'
    shift = re.search(r' = Sh[lr]\(\w+ .*?, (.*)\);$', line)
    by = re.match(r'const (\d+)_', shift[1]) if shift else None
    if shift and not (by and int(by[1]) < 32):
        yield f'a shift by {shift[1]}'
    for name in re.findall(r'const (?:\w+::)*<impl usize>::(\w+)', line):
        yield f'usize::{name}'
    for kind in re.findall(r'\bRangeFrom(?:::)?<(\w+)', line):
        if kind != 'usize':
            yield f'a range of {kind} without an end'


def derived(function):
    """Returns whether `derive` made a function: the `impl` around it is a name in a `derive`."""
    at = re.search(r'<impl at (\S+?):(\d+):(\d+):', function)
    line = read(at[1]).split('\n')[int(at[2]) - 1] if at else ''
    return 'derive(' in line and not line.startswith('impl', int(at[3]) - 1)


def found_in(mir, work):
    """Yields each call of std in MIR, and each operation that isn't known, with the function."""
    function, is_derived, types = '', False, {}
    for line in mir.split('\n'):
        if line.startswith(('fn ', 'const ', 'static ')):
            function, types = line, dict(re.findall(r'(_\d+): ([^,()]+)', line))
            is_derived = derived(line)
        local, call = LOCAL.match(line), callee(line)
        if local:
            types[local[1]] = local[2]
        passed = re.findall(r'(?<= )\{((?:core|alloc|std|base|<)[^{}]*)\}', line)
        found = [*operations(line, types), *map(of_std, passed)] + ([of_std(call)] if call else [])
        if not is_derived:
            yield from ((function[:80].replace(work, ''), what) for what in found if what)


def reported(proved, work, std, base):
    """Returns what the types show, as pairs of a judge and a message, and the calls of std."""
    said, mir = compile_erased(proved, work, std, base)
    found = [*found_in(mir or '', work)]
    not_known = [('types', f'{function}: not known: {what}') for function, what in found
                 if what not in CALLS]
    errors = [*said_by_rustc(said, work)] or [('rustc', f'{proved}: an error')] * (mir is None)
    return errors + not_known, {what for _, what in found}


def main():
    found, called = [], set()
    with tempfile.TemporaryDirectory() as work:
        for std in (True, False):
            base = f'{work}/base-{std}'
            compile_base(TOP, base, std)
            made = reported(f'{TOP}/rust/src/proved', f'{work}/erased-{std}', std, base)
            found, called = found + made[0], called | made[1]
    for judge, message in dict.fromkeys(found):
        print(message if judge == 'types' else f'rust/src/{message}')
    if not tool('clippy-driver'):
        print('the types of what is erased: no clippy, so it is not asked')
    elif CALLS - called:
        print('tests/erased_types.py: these are not called:', ', '.join(sorted(CALLS - called)))
    if found or called and CALLS - called:
        sys.exit('the types of what is erased: failed')
    print(f'the types of what is erased: {len(called)} calls of std, each known with its type')


if __name__ == '__main__':
    main()
