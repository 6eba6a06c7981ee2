#!/usr/bin/env python3
"""Writes a Cargo workspace in which each erased crate is a package of its own, as in Rattle, while
rust/ has all of them as modules of one crate: tests/crates_apart.py TOP DIRECTORY. TOP is the
repository or a copy of it. tests/crates-apart.sh says what is tested with the workspace.

- The package NAME has the files of rust/src/proved/NAME, with the paths that a crate has, and the
  dependencies of crates.txt. The package rattle_std has rust/src/rattle_std.rs.
- A function or trait that only its `requires` makes `pub(crate)` (rule 8 of docs/ERASURE.md) is as
  public as its source says, since other crates call it.
- The package `programs` has the programs of rust/programs, and the package `tests`, in the directory
  rust, has the test rust/tests/proved.rs. They use these packages instead of the modules."""
import re
import shutil
import sys
from pathlib import Path

# The visibility of functions and traits. Rule 17 makes `main` public.
VISIBLE = re.compile(r'^( *)(pub(?:\(\w+\))?)(?= (?:const )?(?:fn|trait) (?!main\())', re.M)
# A type that rust/interface.txt lists is `#[non_exhaustive]` only in the Rust crate.
OPEN = re.compile(r'^#\[non_exhaustive\]\n(pub (?:struct|enum) \w+)', re.M)
PACKAGE = '[package]\nname = "{}"\nversion = "{}"\n'
EDITION = 'edition = "2021"\n\n[features]\ndefault = ["std"]\nstd = []\n\n[dependencies]\n'


def dependencies(top):
    """Returns the crates that are erased, each with those that it uses."""
    lines = (top / 'crates.txt').read_text(encoding='utf-8').splitlines()
    pairs = [line.split(':') for line in lines if not line.startswith('#')]
    erased = [name for name, _ in pairs if (top / 'rust/src/proved' / name).exists()]
    return {name: [used for used in uses.split() if used in erased]
            for name, uses in pairs if name in erased}


def write(path, text):
    path.parent.mkdir(parents=True, exist_ok=True)
    path.write_text(text, encoding='utf-8')


def changed(text, pattern, instead):
    """Returns a text in which a pattern is replaced, and stops if the text doesn't have it."""
    text, count = re.subn(pattern, instead, text, flags=re.M | re.S)
    return text if count else sys.exit(f'tests/crates_apart.py: there is no {pattern}')


def source_of(top, crate, module):
    """Returns the source in Rattle of a file of rust/src/proved."""
    names = ['lib', 'main'] if module == 'mod' else [module]
    paths = [top / 'crates' / crate / 'src' / f'{name}.rt' for name in names]
    return next(path for path in paths if path.exists()).read_text(encoding='utf-8')


def as_in_source(text, source, where):
    """Returns the text with the visibility of each function and trait that its source has."""
    wanted = [found[2] for found in VISIBLE.finditer(source)]
    if len(wanted) != len(VISIBLE.findall(text)):
        sys.exit(f'{where}: another number of public functions than in the source')
    each = iter(wanted)
    return VISIBLE.sub(lambda found: found[1] + next(each), text)


def write_crate(top, directory, crate, uses):
    """Writes the package of a crate."""
    erased = top / 'rust/src/proved' / crate
    for path in sorted(erased.rglob('*.rs')):
        module = path.relative_to(erased).with_suffix('').as_posix()
        text = path.read_text(encoding='utf-8')
        source = source_of(top, crate, module)
        text = as_in_source(text, source, path)
        text = OPEN.sub(lambda found, source=source: found[found[0] not in source], text)
        text = text.replace(f'crate::proved::{crate}::', 'crate::')
        text = text.replace('crate::proved::', '').replace('crate::rattle_std::', 'rattle_std::')
        if module == 'mod':
            head = re.match(r'(?://[^\n]*\n|#!\[[^\n]*\n)*', text).end()
            text = f'{text[:head]}#![allow(warnings)]\n{text[head:]}'
        write(directory / crate / 'src' / f'{"lib" if module == "mod" else module}.rs', text)
    write_manifest(directory / crate, crate, ['rattle_std', *uses])


def write_manifest(directory, name, uses, version='0.0.0'):
    paths = ''.join(f'{used} = {{ path = "../{used}" }}\n' for used in uses)
    write(directory / 'Cargo.toml', f'{PACKAGE.format(name, version)}{EDITION}{paths}')


def write_std(top, directory):
    """Writes the package of the functions of std."""
    text = (top / 'rust/src/rattle_std.rs').read_text(encoding='utf-8')
    text = changed(text, r'\$crate::rattle_std::', '$crate::')
    text = changed(text, r'^(?=macro_rules! fallible_)', '#[macro_export]\n')
    text = changed(text, r'^pub\(crate\) use \{fallible_\w+(, fallible_\w+)*\};\n', '')
    text = changed(text, r'^pub use alloc::vec;\n', 'extern crate alloc;\nextern crate std;\n'
                   'pub use alloc::vec;\n')
    write(directory / 'rattle_std/src/lib.rs', text)
    write_manifest(directory / 'rattle_std', 'rattle_std', [])


def write_programs(top, directory, crates, modules):
    """Writes the package of the programs."""
    source = top / 'rust/programs'
    shutil.copytree(source / 'src', directory / 'programs/src')
    text = (source / 'src/lib.rs').read_text(encoding='utf-8')
    text = changed(text, r'^#\[path = "[^\n]*\nmod erased;\n', '')
    text = changed(text, r'^#\[path = "[^\n]*\n#\[allow[^\n]*\nmod rattle_std;\n', '')
    text = changed(text, r'^#\[path = "../../src/proved"\]\n.*?^mod proved \{.*?^\}\n', modules)
    text = changed(text, r'^#\[cfg[^\n]*\nuse erased as proved;\n', '')
    write(directory / 'programs/src/lib.rs', text)
    version = re.search('^version = "(.*)"$', (source / 'Cargo.toml').read_text('utf-8'), re.M)[1]
    write_manifest(directory / 'programs', 'programs', ['rattle_std', *crates], version)


def write_tests(top, directory, crates, modules):
    """Writes the package of the tests. They find their rows in the directory `crates`."""
    shutil.copytree(top / 'rust/tests/layers', directory / 'rust/tests/layers')
    text = (top / 'rust/tests/proved.rs').read_text(encoding='utf-8')
    text = changed(text, r'^#\[path = "[^\n]*\nmod proved;\n', modules)
    text = changed(text, r'^#\[path = "[^\n]*\n#\[allow[^\n]*\nmod rattle_std;\n', '')
    write(directory / 'rust/tests/proved.rs', text)
    write_manifest(directory / 'rust', 'tests', ['rattle_std', *crates])
    with open(directory / 'rust/Cargo.toml', 'a', encoding='utf-8') as manifest:
        manifest.write('\n[[test]]\nname = "proved"\nharness = false\n')
    (directory / 'crates').symlink_to(top.resolve() / 'crates')


def main():
    top, directory = map(Path, sys.argv[1:])
    crates = dependencies(top)
    for crate, uses in crates.items():
        write_crate(top, directory, crate, uses)
    write_std(top, directory)
    modules = (f'extern crate rattle_std;\n#[allow(unused)]\nmod proved {{\n'
               f'    pub use ::{{{", ".join(crates)}}};\n}}\n')
    write_programs(top, directory, crates, modules)
    write_tests(top, directory, crates, modules)
    members = ', '.join(f'"{name}"' for name in ['rust', 'programs', 'rattle_std', *crates])
    write(directory / 'Cargo.toml', f'[workspace]\nresolver = "2"\nmembers = [{members}]\n')


if __name__ == '__main__':
    main()
