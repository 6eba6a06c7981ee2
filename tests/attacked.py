"""The repository of two small crates in which tests/erased.py and tests/eraser-attacks.py make the
edits of tests/attacks.py."""
import os

from attacks import CODE, MADE

HAND = '// Made by tools/erase.py from crates/%s; not edited by hand.\n'
PRELUDE = '\nuse crate::rattle_std::prelude::*;\n'
# Two crates, and what tools/erase.py makes of them. An edit appends to `code.rt`, or to the files
# that it names.
FILES = {
    'crates.txt': 'first: thiserror\nsecond: first thiserror\n',
    'crates/first/src/lib.rt': '//! A crate.\n\nmod laws;\npub mod code;\n',
    'crates/first/src/laws.rt': '//! Laws.\n\npub fn holds()\n    ensures { true }\n{}\n',
    'crates/first/src/code.rt': '//! What is edited.\n\nuse std::fmt;\n',
    'crates/second/src/lib.rt': '//! Another crate.\n\nuse std::fmt;\n',
    'rust/src/proved/mod.rs': '''// Made by tools/erase.py from crates.txt; not edited by hand.
//! What is proved, as plain Rust: each crate of `crates/` without its contracts.
#![allow(clippy::complexity, clippy::style, missing_docs, private_bounds, unused)]
#![allow(clippy::large_const_arrays, clippy::large_enum_variant)]
#![allow(clippy::manual_unwrap_or_default)]

pub mod first;
pub mod second;
''',
    'rust/src/proved/first/mod.rs':
        HAND % 'first/src/lib.rt' + '//! A crate.\n' + PRELUDE + 'pub mod code;\n',
    'rust/src/proved/first/code.rs': HAND % 'first/src/code.rt' + '//! What is edited.\n' + PRELUDE
                                     + 'use crate::rattle_std::fmt;\n',
    'rust/src/proved/second/mod.rs': HAND % 'second/src/lib.rt' + '//! Another crate.\n' + PRELUDE
                                     + 'use crate::rattle_std::fmt;\n'}


def in_rust(name):
    """Returns the path of the Rust of a source."""
    return name.replace('/src/', '/').replace('/lib.rt', '/mod.rs').replace('.rt', '.rs')


def contents(edit):
    """Returns the files of the repository with an edit, by their paths. A text is appended; a pair
    is what is replaced, and by what."""
    found = dict(FILES)
    source = {CODE: edit.source} if isinstance(edit.source, str) else edit.source
    made = {MADE: edit.rust} if isinstance(edit.rust, str) else edit.rust
    if made is None:
        made = {in_rust(name): text for name, text in source.items()
                if name not in ('crates.txt', 'first/src/laws.rt')}
    for folder, edits in ('crates', source), ('rust/src/proved', made):
        for name, text in edits.items():
            path = name if name == 'crates.txt' else f'{folder}/{name}'
            before = found.get(path, '')
            found[path] = before + text if isinstance(text, str) else before.replace(*text)
    return found


def make(top, edit):
    """Makes an edit in a directory."""
    write({f'{top}/{path}': text for path, text in contents(edit).items()})


def write(texts):
    """Writes files. None removes one."""
    for path, text in texts.items():
        if text is None:
            os.remove(path)
            continue
        os.makedirs(os.path.dirname(path), exist_ok=True)
        with open(path, 'w', encoding='utf-8', newline='') as file:
            file.write(text)
