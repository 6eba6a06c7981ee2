"""Which names of std, attributes and macros the sources in Rattle may use, for
tests/erasure_refusals.py. Before you add a name, make sure that it means the same in Rust, and that
it doesn't allocate unless a rule of docs/ERASURE.md renames it."""
import re

ATTRIBUTE = re.compile(
    r'inline( \( (always|never) \))?|cold|must_use|non_exhaustive|error \( " \)|tactic \(.*\)|'
    r'derive \( ((Clone|Copy|Debug|Drop|Eq|Error|Hash|Ord|Partial(Eq|Ord))( , )?)+ \)')

# Macros. If rule 13 renames one, this has what its arguments begin with: `in` and an allocator, or
# a name and `;`.
MACROS = {'eprint': ';', 'eprintln': ';', 'format': 'in', 'matches': '', 'print': ';',
          'println': ';', 'unreachable': '', 'vec': 'in', 'write': ''}
NO_MACROS = {'break', 'else', 'if', 'in', 'match', 'return', 'while'}
UNKNOWN = {'unsafe', 'extern', 'static', 'macro_rules', 'async', 'await', 'isize', 'f32', 'f64'}

# Imports from crates that aren't in this repository.
IMPORTS = set('''
    std::alloc::AllocError std::alloc::Global std::boxed::BoxedSlice std::cmp::Ordering std::env
    std::fmt std::fmt::Display std::fmt::Formatter std::fmt::Write std::fs std::hash::Hash
    std::hash::Hasher std::io std::io::BufRead
    std::io::BufReader std::io::BufWriter std::io::ErrorKind std::io::IsTerminal std::io::Read
    std::io::Write std::marker::Model std::mem std::ops::Range std::process::ExitCode
    std::rt::Env thiserror::Error
'''.split())

# Crates that have only laws, and aren't erased.
NOT_ERASED = {'result_laws'}

NUMBERS = set('u8 u16 u32 u64 u128 usize i8 i16 i32 i64 i128 isize'.split())
# What a value may be cast to.
CASTS = {'u8', 'u32', 'u64'}

# Names that rules know, or that are in both preludes: nothing else may have them.
KNOWN = NUMBERS | set('''
    AllocError AllocGlobal AsMut AsRef Box BoxedSlice BufReader BufWriter Clone Copy Default
    Drop Eprint Eq Err ErrorKind ExitCode Extend FallibleClone Fn FnMut FnOnce Formatter From
    FromIterator Global HostRuntime Into IntoIterator Iterator Model None Ok Option Ord Ordering
    PartialEq PartialOrd Print Result Sized Some String ToOwned ToString TryFrom TryInto Vec
    Write alloc bool char cmp core env fmt fs io laws marker mem process proved rattle_std rt
    self std str thiserror
'''.split())

# Methods whose calls rule 12 renames, whatever type has them, and the one that `write!` calls.
# `push` isn't listed: its calls are renamed only if they have one argument, and then they don't
# compile for another type.
RENAMED = {'clone', 'extend_from_slice', 'push_str', 'reserve_exact', 'to_string', 'write_fmt'}

# Calls that need an order. Rattle requires nothing of the order, but Rust may panic or return
# something else. tests/erased_types.py knows no other call of this kind.
ORDERED = {'partition_point', 'sort_unstable_by'}

# Calls whose order is total; docs/ERASURE.md gives the reasons.
ORDERS = {
    ('release_filter/selection.rt', 'sort_unstable_by(|line, other| line.compare(other))'),
    ('version_sets/spans.rt', 'sort_unstable_by(|span, other| span.from.compare(&other.from))'),
    ('version_sets/boundaries.rt', 'partition_point(|boundary| boundary.compare(place).is_le())'),
    ('version_sets/boundaries.rt', 'partition_point(|boundary| '
     'boundary.compare_version(version, digits).is_le())'),
}

# Traits of the sources that types of std implement: the file, and the beginning of the `impl`.
IMPLEMENTATIONS = {
    ('semver_texts/identifiers.rt', "impl<'a, T: AsIdentifier> Identifiers<'a> for &'a [T]"),
}

# The functions of the traits of std that the sources implement, and the types that implement
# `Write`: Rust may pass a text on in other pieces than Rattle.
TRAITS = {'Debug': {'fmt'}, 'Default': {'default'}, 'Display': {'fmt'}, 'Eq': set(),
          'From': {'from'}, 'Hash': {'hash'}, 'Iterator': {'next'}, 'Model': set(),
          'Ord': {'cmp'}, 'PartialEq': {'eq'}, 'PartialOrd': {'partial_cmp'},
          'Write': {'flush', 'write', 'write_str'}}
WRITERS = {'Checksum', 'Fixed', 'Limited'}

# Files with `{:?}`, which prints a text otherwise than in Rattle: the messages that are as in
# 0.10.3, which nothing reads again, the `Debug` of a range, which prints no text by it, and tests.
WITH_DEBUG = set('''
    library_tests/made.rt replayed_cases/lexing.rt replayed_cases/parsing.rt
    replayed_cases/ranges.rt semver_tokens/parser.rt small_inputs/versions.rt
    tool_ranges/version_range.rt
'''.split())
