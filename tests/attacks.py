"""Edits of sources whose Rust would mean something else, or of Rust that no source has. Each names
the judges that have to see it, and words of what each of them says:

- `erase`: tools/erase.py stops.
- `erased`: tests/erased.py reports it.
- `types`, `clippy`, `rustc`: tests/erased_types.py reports it, with and without the feature std.
- `rows`: a table of tests/runs fails. This edit is of a program in rust/src/proved.

tests/erased.py makes each edit that names `erased`, in each run. tests/eraser-attacks.py makes
those that name other judges. An edit is made in a repository of two small crates, which is in
tests/attacked.py. So none quotes a live source, except for `rows`. Not all of them are valid
Rattle.
"""
import collections

# name    what the edit does
# source  what is appended to crates/first/src/code.rt; or a text for each file, or, to replace
#         something, a pair of texts
# rust    the same for what a careless eraser would write in rust/src/proved; None if it is the same
# seen    what each judge says
Edit = collections.namedtuple('Edit', 'name source rust seen')


def edit(name, source, rust=None, **seen):
    return Edit(name, source, rust, seen)


LAWS, SECOND = 'first/src/laws.rt', 'second/src/lib.rt'
CODE, MADE = 'first/src/code.rt', 'first/code.rs'


def call(statement):
    """Returns a function with a call of a law."""
    return f'''
use crate::laws;

pub fn planted() -> usize {{
    let mut count = 0usize;
    {statement}
    count
}}
'''


def law(text, statement='laws::planted();'):
    """Returns edits that add a law, and a call of one."""
    return {LAWS: text, CODE: call(statement)}


# The eleven edits that fresh readers found in the programs as they were, and variants of them.
FOUND = (
    edit('the argument of a law gives a literal its type', {LAWS: '''
pub fn is_number(number: &u64) {}
''', CODE: '''
use crate::laws;

pub fn planted() -> bool {
    let number = 2_000_000_000;
    laws::is_number(&number);
    number + number > number
}
'''}, '''
pub fn planted() -> bool {
    let number = 2_000_000_000;
    number + number > number
}
''', erase='an argument of a law', erased='without an argument',
         clippy='a literal whose type is a guess'),
    edit('a method that another crate does not see, named as one of a trait', {CODE: '''
pub struct Planted(pub u64);

impl Planted {
    pub(crate) fn number(&self) -> u64 {
        1
    }
}
''', SECOND: '''
use first::code::Planted;

pub trait Numbered {
    fn number(&self) -> u64;
}

impl Numbered for Planted {
    fn number(&self) -> u64 {
        2
    }
}

pub fn planted(one: &Planted) -> u64 {
    one.number()
}
'''}, {MADE: '''
pub struct Planted(pub u64);

impl Planted {
    pub(crate) fn number(&self) -> u64 {
        1
    }
}
''', 'second/mod.rs': '''
use crate::proved::first::code::Planted;

pub trait Numbered {
    fn number(&self) -> u64;
}

impl Numbered for Planted {
    fn number(&self) -> u64 {
        2
    }
}

pub fn planted(one: &Planted) -> u64 {
    one.number()
}
'''}, clippy='a method called as one of a trait'),
    edit('a method of a type of references, beside a trait', '''
pub struct Planted<T>(pub T);

impl<T> Planted<&T> {
    pub fn number(&self) -> u64 {
        2
    }
}

pub trait Numbered: Sized {
    fn number(&self) -> u64 {
        1
    }

    fn of_itself(&self) -> u64 {
        Planted(self).number()
    }
}

impl<T> Numbered for Planted<T> {}
''', clippy='a method called as one of a trait'),
    edit('the same with the trait for each type', '''
pub struct Planted<T>(pub T);

impl<T> Planted<&T> {
    pub fn number(&self) -> u64 {
        2
    }
}

pub trait Numbered: Sized {
    fn number(&self) -> u64 {
        1
    }

    fn of_itself(&self) -> u64 {
        Planted(self).number()
    }
}

impl<T> Numbered for T {}
''', erase='no rule for an implementation for a type of std', erased='a trait of a type of std'),
    edit('a method in a file that is only there with std', {CODE: '''
pub struct Planted(pub u64);

pub trait Numbered {
    fn number(&self) -> u64 {
        2
    }
}

impl Numbered for Planted {}

pub fn planted(one: &Planted) -> u64 {
    one.number()
}
''', 'first/src/lib.rt': 'mod of_std;\n', 'first/src/of_std.rt': '''
use crate::code::Planted;
use std::io;

impl Planted {
    pub fn number(&self) -> u64 {
        1
    }
}
'''}, {MADE: '''
pub struct Planted(pub u64);

pub trait Numbered {
    fn number(&self) -> u64 {
        2
    }
}

impl Numbered for Planted {}

pub fn planted(one: &Planted) -> u64 {
    one.number()
}
''', 'first/mod.rs': 'mod of_std;\n', 'first/of_std.rs': '''#![cfg(feature = "std")]
use crate::proved::first::code::Planted;
use crate::rattle_std::io;

impl Planted {
    pub fn number(&self) -> u64 {
        1
    }
}
'''}, clippy='a method called as one of a trait'),
    edit('a range without an end for a function called get', '''
fn get(first: u8, numbers: impl Iterator<Item = u8>) -> usize {
    usize::from(first)
}

pub fn planted() -> usize {
    get(5u8, 250u8..)
}
''', erase='no rule for a range without an end', erased='a range without an end',
         types='a range of u8 without an end'),
    edit('the same for a method called get', '''
pub struct Planted(pub u64);

impl Planted {
    fn get(&self, numbers: impl Iterator<Item = u8>) -> u64 {
        self.0
    }
}

pub fn planted(one: &Planted) -> u64 {
    one.get(250u8..)
}
''', types='a range of u8 without an end'),
    edit('pairs take one item more from what is borrowed', '''
pub fn planted(left: &[u8], right: &[u8]) -> Option<u8> {
    let mut left = left.iter();
    let _ = left.by_ref().zip(right).last();
    left.next().copied()
}
''', erase='no rule for this but at the head of a loop', erased='but not at the head of a loop',
         types='not known: Iter as Iterator::by_ref'),
    edit('the same with a reference', '''
pub fn planted(left: &[u8], right: &[u8]) -> bool {
    let mut left = left.iter();
    (&mut left).zip(right).all(|(one, other)| one == other) && left.next().is_some()
}
''', types='not known: &mut Iter as Iterator::zip'),
    edit('the same with a reference to the second', '''
pub fn planted(left: &[u8], right: &[u8]) -> bool {
    let mut right = right.iter();
    left.iter().zip(&mut right).all(|(one, other)| one == other) && right.next().is_some()
}
''', types='not known: Iter as Iterator::zip'),
    edit('a vector that is written to', '''
#[cfg(feature = "std")]
pub fn planted(bytes: &mut Vec<u8>) -> bool {
    use crate::rattle_std::io::Write;
    bytes.write_all(b"a").is_ok()
}
''', types='not known: Vec as Write::write_all'),
    edit('a vector that a function is passed to write to', '''
#[cfg(feature = "std")]
fn written<W: crate::rattle_std::io::Write>(output: &mut W) -> bool {
    output.write_all(b"a").is_ok()
}

#[cfg(feature = "std")]
pub fn planted(bytes: &mut Vec<u8>) -> bool {
    written(bytes)
}
''', types='not known: written of a Vec'),
    edit('a type that has a text to write to', '''
pub struct Planted<W>(pub W);

impl<W: fmt::Write> Planted<W> {
    fn write(&mut self) -> bool {
        self.0.write_str("a").is_ok()
    }
}

pub fn planted(text: String) -> bool {
    Planted(text).write()
}
''', types='not known: write of a String'),
    edit('a result that depends on what is printed for programmers', '''
pub fn planted(alloc: Global, text: &str) -> Result<bool, AllocError> {
    Ok(format!(in alloc; "{text:?}")?.len() == 3)
}
''', erase='no rule for the format {text:?}', erased='`{:?}`, a format'),
    edit('a width that is a value', '''
pub fn planted(f: &mut fmt::Formatter<'_>, width: usize) -> fmt::Result {
    write!(f, "{:width$}", "a")
}
''', erase='no rule for the format {:width$}', erased='`{:width$}`, a format'),
    edit('a width that is an argument', '''
pub fn planted(f: &mut fmt::Formatter<'_>, width: usize) -> fmt::Result {
    write!(f, "{0:>1$}", "a", width)
}
''', erase='no rule for the format {0:>1$}', erased='`{:>1$}`, a format'),
    edit('a writer that counts its calls', '''
pub struct Planted(pub u64);

impl fmt::Write for Planted {
    fn write_str(&mut self, s: &str) -> fmt::Result {
        self.0 = self.0.saturating_add(1);
        Ok(())
    }
}
''', erase='no rule for this implementation of Write', erased='of which something is not known'),
    edit('the call that writes what is left in a buffer', '', {
        'release_filter_main/output.rs': ('''    output.flush()
''', '''    Ok(())
''')}, rows='a full output, and a line without a line feed'),
)

# Facts about values of public types.
OF_FACTS = (
    edit('a fact about a public field', '''
pub struct Planted {
    pub number: u64,
    ghost small: { number < 8 },
}
''', erase='no rule for a fact about a public field', erased='a fact names a public field'),
    edit('an invariant of a public field beside a private one', '''
pub struct Planted {
    pub number: u64,
    other: u64,
}

impl Model for Planted {
    ghost invariant = { λ p. p.number < p.other };
}
''', erase='no rule for a fact about a public field', erased='a fact names a public field'),
    edit('an invariant of the whole value', '''
pub struct Planted {
    pub number: u64,
    other: u64,
}

impl Model for Planted {
    ghost invariant = { λ p. IsPlanted p };
}
''', erase='no rule for a fact about a public field', erased='a fact names a public field'),
    edit('an invariant of a public enum', '''
pub enum Planted {
    Number(u64),
}

impl Model for Planted {
    ghost invariant = { λ p. IsPlanted p };
}
''', erase='no rule for a fact about a public field', erased='a fact names a public field'),
    edit('a fact about the field of a tuple', '''
pub struct Planted(pub u64, ghost small: { IsSmall },);
''', erase='no rule for a fact about a public field', erased='a fact names a public field'),
    edit('an invariant of a type of another file', {'first/src/lib.rt': '''
pub struct Planted {
    pub number: u64,
}
''', CODE: '''
use crate::Planted;

impl Model for Planted {
    ghost invariant = { λ p. p.number < 8 };
}
'''}, erase='an invariant of a type of another file', erased='a type of another file'),
    edit('a function that is const, with a premise', '''
pub const fn planted(number: u64) -> u64
    requires { number < 8 }
{
    number
}
''', erase='no rule for a function that is const', erased='`const fn`'),
)

# Clauses and ghost items that swallow what follows, and what else is not in the result.
ANTT = (
    edit('a line comment of antt in clauses', '''
pub fn planted(number: u64) -> bool
    ensures { IsTrue result ↔ number ≡ 0 -- {
    }
{
    number == 0
}

pub fn planted_next(number: u64) -> bool
    ensures { IsFalse result ↔ number ≡ 0 -- }
    }
{
    number != 0
}
''', erase='no rule for this in a clause or ghost item: -- {', erased='`--` in a clause'),
    edit('a comment of antt that opens a text', '''
pub fn planted(number: u64) -> bool
    ensures { IsTrue result -- "
    }
{
    number == 0
}

pub fn planted_next(number: u64) -> bool
    ensures { IsFalse result -- "
    }
{
    number != 0
}
''', erase='no rule for this in a clause or ghost item: -- "', erased='`--` in a clause'),
    edit('a block comment of antt in clauses', '''
pub fn planted(number: u64) -> bool
    requires { {- { -} number < 8 }
{
    number == 0
}

pub fn planted_next(number: u64) -> bool
    requires { number < 8 {- } -} }
{
    number != 0
}
''', erase='no rule for this in a clause or ghost item: {- {', erased='`{-` in a clause'),
    edit('a comment of antt in a ghost item', '''
pub struct Planted(u64);

impl Model for Planted {
    ghost Value = { ℕ -- {
    };
}

impl Planted {
    pub fn add(&mut self) {
        self.0 += 1;
    }
}

impl Model for u64 {
    ghost Value = { ℕ -- }
    };
}
''', erase='no rule for this in a clause or ghost item: -- {', erased='`--` in a clause'),
    edit('a comment of antt in a ghost import', '''
pub fn planted() -> usize {
    let mut count = 0;
    ghost use Rattle.std.specs.Prelude.{suc -- }; count += 1; {
    };
    count
}
''', erase='no rule for this in a clause or ghost item: -- }',
         erased='a ghost item of another form'),
    edit('an open goal of antt in clauses', '''
pub fn planted(number: u64) -> bool
    ensures { {! { !} }
{
    number == 0
}

pub fn planted_next(number: u64) -> bool
    ensures { {! } !} }
{
    number != 0
}
''', erase='no rule for this in a clause or ghost item: {! {', erased='`{!` in a clause'),
    edit('a comment of Rust that is an operator of antt', '''
pub fn planted(number: u64) -> bool
    ensures { IsTrue number // 2 }
{
    number == 0
}

pub fn planted_next(number: u64) -> bool
    ensures { IsTrue number // λ {
        } }
{
    number != 0
}
''', erase='no rule for this in a clause or ghost item: // 2', erased='`//` in a clause'),
    edit('a brace in a text of a clause', '''
pub fn planted(number: u64) -> bool
    ensures { IsText "{" }
{
    number == 0
}
''', erase='no rule for this in a clause or ghost item: "{"', erased='`"{` in a clause'),
    edit('a clause that nothing ends', '''
pub fn planted(number: u64) -> bool
    ensures { IsTrue result ↔ {
{
    number == 0
}
''', erase='a block that nothing closes', erased='that nothing ends'),
    edit('a clause of a closure', '''
pub fn planted() -> bool {
    is_so(|number| requires { number < 8 } { number == 0 })
}
''', erase='no rule for a clause of this form, or at this place',
         erased='that is not at the head of a function'),
    edit('a ghost item that nothing ends', '''
ghost planted = { ℕ } next
''', erase='no rule for a ghost item of this form', erased='a ghost item of another form'),
    edit('a ghost item of another form', '''
pub fn planted() {
    ghost let number = 8;
}
''', erase='no rule for a ghost item of this form: ghost let',
         erased='`ghost`, which no rule writes'),
    edit('a fact outside of a type', '''
ghost planted: { IsPlanted };
''', erase='no rule for a ghost item at this place: ghost planted: {'),
    edit('a bracket that nothing closes', '''
pub fn planted() {
    is_so(8
''', erase='a bracket that nothing closes', erased='nothing closes `(`'),
    edit('an attribute of a ghost item', '''
#[inline]
ghost planted = { ℕ };
''', '''
#[inline]
''', erase='no rule for a ghost item at this place', erased='rust/src/proved/first/code.rs'),
    edit('nested comments around a statement', '''
pub fn planted() -> usize {
    let mut count = 0;
    /* /* */ ; laws::holds({ /* */ */ count += 1; /* /* */ }); /* */ */
    count
}
''', erase='no rule for what begins here: /* /*', erased='`/* /*'),
    edit('a comment that ends at a carriage return for one reader', '''
pub fn planted(count: &mut u64) {
    // Counts. \r *count = 8;
}
''', erase='no rule for a carriage return', erased="the character '\\r'"),
    edit('a comment that only Rust has', '''
pub fn planted(count: &mut u64) {
    *count = 8;
}
''', '''
pub fn planted(count: &mut u64) {
    // Counts.\r *count = 8;
}
''', erased="the character '\\r'"),
    edit('a crate in a comment that only Rust has', '', {
        'mod.rs': ('pub mod first;', '// Texts.\r pub mod first;')},
         erased='not exactly the crates'),
)

# Laws that do something, and calls of other things that look like laws.
OF_LAWS = (
    edit('a law that counts', law('''
pub fn planted(count: &mut usize)
    ensures { count.new ≡ suc count.old }
{
    *count += 1;
}
''', 'laws::planted(&mut count);'), erase='an argument of a law', erased='without an argument'),
    edit('a law of another crate that counts', {LAWS: '''
pub fn planted(count: &mut usize) {}
''', SECOND: '''
pub fn planted(count: usize) -> usize {
    first::laws::planted(&mut count);
    count
}
'''}, erase='an argument of a law', erased='without an argument'),
    edit('an argument that counts', call('laws::holds({ count += 1; });'),
         erase='an argument of a law', erased='without an argument'),
    edit('an argument that returns', call('laws::holds(return 8);'),
         erase='an argument of a law', erased='without an argument'),
    edit('an argument that leaves a loop', call('loop { laws::holds(break); count += 1; }'),
         erase='an argument of a law', erased='without an argument'),
    edit('a law that calls a function', law('''
use crate::code::planted_next;

pub fn planted() {
    planted_next();
}
'''), erase='or one that is passed or does something', erased='may do something'),
    edit('a law that calls itself', law('''
pub fn planted() {
    planted();
}
'''), erase='or one that is passed or does something', erased='may do something'),
    edit('a law that returns something', law('''
pub fn planted() -> One {}
'''), erase='or one that is passed or does something', erased='may do something'),
    edit('a law with a loop', law('''
pub fn planted() {
    loop {}
}
'''), erase='or one that is passed or does something', erased='may do something'),
    edit('a law that no file has', call('laws::planted();'),
         erase='a function that is not known to be a law', erased='may do something'),
    edit('a call of a law that is no statement',
         call("'outer: loop { break 'outer laws::holds(); }"),
         erase='a law that is no call of its own', erased='not a law as a statement'),
    edit('a law that is passed on', call('is_so(laws::holds);'),
         erase='a law that is no call of its own', erased='not a law as a statement'),
    edit('laws of a folder', {CODE: 'mod laws;' + call('laws::holds();').replace(
        'use crate::laws;', ''), 'first/src/code/laws.rt': '''
pub fn holds(count: &mut usize) {}
'''}, erase='laws that are not in the file laws.rt of a crate', erased='`mod laws;`'),
    edit('laws that nothing imports', call('laws::holds();').replace('use crate::laws;', ''),
         erase='a function that is not known to be a law', erased='not a law as a statement'),
    edit('another module that is imported as laws', {
        CODE: call('laws::holds();').replace('crate::laws', 'crate::counting as laws'),
        'first/src/lib.rt': 'mod counting;\n', 'first/src/counting.rt': '''
pub fn holds() {
    count();
}
'''}, erase='no rule for how this is imported', erased='`as laws`, a name'),
    edit('laws of a type', call('Planted::laws::holds();'),
         erase='a function that is not known to be a law', erased='not a law as a statement'),
    edit('a law that is imported by its name', {LAWS: '''
pub fn drop<T>(_value: T) {}
''', CODE: '''
use crate::laws::drop;

pub fn planted(value: u64) {
    drop(value);
}
'''}, erase='a law that is no call of its own', erased='of laws only'),
    edit('a trait in a file of laws', {LAWS: '''
pub trait Planted {
    fn next(&self) -> u64;
}
'''}, '', erased='`trait` in a file of laws'),
    edit('a law that is another function', {LAWS: '''
pub use crate::code::planted_next as planted;
''', CODE: call('laws::planted();')},
         erase='a function that is not known to be a law', erased='lends a name'),
    edit('an attribute of a call of a law', call('#[cfg(test)] laws::holds(); count += 1;'),
         erase='no rule for this attribute: cfg', erased='an attribute that no rule knows'),
)

# Messages of errors.
ERROR = '''
#[derive(Debug, Clone, Copy, PartialEq, Eq, Error)]
pub enum Planted {
    #[error("%s")]
    Shown(u64, u64),
}
'''
OF_ERRORS = (
    edit('escaped braces of an error', ERROR % '{{1}}',
         erase='no rule for braces as in the message "{{1}}"', erased='`#[error("{{1}}")]`'),
    edit('escaped braces around a placeholder', ERROR % '{{{0}}}',
         erase='no rule for braces as in the message "{{{0}}}"', erased='`#[error("{{{0}}}")]`'),
    edit('a placeholder that is no field', ERROR % '{planted}',
         erase='no rule for braces as in the message "{planted}"', erased='is no field'),
    edit('an error without a message', '''
#[derive(Debug, Error)]
pub enum Planted {
    Shown(u64),
}
''', erase='no rule for an error without a message'),
    edit('a width of a placeholder', ERROR % '{0:8}',
         erase='no rule for the format {0:8}', erased='`{:8}`, a format'),
)

# Numbers, and what depends on the bits of `usize`.
OF_NUMBERS = (
    edit('a cast of 64 bits', '''
pub fn planted(number: u64) -> usize {
    number as usize
}
''', erase='no rule for a cast to usize', erased='`as usize`'),
    edit('a cast to a name of `usize`', '''
type Size = usize;

pub fn planted(number: u64) -> Size {
    number as Size
}
''', erase='no rule for a cast to Size', erased='`as Size`'),
    edit('a cast outside of functions', '''
const PLANTED: usize = 0x1_0000_0000u64 as usize;
''', erase='no rule for a cast to usize', erased='`as usize`'),
    edit('another name of a number', '''
type u32 = u64;
''', erase='no rule for an item of this name, u32', erased='`u32`, declared'),
    edit('a size that is inverted', '''
pub fn planted(size: usize) -> usize {
    !size
}
''', types='`!` of usize'),
    edit('a field that is inverted', '''
pub struct Planted(pub usize);

pub fn planted(one: &Planted) -> usize {
    !one.0
}
''', types='`!` of usize'),
    edit('a literal that is inverted', '''
pub fn planted() -> usize {
    !0usize
}
''', types='not known: `!` of 0_usize'),
    edit('a size that goes beyond zero', '''
pub fn planted(size: usize) -> usize {
    size.wrapping_sub(8usize)
}
''', types='not known: usize::wrapping_sub'),
    edit('the zeros of a size', '''
pub fn planted(size: usize) -> u32 {
    size.leading_zeros()
}
''', types='not known: usize::leading_zeros'),
    edit('the bits of a size', '''
pub fn planted() -> u32 {
    usize::BITS
}
''', types='not known: usize::BITS'),
    edit('the highest size', '''
pub fn planted() -> u64 {
    usize::MAX as u64
}
''', types='not known: usize::MAX'),
    edit('a conversion to a size', '''
pub fn planted(number: u64) -> bool {
    usize::try_from(number).is_ok()
}
''', types='not known: usize as TryFrom::try_from'),
    edit('a size that is read', '''
pub fn planted(text: &str) -> bool {
    text.parse::<usize>().is_ok()
}
''', types='not known: str::parse::<usize>'),
    edit('a size that is read, of a type that nothing names', '''
pub fn planted(text: &str, size: usize) -> bool {
    text.parse() == Ok(size)
}
''', types='not known: str::parse::<usize>'),
    edit('a shift by more bits than a size may have', '''
pub fn planted(size: usize) -> usize {
    size >> 40
}
''', types='a shift by const 40'),
    edit('a shift by a variable', '''
pub fn planted(size: usize, bits: u32) -> usize {
    size << bits
}
''', types='a shift by'),
    edit('a size of a type', '''
const PLANTED: usize = core::mem::size_of::<usize>();
''', types='not known: mem::size_of'),
    edit('a range without an end', '''
pub fn planted(first: u8) -> bool {
    (first..).any(|number| number == 0u8)
}
''', erase='no rule for a range without an end', erased='without an end',
         types='a range of u8 without an end'),
    edit('a loop without an end', '''
pub fn planted(first: u8) -> u8 {
    for number in first.. {
        return number;
    }
    0u8
}
''', erase='no rule for a range without an end', erased='without an end',
         types='a range of u8 without an end'),
    edit('other fields that nothing reads', '''
pub fn planted(values: &[Planted]) -> Planted {
    Planted { number: 8, ..values[8] }
}
''', erase='no rule for the fields of an element', erased='the other fields'),
)

# Calls that allocate, or that need an order.
OF_CALLS = (
    edit('a call that allocates', '''
pub fn planted(text: &mut String) {
    text.reserve(8usize);
}
''', types='not known: String::reserve'),
    edit('a call that allocates, named as one of a type here', '''
pub struct Planted(pub u64);

impl Planted {
    fn reserve(&self, _: usize) {}
}

pub fn planted(text: &mut String) {
    text.reserve(8usize);
}
''', types='not known: String::reserve'),
    edit('a call whose result is put into a field', '''
pub struct Planted(pub usize, pub usize);

pub fn planted(one: &mut Planted, text: &String) {
    one.1 = text.capacity();
}
''', types='not known: String::capacity'),
    edit('a call on the line of a derive', '''
#[derive(Clone, Copy)] pub struct Planted(pub u64); impl PartialEq for Planted {
    fn eq(&self, other: &Planted) -> bool {
        String::with_capacity(8usize).is_empty()
    }
}
''', types='not known: String::with_capacity'),
    edit('a call of what points to a function', '''
pub fn planted(texts: &[(fn(&str) -> String, &str)]) -> bool {
    texts.iter().all(|(made, text)| made(text).is_empty())
}
''', erase='no rule for a pointer to a function', types='points to'),
    edit('a call that allocates, by its path', '''
pub fn planted(text: &mut String) {
    String::push_str(text, "a");
}
''', types='not known: String::push_str'),
    edit('a call that allocates, by its type in angles', '''
pub fn planted(numbers: &mut Vec<u64>) {
    <Vec<u64>>::push(numbers, 8u64);
}
''', types='not known: Vec::push'),
    edit('a clone by its path', '''
pub fn planted(text: &String) -> bool {
    Clone::clone(text).is_empty()
}
''', types='not known: String as Clone::clone'),
    edit('a capacity', '''
pub fn planted(text: &String) -> bool {
    text.capacity() == 8usize
}
''', types='not known: String::capacity'),
    edit('a macro that allocates without an allocator', '''
pub fn planted() -> bool {
    vec![8].is_empty()
}
''', erase='no rule for this macro without an allocator or the runtime', erased='`vec!`'),
    edit('the allocator of a macro is a call that does something', '''
pub fn planted(alloc: Global) -> Result<Vec<u64>, AllocError> {
    vec![in noted(alloc); 8]
}
''', erase='no rule for an allocator of another form', erased='`alloc`, which no rule writes'),
    edit('an allocator of another name', '''
pub fn planted(place: Global) {}
''', erase='no rule for an allocator of another name', erased='`Global`, which no rule writes'),
    edit('an allocator that does something', '''
pub fn planted(bytes: &[u8]) {
    alloc.free(bytes)
}
''', erase='no rule for this word: alloc', erased='`alloc`, which no rule writes'),
    edit('a function of the prelude', '''
pub fn planted(number: u64) {
    drop(number);
}
''', types='not known: mem::drop'),
    edit('a function with another name in Rust that is passed on', '''
pub struct Planted(pub u64);

impl Planted {
    // In Rust: try_parse.
    pub fn parse(text: &str) -> Option<Planted> {
        None
    }
}

pub fn planted(text: &str) -> Option<Planted> {
    let read = Planted::parse;
    read(text)
}
''', '''
pub struct Planted(pub u64);

impl Planted {
    pub fn try_parse(text: &str) -> Option<Planted> {
        None
    }
}

pub fn planted(text: &str) -> Option<Planted> {
    let read = Planted::parse;
    read(text)
}
''', rustc='no function or associated item'),
    edit('a pointer to a function', '''
pub fn planted(_test: fn(u8) -> bool) -> u8 {
    8
}
''', erase='no rule for a pointer to a function'),
    edit('a sort without a total order', '''
pub fn planted(numbers: &mut [u64]) {
    numbers.sort_unstable_by(|_, _| Ordering::Less);
}
''', erase='no rule for a sort but by `compare`', erased='needs an order'),
    edit('a sort that is listed, in a function that says nothing of the order', {
        'crates.txt': 'version_sets:\n', 'version_sets/src/lib.rt': 'mod spans;\n',
        'version_sets/src/spans.rt': '''
pub fn planted(spans: &mut [Span]) {
    spans.sort_unstable_by(|span, other| span.from.compare(&other.from));
}
'''}, erase='no rule for a sort but by `compare`, with a clause total_order',
         erased='no clause says that its order is total'),
    edit('a sort by its path', '''
pub fn planted(numbers: &mut [u64]) {
    <[u64]>::sort_by(numbers, |_, _| core::cmp::Ordering::Less);
}
''', types='not known: []::sort_by'),
    edit('a search without an order', '''
pub fn planted(numbers: &[u64]) -> usize {
    numbers.partition_point(|number| number % 2 == 0)
}
''', erase='no rule for a search but by `compare`', erased='needs an order'),
    edit('a function of std that is passed on', '''
pub fn planted(text: Option<&String>) -> usize {
    text.map_or(0usize, String::capacity)
}
''', types='not known: String::capacity'),
)

# Names that something else also has.
OF_NAMES = (
    edit('a module called as a crate', {SECOND: '''
mod first;

pub fn planted() -> bool {
    first::planted()
}
''', 'second/src/first.rt': '''
pub fn planted() -> bool {
    true
}
'''}, erase='no rule for an item of this name, first', erased='`first`, declared'),
    edit('a parameter called as a module', '''
pub fn planted<'a, str: Reads>(bytes: &'a [u8]) -> bool {
    str::from_utf8(bytes).is_ok()
}
''', erase='no rule for a parameter of this name', erased='`str`, declared'),
    edit('a type called as one of std', '''
pub struct String(u64);
''', erase='no rule for an item of this name, String', erased='`String`, declared'),
    edit('another name of a type of std', '''
type Name = String;

pub fn planted(alloc: Global) -> bool {
    Name::with_capacity(alloc, 8).is_ok()
}
''', '''
type Name = String;

pub fn planted() -> bool {
    Name::with_capacity(8usize).is_empty()
}
''', types='not known: String::with_capacity'),
    edit('another `clone`', '''
#[derive(Clone)]
pub struct Planted(pub String);

impl Planted {
    pub fn clone(&self) -> u64 {
        8
    }
}

pub fn planted(one: &Planted) -> u64 {
    one.clone()
}
''', erase='no rule for the name of two functions', erased='`fn clone`, a method',
         clippy='a method called as one of a trait'),
    edit('another `to_string`', '''
pub struct Planted(pub u64);

impl Planted {
    pub fn to_string(&self, alloc: Global) -> u64 {
        8
    }
}

pub fn planted(alloc: Global, one: &Planted) -> u64 {
    one.to_string(alloc)
}
''', erase='no rule for the name of two functions', erased='`fn to_string`, a method'),
    edit('another `write_fmt`', '''
pub struct Planted(pub u64);

impl Planted {
    fn write_fmt(&mut self, _: fmt::Arguments<'_>) -> fmt::Result {
        Ok(())
    }
}
''', erase='no rule for an item of this name, write_fmt', erased='`fn write_fmt`, a method'),
    edit('a method with the prefix of a rule', '''
pub struct Planted(pub u64);

impl Planted {
    pub fn fallible_push(&mut self, _: u64) {}
}
''', erase='no rule for an item of this name, fallible_push', erased='`fn fallible_push`'),
    edit('another `max`', '''
#[derive(Clone, Copy, PartialEq, Eq, PartialOrd, Ord)]
pub struct Planted(u64);

impl Planted {
    pub fn max(&self, _: Planted) -> Planted {
        Planted(0u64)
    }
}

pub fn planted(one: Planted, other: Planted) -> Planted {
    one.max(other)
}
''', clippy='a method called as one of a trait', types='not known: own as Ord::max'),
    edit('another `into`', '''
pub struct Planted(u64);

impl Planted {
    pub fn try_into(&self) -> Result<Planted, core::convert::Infallible> {
        Ok(Planted(0u64))
    }
}

pub fn planted(one: Planted) -> Result<Planted, core::convert::Infallible> {
    one.try_into()
}
''', types='not known: own as TryInto::try_into'),
    edit('another `count` of an iterator', '''
pub struct Planted(u64);

impl Iterator for Planted {
    type Item = u64;

    fn next(&mut self) -> Option<u64> {
        None
    }
}

impl Planted {
    pub fn count(&self) -> usize {
        8
    }
}
''', clippy='a method called as one of a trait'),
    edit('a trait of a type of std', '''
trait Planted {
    fn trim_ascii(&self) -> &[u8];
}

impl Planted for &[u8] {
    fn trim_ascii(&self) -> &[u8] {
        &self[..0]
    }
}

pub fn planted(bytes: &[u8]) -> &[u8] {
    bytes.trim_ascii()
}
''', erase='no rule for an implementation for a type of std', erased='a trait of a type of std',
         types='not known: []::trim_ascii'),
    edit('a trait of a type of std, with a bound', '''
trait Planted {
    fn is_planted(&self) -> bool;
}

impl<F: for<'a> Fn(&'a u8)> Planted for &[F] {
    fn is_planted(&self) -> bool {
        true
    }
}
''', erase='no rule for an implementation for a type of std', erased='a trait of a type of std'),
    edit('another name that another function has', '''
impl Planted {
    // In Rust: try_read.
    pub fn read(&self) -> u64 {
        8
    }
}

impl PlantedNext {
    pub fn read(&self) -> u64 {
        0
    }

    pub fn try_read(&self) -> u64 {
        8
    }
}
''', erase='no rule for this name, which another function has', erased='`// In Rust: try_read.`'),
    edit('a method that is renamed, beside another of its old name', '''
pub struct Planted(u64);
pub struct PlantedNext(u64);

impl Planted {
    // In Rust: try_read.
    pub fn read(&self) -> u64 {
        self.0
    }
}

impl PlantedNext {
    pub fn read(&self) -> u64 {
        self.0
    }
}

pub fn planted(one: &PlantedNext) -> u64 {
    one.read()
}
''', '''
pub struct Planted(u64);
pub struct PlantedNext(u64);

impl Planted {
    pub fn try_read(&self) -> u64 {
        self.0
    }
}

impl PlantedNext {
    pub fn read(&self) -> u64 {
        self.0
    }
}

pub fn planted(one: &PlantedNext) -> u64 {
    one.try_read()
}
''', erase='no rule for the name of two functions, of which one is renamed',
         rustc='no method named `try_read`'),
    edit('another name of a function that is in no type', '''
// In Rust: try_read.
pub fn read() -> u64 {
    8
}
''', erase='no rule for this name at another place', erased='`// In Rust: try_read.`'),
    edit('another name of another form', '''
impl Planted {
    // In Rust: try_read, since it may fail.
    pub fn read() -> u64 {
        8
    }
}
''', erase='no rule for this: // In Rust: try_read, since'),
    edit('another name that a type called alike has in another file', {CODE: '''
impl Planted {
    // In Rust: try_read.
    pub fn read() -> u64 {
        8
    }
}
''', 'first/src/lib.rt': '''
impl Planted {
    pub fn read() -> u64 {
        0
    }

    pub fn try_read() -> u64 {
        8
    }
}
'''}, erase='no rule for this name, which another function has', erased='`// In Rust: try_read.`'),
    edit('two functions that each have the name of the other', '''
impl Planted {
    // In Rust: lowest.
    pub fn highest() -> u64 {
        8
    }

    // In Rust: highest.
    pub fn lowest() -> u64 {
        0
    }
}
''', erase='no rule for this name, which another function has', erased='`// In Rust: lowest.`'),
    edit('another name that something of std has', '''
impl Planted {
    // In Rust: min.
    pub fn lower(self, other: Planted) -> Planted {
        other
    }
}
''', erase='no rule for this name, which another function has', erased='`// In Rust: min.`'),
    edit('another name of no function', '''
pub fn planted(number: u64) -> u64 {
    match number {
        one
        // In Rust: other.
        => one,
    }
}
''', erase='nothing ends this by fn', erased='`// In Rust: other.`'),
    edit('a function with another name that is called by Self', '''
impl Planted {
    // In Rust: try_read.
    pub fn read() -> u64 {
        8
    }

    pub fn planted() -> u64 {
        Self::read()
    }
}
''', erase='no rule for this call but by the name of its type', erased='`Self::read`'),
    edit('a variable called as a crate', '''
pub fn planted(second: u64) -> u64 {
    second
}
''', erase='no rule for another thing of the name of a crate'),
    edit('an import from elsewhere', '''
use elsewhere::Planted;
''', erase='no rule for an import from there', rustc='unresolved import'),
    edit('a module of std that no source needs', '''
use std::ops::Deref;
''', erase='no rule for an import of this line', erased='`use std::ops::Deref`'),
    edit('a trait of std that no source needs', '''
use std::fmt::Debug;

pub fn planted(text: &str, f: &mut fmt::Formatter<'_>) -> fmt::Result {
    Debug::fmt(text, f)
}
''', erase='no rule for an import of this line', erased='`use std::fmt::Debug`'),
    edit('a module of std under another name', '''
use std::mem as fmt;
''', erase='no rule for an import under another name', erased='`as fmt`'),
    edit('an import under the name of another type', '''
use crate::version::Planted as RangeSet;
''', erase='no rule for an import under another name', erased='`as RangeSet`'),
    edit('an import of all names', '''
use super::*;
''', erase='no rule for an import of this line', erased='not name by name'),
    edit('an import in a function', '''
pub fn planted() -> u64 {
    use super::LARGE;
    LARGE
}
''', erase='no rule for this word at this place', erased='not at the top'),
    edit('an `impl` of another `Model`', '''
pub struct Planted(u64);

impl Model for Planted {
    fn is_planted(&self) -> bool {
        false
    }
}
''', erase='no rule for this implementation of Model', erased='of which something is not known'),
    edit('a trait `Model`', '''
pub trait Model {
    fn is_planted(&self) -> bool {
        false
    }
}
''', '', erased='`Model`, declared'),
    edit('an iterator with another function for several items', '''
pub struct Planted(u64);

impl Iterator for Planted {
    type Item = u64;

    fn next(&mut self) -> Option<u64> {
        None
    }

    fn nth(&mut self, _: usize) -> Option<u64> {
        Some(8)
    }
}
''', erase='no rule for this implementation of Iterator', erased='of which something is not known'),
    edit('another inequality', '''
pub struct Planted(u64);

impl PartialEq for Planted {
    fn eq(&self, other: &Planted) -> bool {
        self.0 == other.0
    }

    fn ne(&self, other: &Planted) -> bool {
        true
    }
}
''', erase='no rule for this implementation of PartialEq',
         erased='of which something is not known'),
    edit('a constant that another crate does not see, named as one of a trait', {CODE: '''
pub struct Planted(pub u64);

impl Planted {
    pub(crate) const LIMIT: u64 = 1;
}
''', SECOND: '''
use first::code::Planted;

pub trait Limited {
    const LIMIT: u64;
}

impl Limited for Planted {
    const LIMIT: u64 = 2;
}

pub fn planted() -> u64 {
    Planted::LIMIT
}
'''}, erase='no rule for a constant at this place', erased='`const LIMIT`, not at the top'),
)

# Forms that no rule knows.
OF_FORMS = (
    edit('a crate that is not erased', {'crates.txt': 'planted:\n'},
         erase='crates.txt names crates without sources', erased='`planted`, a crate'),
    edit('a file that no module is of', {'first/src/planted.rt': '''
pub fn planted() {}
'''}, '', erase='a file that no module is of'),
    edit('a macro', '''
macro_rules! planted {
    () => { 8 };
}
''', erase='no rule for this word: macro_rules', erased='`macro_rules`'),
    edit('a macro that counts its arguments', '''
macro_rules! count {
    () => { 0 };
    ($first:expr $(, $rest:expr)*) => { 1 + count!($($rest),*) };
}
''', erase='no rule for what begins here: $first', erased='is no token'),
    edit('the line of a file', '''
pub fn planted() -> u32 {
    line!()
}
''', erase='no rule for this macro: line', erased='`line!`'),
    edit('a file that is taken in', '''
include!("planted.in");
''', erase='no rule for this macro: include', erased='`include!`'),
    edit('a module elsewhere', '''
#[path = "code.rs"]
mod planted;
''', erase='no rule for this word at this place', erased='an attribute that no rule knows'),
    edit('a module within a function', '''
pub fn planted() {
    mod next;
}
''', erase='no rule for this word at this place', erased='that is no file'),
    edit('a module within a file', '''
mod planted {
    pub fn next() {}
}
''', erase='no rule for a module within a file', erased='that is no file'),
    edit('a condition', '''
#[cfg(not(test))]
pub fn planted() {}
''', erase='no rule for this attribute: cfg', erased='an attribute that no rule knows'),
    edit('a condition of a file', '''
#![cfg(test)]
''', erase='no rule for this attribute: cfg', erased='an attribute that no rule knows'),
    edit('a derived trait', '''
#[derive(Default)]
pub struct Planted(u64);
''', erase='no rule for one of these derives', erased='an attribute that no rule knows'),
    edit('a word that no source needs', '''
pub fn planted(bytes: &[u8]) -> u8 {
    unsafe { *bytes.get_unchecked(8) }
}
''', erase='no rule for this word: unsafe', erased='`unsafe`'),
    edit('a sign that begins no attribute', '''
pub fn planted() {
    # 8
}
''', erase='no rule for this sign', erased='an attribute that no rule knows'),
    edit('a derive of a type with a parameter', '''
#[derive(Clone)]
pub struct Planted<T>(T);
''', erase='a derive on a generic type'),
    edit('a model with a type', '''
pub struct Planted(u64);

impl Model for Planted {
    type Value = u64;
}
''', erase='no rule for a model with code'),
    edit('a model that others may import', '''
pub use std::marker::Model;
''', erase='no rule for an import of this, with pub'),
    edit('a static', '''
static PLANTED: u64 = 8;
''', erase='no rule for this word: static', erased='`static`'),
    edit('a number with a sign of other bits', '''
pub fn planted(number: i64) -> bool {
    number < 0
}
''', erase='no rule for this word: i64'),
    edit('a bound that another follows', '''
pub struct Planted<T: Drop + Copy>(T);
''', erase='no rule for this word: Drop'),
    edit('a fraction', '''
pub fn planted() -> bool {
    1.5 < 2.5
}
''', erase='no rule for what begins here: 1.5', erased='is no token'),
    edit('a doubled minus', '''
pub fn planted() -> i32 {
    --1
}
''', erase='no rule for what begins here: --1'),
    edit('a name that is not ASCII', '''
pub fn planted() -> u64 {
    let \u00e9 = 1;
    let e\u0301 = 2;
    \u00e9
}
''', erase='no rule for what begins here: \u00e9', erased='is no token'),
    edit('signs that turn a line around', '''
pub fn planted(text: &str) -> bool {
    text == "\u202e a"
}
''', erase='a character that nobody sees', erased="'\\u202e'"),
    edit('a line of a text that goes on two lines below', '''
pub fn planted(text: &str) -> bool {
    text == "a \\

        b"
}
''', erase='no rule for white space as in this text', erased='is no token'),
    edit('a text with white space at the end of a line', '''
pub fn planted(text: &str) -> bool {
    text == "a \n b"
}
''', '''
pub fn planted(text: &str) -> bool {
    text == "a\n b"
}
''', erase='no rule for white space as in this text', erased='rust/src/proved/first/code.rs'),
    edit('a raw text', '''
pub fn planted(text: &str) -> bool {
    text == r"a"
}
''', erase='no rule for what begins here: r"a"'),
    edit('a raw name', '''
pub fn planted() -> u64 {
    let r#number = 8;
    number
}
''', erase='no rule for what begins here: r#number', erased='is no token'),
    edit('a text that nothing ends', '''
pub fn planted() {
    is_so("a)
}
''', erase='no rule for what begins here: "a)', erased='is no token'),
)

EDITS = (*FOUND, *OF_FACTS, *ANTT, *OF_LAWS, *OF_ERRORS, *OF_NUMBERS, *OF_CALLS, *OF_NAMES,
         *OF_FORMS)
