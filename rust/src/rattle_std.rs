//! Implements the functions of Rattle's std that the erased sources call, with Rust's std. `Vec`,
//! `String` and the other types are Rust's own. A function that returns an error in Rattle if an
//! allocation fails is a method of a trait here, with the prefix `fallible_`, and uses
//! `try_reserve`.

pub use alloc::vec;
pub use core::{cmp, fmt, hash, mem, ops, str};
#[cfg(feature = "std")]
pub use std::{error::Error, process};

use alloc::string::String;
use alloc::vec::Vec;

/// An allocation failed.
#[derive(Clone, Copy, Debug, PartialEq, Eq)]
pub struct AllocError;

impl fmt::Display for AllocError {
    fn fmt(&self, f: &mut fmt::Formatter<'_>) -> fmt::Result {
        f.write_str("out of memory")
    }
}

#[cfg(feature = "std")]
impl Error for AllocError {}

impl From<alloc::collections::TryReserveError> for AllocError {
    #[inline(always)]
    fn from(_: alloc::collections::TryReserveError) -> AllocError {
        AllocError
    }
}

impl From<AllocError> for fmt::Error {
    fn from(_: AllocError) -> fmt::Error {
        fmt::Error
    }
}

#[cfg(feature = "std")]
impl From<AllocError> for std::io::Error {
    fn from(_: AllocError) -> std::io::Error {
        std::io::ErrorKind::OutOfMemory.into()
    }
}

type Made<T> = Result<T, AllocError>;

// ---------------------------------------------------------------- vectors

/// `push` of a `Vec` and of a `String`.
pub trait FalliblePush<T> {
    fn fallible_push(&mut self, item: T) -> Made<()>;
}

impl<T> FalliblePush<T> for Vec<T> {
    #[inline(always)]
    fn fallible_push(&mut self, item: T) -> Made<()> {
        if self.len() == self.capacity() && self.try_reserve(1).is_err() {
            return Err(refused(item));
        }
        self.push_reserved(item);
        Ok(())
    }
}

/// Drops an item that couldn't be pushed.
#[cold]
#[inline(never)]
fn refused<T>(item: T) -> AllocError {
    drop(item);
    AllocError
}

impl FalliblePush<char> for String {
    fn fallible_push(&mut self, item: char) -> Made<()> {
        self.try_reserve(item.len_utf8())?;
        self.push(item);
        Ok(())
    }
}

/// The other functions of a `Vec` that allocate.
pub trait FallibleVec<T>: Sized {
    fn fallible_with_capacity(size: usize) -> Made<Self>;
    fn fallible_from_slice(items: &[T]) -> Made<Self>
    where
        T: Copy;
    fn fallible_from_elem(item: T, size: usize) -> Made<Self>
    where
        T: Copy;
    fn fallible_extend_from_slice(&mut self, items: &[T]) -> Made<()>
    where
        T: Copy;
    /// Appends an item. The proof shows that there is capacity for it.
    fn push_reserved(&mut self, item: T);
}

impl<T> FallibleVec<T> for Vec<T> {
    #[inline(always)]
    fn fallible_with_capacity(size: usize) -> Made<Vec<T>> {
        let mut made = Vec::new();
        made.try_reserve_exact(size)?;
        Ok(made)
    }

    fn fallible_from_slice(items: &[T]) -> Made<Vec<T>>
    where
        T: Copy,
    {
        let mut made = Vec::fallible_with_capacity(items.len())?;
        made.extend_from_slice(items);
        Ok(made)
    }

    fn fallible_from_elem(item: T, size: usize) -> Made<Vec<T>>
    where
        T: Copy,
    {
        let mut made = Vec::fallible_with_capacity(size)?;
        made.resize(size, item);
        Ok(made)
    }

    #[inline(always)]
    fn fallible_extend_from_slice(&mut self, items: &[T]) -> Made<()>
    where
        T: Copy,
    {
        self.try_reserve(items.len())?;
        self.extend_from_slice(items);
        Ok(())
    }

    /// With the test, `push` can't grow the vector. If a call might grow it, the compiler keeps the
    /// item in memory and copies it from there, which took a sixth of the time of reading `^1.2.3`;
    /// so does a panic for the impossible case.
    #[inline(always)]
    fn push_reserved(&mut self, item: T) {
        debug_assert!(self.len() < self.capacity());
        if self.len() < self.capacity() {
            self.push(item);
        } else {
            mem::forget(item);
        }
    }
}

// ---------------------------------------------------------------- texts

/// The functions of a `String` that allocate.
pub trait FallibleString: Sized {
    fn fallible_with_capacity(size: usize) -> Made<Self>;
    fn fallible_from_str(text: &str) -> Made<Self>;
    fn fallible_push_str(&mut self, text: &str) -> Made<()>;
    fn fallible_reserve_exact(&mut self, more: usize) -> Made<()>;
    /// Called by `write!`. Its only error is out of memory.
    fn write_fmt(&mut self, text: fmt::Arguments<'_>) -> Made<()>;
}

impl FallibleString for String {
    fn fallible_with_capacity(size: usize) -> Made<String> {
        let mut made = String::new();
        made.try_reserve_exact(size)?;
        Ok(made)
    }

    #[inline(always)]
    fn fallible_from_str(text: &str) -> Made<String> {
        let mut made = String::new();
        made.try_reserve_exact(text.len())?;
        // As in `push_reserved`, the condition always holds.
        if text.len() <= made.capacity() {
            made.push_str(text);
        }
        Ok(made)
    }

    #[inline]
    fn fallible_push_str(&mut self, text: &str) -> Made<()> {
        if text.len() > self.capacity() - self.len() {
            self.try_reserve(text.len())?;
        }
        self.push_str(text);
        Ok(())
    }

    fn fallible_reserve_exact(&mut self, more: usize) -> Made<()> {
        Ok(self.try_reserve_exact(more)?)
    }

    fn write_fmt(&mut self, text: fmt::Arguments<'_>) -> Made<()> {
        struct Grown<'a>(&'a mut String);

        impl fmt::Write for Grown<'_> {
            fn write_str(&mut self, text: &str) -> fmt::Result {
                Ok(self.0.fallible_push_str(text)?)
            }
        }

        fmt::write(&mut Grown(self), text).map_err(|_| AllocError)
    }
}

/// `to_string` that returns an error if an allocation fails.
pub trait FallibleToString {
    fn fallible_to_string(&self) -> Made<String>;
}

impl<T: fmt::Display + ?Sized> FallibleToString for T {
    fn fallible_to_string(&self) -> Made<String> {
        let mut text = String::new();
        FallibleString::write_fmt(&mut text, format_args!("{self}"))?;
        Ok(text)
    }
}

/// `clone` that returns an error if an allocation fails. It is written for each type that derives
/// `Clone` and isn't `Copy`.
pub trait FallibleClone: Sized {
    fn fallible_clone(&self) -> Made<Self>;
}

impl FallibleClone for String {
    fn fallible_clone(&self) -> Made<String> {
        String::fallible_from_str(self)
    }
}

impl<T: FallibleClone> FallibleClone for Vec<T> {
    fn fallible_clone(&self) -> Made<Vec<T>> {
        let mut made = Vec::fallible_with_capacity(self.len())?;
        for item in self {
            made.push_reserved(item.fallible_clone()?);
        }
        Ok(made)
    }
}

// ---------------------------------------------------------------- macros

/// `vec![in alloc; ..]` of items, or of an item repeated a number of times.
macro_rules! fallible_vec {
    ($item:expr; $size:expr) => {
        <$crate::rattle_std::vec::Vec<_> as $crate::rattle_std::FallibleVec<_>>::fallible_from_elem(
            $item, $size,
        )
    };
    ($($item:expr),* $(,)?) => {{
        let items = [$($item),*];
        <$crate::rattle_std::vec::Vec<_> as $crate::rattle_std::FallibleVec<_>>::fallible_with_capacity(
            items.len(),
        )
        .map(|mut made| {
            made.extend(items);
            made
        })
    }};
}

/// `format!(in alloc; ..)`.
macro_rules! fallible_format {
    ($($part:tt)*) => {
        $crate::rattle_std::FallibleToString::fallible_to_string(&format_args!($($part)*))
    };
}

/// `println!(rt; ..)`.
macro_rules! fallible_println {
    ($rt:expr; $($part:tt)*) => {
        $rt.println(format_args!($($part)*))
    };
}

/// `eprintln!(rt; ..)`.
macro_rules! fallible_eprintln {
    ($rt:expr; $($part:tt)*) => {
        $rt.eprintln(format_args!($($part)*))
    };
}

pub(crate) use {fallible_eprintln, fallible_format, fallible_println, fallible_vec};

// ---------------------------------------------------------------- what programs are given

/// The parts of the environment that the runtime gives to a program.
#[cfg(feature = "std")]
#[derive(Clone, Copy)]
pub struct HostRuntime;

#[cfg(feature = "std")]
impl HostRuntime {
    pub fn stdin(&self) -> std::io::Stdin {
        std::io::stdin()
    }

    pub fn stdout(&self) -> std::io::Stdout {
        std::io::stdout()
    }

    pub fn stderr(&self) -> std::io::Stderr {
        std::io::stderr()
    }

    pub fn reader(&self) -> std::io::StdinLock<'static> {
        std::io::stdin().lock()
    }
}

/// The traits of the parts of the runtime, which a function can take instead of the whole runtime.
#[cfg(feature = "std")]
pub mod rt {
    use core::fmt::Display;
    use std::io::{self, Write};

    pub trait AllocGlobal {}
    pub trait Env {}

    pub trait Print {
        fn println(&self, text: impl Display) -> io::Result<()> {
            writeln!(io::stdout(), "{text}")
        }
    }

    pub trait Eprint {
        fn eprintln(&self, text: impl Display) -> io::Result<()> {
            writeln!(io::stderr(), "{text}")
        }
    }

    impl AllocGlobal for super::HostRuntime {}
    impl Env for super::HostRuntime {}
    impl Eprint for super::HostRuntime {}
    impl Print for super::HostRuntime {}
}

#[cfg(feature = "std")]
pub mod env {
    /// Returns the arguments, if each is UTF-8.
    pub fn args(_: &impl super::rt::Env) -> std::io::Result<std::vec::IntoIter<String>> {
        let texts: Result<Vec<String>, _> = std::env::args_os()
            .map(|argument| argument.into_string())
            .collect();
        match texts {
            Ok(texts) => Ok(texts.into_iter()),
            Err(_) => Err(std::io::ErrorKind::InvalidData.into()),
        }
    }

    use alloc::string::String;
    use alloc::vec::Vec;
}

#[cfg(feature = "std")]
pub mod fs {
    pub fn open(_: &super::HostRuntime, path: &str) -> std::io::Result<std::fs::File> {
        std::fs::File::open(path)
    }
}

#[cfg(feature = "std")]
pub mod io {
    pub use std::io::*;

    /// Rust's type, created by a function that returns a `Result`, as in Rattle.
    pub struct BufReader;
    pub struct BufWriter;

    impl BufReader {
        #[allow(clippy::new_ret_no_self)]
        pub fn new<R: Read>(reader: R) -> Result<std::io::BufReader<R>> {
            Ok(std::io::BufReader::new(reader))
        }
    }

    impl BufWriter {
        #[allow(clippy::new_ret_no_self)]
        pub fn new<W: Write>(writer: W) -> Result<std::io::BufWriter<W>> {
            Ok(std::io::BufWriter::new(writer))
        }
    }

    pub fn writer(_: &super::HostRuntime) -> Stdout {
        stdout()
    }
}

pub mod boxed {
    pub type BoxedSlice<T> = alloc::boxed::Box<[T]>;
}

/// The names that each erased file has in scope.
pub mod prelude {
    #[cfg(feature = "std")]
    pub use super::{
        rt::{AllocGlobal, Eprint, Print},
        HostRuntime,
    };
    pub use super::{FallibleClone, FalliblePush, FallibleString, FallibleToString, FallibleVec};
    pub use alloc::string::String;
    pub use alloc::vec::Vec;
}
