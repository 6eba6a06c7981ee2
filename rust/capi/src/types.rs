//! The types of the header, and their conversions from and to Rust.

use crate::errors::Problem;
use crate::shared::{self, Dialect, PreReleases, Rules};
use core::ptr::NonNull;
use core::slice;

/// semver_parser_string.
#[repr(C)]
#[derive(Clone, Copy)]
pub struct StringView {
    data: *const u8,
    length: usize,
}

impl StringView {
    pub fn of(text: &[u8]) -> StringView {
        // A pointer that may be read. Without bytes, the slice's own pointer might be any address.
        let data = if text.is_empty() { c"".as_ptr().cast() } else { text.as_ptr() };
        StringView { data, length: text.len() }
    }

    pub fn bytes(&self) -> &[u8] {
        // SAFETY: each is from a caller in C, who keeps it valid, or was made by `of`.
        unsafe { items(self.data, self.length) }
    }
}

impl PartialEq for StringView {
    fn eq(&self, other: &StringView) -> bool {
        self.bytes() == other.bytes()
    }
}

/// semver_parser_span.
#[repr(C)]
#[derive(Clone, Copy)]
pub struct Span {
    pub start: usize,
    pub end: usize,
}

impl From<shared::Span> for Span {
    fn from(shared::Span { start, end }: shared::Span) -> Span {
        Span { start, end }
    }
}

/// semver_parser_options.
#[repr(C)]
#[derive(Clone, Copy)]
pub struct Options {
    dialect: i32,
    pre_releases: i32,
    reserved: [i32; 6],
}

impl Options {
    pub fn of(Rules { dialect, pre_releases, .. }: Rules) -> Options {
        let (dialect, pre_releases) = (dialect.number(), pre_releases.number());
        Options { dialect, pre_releases, reserved: [0; 6] }
    }

    #[inline(always)]
    pub fn rules<'a>(&self) -> Result<Rules, Problem<'a>> {
        let dialect = dialect(self.dialect)?;
        let pre_releases = PreReleases::from_number(self.pre_releases).ok_or(Problem::Argument)?;
        match self.reserved {
            [0, 0, 0, 0, 0, 0] => Ok(Rules { dialect, pre_releases }),
            _ => Err(Problem::Argument),
        }
    }
}

#[inline(always)]
pub fn dialect<'a>(number: i32) -> Result<Dialect, Problem<'a>> {
    Dialect::from_number(number).ok_or(Problem::Argument)
}

/// semver_parser_version.
#[repr(C)]
pub struct Version {
    pub major: u64,
    pub minor: u64,
    pub patch: u64,
    pub pre: StringView,
    pub build: StringView,
}

/// semver_parser_comparator.
#[repr(C)]
#[derive(Clone, Copy)]
pub struct Comparator {
    pub range: usize,
    pub op: i32,
    pub major: u64,
    pub minor: u64,
    pub patch: u64,
    pub pre: StringView,
}

/// semver_parser_component.
#[repr(C)]
#[derive(Clone, Copy, Default, PartialEq)]
pub struct Component {
    kind: i32,
    number: u64,
}

impl Component {
    fn of(component: Option<shared::Component>) -> Component {
        match component {
            None => Component::default(),
            Some(shared::Component::Number(number)) => Component { kind: 1, number },
            Some(shared::Component::Wildcard(it)) => Component { kind: 2, number: it.into() },
        }
    }
}

/// semver_parser_partial_version.
#[repr(C)]
#[derive(PartialEq)]
pub struct PartialVersion {
    pub start: usize,
    end: usize,
    has_v: bool,
    major: Component,
    minor: Component,
    patch: Component,
    pre: StringView,
    build: StringView,
}

impl PartialVersion {
    pub fn of(version: &shared::PartialVersion<'_>) -> PartialVersion {
        PartialVersion {
            start: version.span.start,
            end: version.span.end,
            has_v: version.has_v,
            major: Component::of(Some(version.major)),
            minor: Component::of(version.minor),
            patch: Component::of(version.patch),
            pre: StringView::of(version.pre.as_bytes()),
            build: StringView::of(version.build.as_bytes()),
        }
    }

    /// The second version of a term that has none.
    fn none() -> PartialVersion {
        let none = Component::default();
        PartialVersion {
            start: 0,
            end: 0,
            has_v: false,
            major: none,
            minor: none,
            patch: none,
            pre: StringView::of(b""),
            build: StringView::of(b""),
        }
    }
}

/// semver_parser_term.
#[repr(C)]
pub struct Term {
    range: usize,
    op: i32,
    start: usize,
    end: usize,
    version: PartialVersion,
    upper: PartialVersion,
}

impl Term {
    pub fn of(term: &shared::Term<'_>) -> Term {
        Term {
            range: term.range,
            op: term.operator.number(),
            start: term.span.start,
            end: term.span.end,
            version: PartialVersion::of(&term.version),
            upper: term.upper.as_ref().map_or_else(PartialVersion::none, PartialVersion::of),
        }
    }
}

/// Returns the items of an array. SAFETY: the array is valid, as the header requires. Null, which
/// no slice may be, is replaced by another address where nothing is, so reading items in spite of
/// null ends the program.
pub unsafe fn items<'a, T>(pointer: *const T, count: usize) -> &'a [T] {
    let pointer = NonNull::new(pointer.cast_mut()).unwrap_or(NonNull::dangling());
    // SAFETY: the caller ensures it.
    unsafe { slice::from_raw_parts(pointer.as_ptr(), count) }
}
