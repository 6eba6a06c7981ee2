//! The C API: the functions of include/semver_parser.h, which documents what each does and what its
//! caller must do. They contain no logic: each calls what is proved.
#![no_std]
#![deny(unsafe_op_in_unsafe_fn)]
#![allow(clippy::missing_safety_doc)]

extern crate alloc;
#[cfg(feature = "std")]
extern crate std;

#[path = "../../src/proved/mod.rs"]
mod proved;
#[path = "../../src/rattle_std.rs"]
#[allow(dead_code, unused_imports, unused_macros)]
mod rattle_std;

mod calls;
mod errors;
mod heap;
mod message;
mod shared;
mod types;

use calls::Comparators;
use core::ffi::c_char;
use errors::{finish, Error, Problem, Status, OK};
use message::c_text;
use shared::{Combination, Extreme, VersionRange as Range};
use types::{items, Comparator, Options, PartialVersion, Span, StringView, Term, Version};

/// Defines functions of the header. `name(arguments) -> output = call` has an output, and `error`
/// if it is listed; `name(arguments) => type = call` returns what the call returns;
/// `name(made) = call` frees its argument. An array is followed by its count.
macro_rules! functions {
    ($name:ident($($it:ident: $(&$of:ident)? $($type:ident)? $([$count:ident])?),*)
        -> $out:ident: $made:ty $(, $error:ident)? = $call:expr; $($rest:tt)*) => {
        #[no_mangle]
        pub unsafe extern "C" fn $name(
            $($it: $(*const $of)? $($type)?, $($count: usize,)?)*
            $out: *mut $made, $($error: *mut Error)?
        ) -> Status {
            let (call, error) = ($call, [$($error,)? core::ptr::null_mut()][0]);
            // SAFETY: the header requires valid arguments, and outputs that may be written.
            unsafe { finish(call($(given!($it $(&$of)? $($type)? $($count)?)),*), $out, error) }
        }
        functions! { $($rest)* }
    };
    ($name:ident($($it:ident: $(&$of:ident)? $($type:ident)?),*) => $made:ty = $call:expr;
        $($rest:tt)*) => {
        #[no_mangle]
        pub unsafe extern "C" fn $name($($it: $(*const $of)? $($type)?),*) -> $made {
            let call = $call;
            #[allow(unused_unsafe)]
            // SAFETY: the header requires valid arguments.
            unsafe { call($(given!($it $(&$of)? $($type)?)),*) }
        }
        functions! { $($rest)* }
    };
    ($name:ident($it:ident: *mut $type:ident) = $call:expr; $($rest:tt)*) => {
        #[no_mangle]
        pub unsafe extern "C" fn $name($it: *mut $type) {
            // SAFETY: the header requires a value that was made here, or null, and that isn't used
            // any more.
            unsafe { $call($it) }
        }
        functions! { $($rest)* }
    };
    () => {};
}

/// Converts an argument to its type in Rust.
#[rustfmt::skip]
macro_rules! given {
    ($it:ident StringView) => { $it.bytes() };
    ($it:ident & StringView $count:ident) => { items($it, $count) };
    ($it:ident & $of:ident) => { &*$it };
    ($it:ident $type:ident) => { $it };
}

functions! {
    semver_parser_free(string: *mut c_char) = heap::free_string;
    semver_parser_dialect_name(dialect: i32) => *const c_char
        = |number| c_text(&message::DIALECT_NAMES, number);
    semver_parser_pre_releases_name(pre_releases: i32) => *const c_char
        = |number| c_text(&message::PRE_RELEASES_NAMES, number);
    semver_parser_status_text(status: Status) => *const c_char
        = |number| c_text(&message::STATUS_TEXTS, number);
    semver_parser_status_name(status: Status) => *const c_char
        = |number| c_text(&message::STATUS_NAMES, number);
    semver_parser_reason_text(reason: i32) => *const c_char
        = |number| c_text(&message::REASON_TEXTS, number);
    semver_parser_reason_name(reason: i32) => *const c_char
        = |number| c_text(&message::REASON_NAMES, number);
    semver_parser_operator_sign(op: i32) => *const c_char
        = |number| c_text(&message::OPERATOR_SIGNS, number);
    semver_parser_library_version() => *const c_char
        = || concat!(env!("CARGO_PKG_VERSION"), "\0").as_ptr().cast();
    semver_parser_library_version_number() => u32 = || message::VERSION_NUMBER;
    semver_parser_error_message(error: &Error, string: StringView, caret: bool)
        -> message: *mut c_char = message::of_error;
    semver_parser_error_span(error: &Error, string: StringView) => Span = calls::error_span;
    semver_parser_suggestion(error: &Error, string: StringView, dialect: i32)
        -> suggestion: *mut c_char = calls::suggestion;

    semver_parser_satisfies(version: StringView, range: StringView, options: Options)
        -> satisfies: bool, error = calls::satisfies;
    semver_parser_parse_version(version: StringView, dialect: i32)
        -> parsed: Version, error = calls::parse_version;
    semver_parser_compare_versions(version: StringView, other: StringView, dialect: i32)
        -> order: i32, error = calls::compare_versions;

    semver_parser_replace_version(
        range: StringView, written: &PartialVersion, version: StringView, dialect: i32)
        -> replaced: *mut c_char, error = calls::replace_version;
    semver_parser_upgrade(range: StringView, version: StringView, options: Options)
        -> upgraded: *mut c_char, error = calls::upgrade;

    semver_parser_range_parse(string: StringView, options: Options)
        -> range: *mut Range, error = calls::parse_range;
    semver_parser_range_free(range: *mut Range) = heap::free_value;
    semver_parser_range_options(range: &Range) => Options
        = |range: &Range| Options::of(range.rules());
    semver_parser_range_contains(range: &Range, version: StringView)
        -> contains: bool, error = |range, version| calls::contains(range, version, 0);
    semver_parser_range_highest_of(
        range: &Range, versions: &StringView[count], skip_invalid: bool)
        -> index: usize, error
        = |range, versions, skip| calls::outermost(range, versions, skip, Extreme::Highest);
    semver_parser_range_lowest_of(
        range: &Range, versions: &StringView[count], skip_invalid: bool)
        -> index: usize, error
        = |range, versions, skip| calls::outermost(range, versions, skip, Extreme::Lowest);
    semver_parser_range_union(range: &Range, other: &Range) -> made: *mut Range, error
        = |range, other| calls::combine(range, other, Combination::Union);
    semver_parser_range_intersection(range: &Range, other: &Range) -> made: *mut Range, error
        = |range, other| calls::combine(range, other, Combination::Intersection);
    semver_parser_range_difference(range: &Range, other: &Range) -> made: *mut Range, error
        = |range, other| calls::combine(range, other, Combination::Difference);
    semver_parser_range_equal(range: &Range, other: &Range) -> equal: bool, error
        = |range, other| calls::compare(range, other, |one, two| Ok(one == two));
    semver_parser_range_is_subset(range: &Range, other: &Range) -> is_subset: bool, error
        = |range, other| calls::compare(range, other, Range::is_subset_of);
    semver_parser_range_is_disjoint(range: &Range, other: &Range) -> is_disjoint: bool, error
        = |range, other| calls::compare(range, other, Range::is_disjoint_from);
    semver_parser_range_is_empty(range: &Range) => bool = Range::is_empty;
    semver_parser_range_lowest_version(range: &Range)
        -> version: *mut c_char = calls::lowest_version;
    semver_parser_range_to_string(range: &Range, pre_releases: bool)
        -> string: *mut c_char = calls::range_to_string;
    semver_parser_range_to_requirement(range: &Range)
        -> requirement: *mut c_char = calls::range_to_requirement;

    semver_parser_comparators_of_range(range: StringView, dialect: i32, exact: bool)
        -> comparators: *mut Comparators, error = calls::comparators;
    semver_parser_comparators_free(comparators: *mut Comparators) = heap::free_value;
    semver_parser_comparators_count(comparators: &Comparators) => usize
        = |list: &Comparators| list.listed.len();
    semver_parser_comparators_get(comparators: &Comparators, index: usize)
        -> comparator: Comparator = Comparators::get;
    semver_parser_comparators_to_string(comparators: &Comparators)
        -> string: *mut c_char = Comparators::to_string;
}

#[no_mangle]
pub unsafe extern "C" fn semver_parser_check_range(
    range: StringView,
    dialect: i32,
    error: *mut Error,
) -> Status {
    // SAFETY: as in `functions`; there is no output.
    unsafe { finish(calls::check_range(range.bytes(), dialect), &mut (), error) }
}

#[no_mangle]
pub unsafe extern "C" fn semver_parser_range_contains_each(
    range: *const Range,
    versions: *const StringView,
    count: usize,
    contains: *mut bool,
    statuses: *mut Status,
) -> Status {
    // SAFETY: as in `functions`; the outputs have `count` items, and `statuses` may be null.
    unsafe {
        for (at, version) in items(versions, count).iter().enumerate() {
            let answer = calls::contains(&*range, version.bytes(), at);
            let status = answer.as_ref().map_or_else(Problem::status, |_| OK);
            contains.add(at).write(answer.unwrap_or(false));
            if !statuses.is_null() {
                statuses.add(at).write(status);
            }
        }
    }
    OK
}

#[no_mangle]
pub unsafe extern "C" fn semver_parser_terms_of_range(
    range: StringView,
    dialect: i32,
    terms: *mut Term,
    capacity: usize,
    count: *mut usize,
    error: *mut Error,
) -> Status {
    let read = calls::terms(range.bytes(), dialect).map(|found| {
        let mut read = 0;
        for term in found {
            if read < capacity {
                // SAFETY: as in `functions`; the array has capacity for `capacity` terms.
                unsafe { terms.add(read).write(Term::of(&term)) };
            }
            read += 1;
        }
        read
    });
    // SAFETY: as in `functions`.
    unsafe { finish(read, count, error) }
}
