//! The surface of the Rust crate `semver-parser` 0.10.3, under its paths and with its signatures:
//! this compiles as it did with the original. After it are the traits and the errors that are
//! written by hand. The file interface.rs has what isn't the original's.

use semver_parser::lexer::{self, Lexer, Token};
use semver_parser::parser::{self, Parser};
use semver_parser::version::{self, Version};
use semver_parser::{satisfies, terms};
use semver_parser::{Comparator, Compat, Identifier, Op, Range, RangeSet};
use semver_parser::{Dialect, Error, ErrorKind, PreReleases, VersionRange, VersionRef};
use std::alloc::{GlobalAlloc, Layout, System};
use std::cell::Cell;
use std::collections::HashSet;
use std::fmt::{Debug, Display};
use std::hash::Hash;
use std::str::FromStr;

fn is_plain<T: Clone + PartialEq + Eq + PartialOrd + Ord + Hash + Debug>() {}

fn is_ordered<T: PartialEq + Eq + PartialOrd + Ord + Debug>() {}

fn is_shown<T: Display>() {}

#[test]
fn types_have_the_traits_of_the_original() {
    is_plain::<RangeSet>();
    is_plain::<Range>();
    is_plain::<Comparator>();
    is_plain::<Op>();
    is_plain::<Identifier>();
    is_plain::<Compat>();
    is_plain::<Version>();
    is_plain::<version::Identifier>();
    is_ordered::<Token>();
    is_ordered::<lexer::Error>();
    is_ordered::<parser::Error>();
    is_shown::<RangeSet>();
    is_shown::<Range>();
    is_shown::<Comparator>();
    is_shown::<Op>();
    is_shown::<Identifier>();
    is_shown::<Version>();
    is_shown::<version::Identifier>();
    is_shown::<parser::Error>();
}

#[test]
fn functions_have_the_signatures_of_the_original() {
    let _: fn(&str, Compat) -> Result<RangeSet, String> = RangeSet::parse;
    let _: fn(&str) -> Result<RangeSet, String> = <RangeSet as FromStr>::from_str;
    let _: for<'a> fn(&'a str) -> Result<Version, parser::Error<'a>> = version::parse;
    let _: fn(version::Identifier, &str) -> version::Identifier = version::Identifier::concat;
    let _: for<'a> fn(&'a str) -> Lexer<'a> = Lexer::new;
    let _: fn(&'static str) -> Result<Parser<'static>, parser::Error<'static>> = Parser::new;
}

#[test]
fn a_parser_reads_token_by_token() -> Result<(), String> {
    let mut parser = Parser::new("1.2.3-rc.4 a")?;
    assert_eq!(parser.numeric()?, 1);
    assert_eq!(parser.dot_component()?, (Some(2), false));
    assert_eq!(parser.dot_numeric()?, 3);
    assert!(!parser.is_eof());
    let rest = parser.tail()?;
    assert_eq!(rest[..2], [Token::Hyphen, Token::AlphaNumeric("rc")]);
    Ok(())
}

#[test]
fn errors_are_sentences() {
    let error = version::parse("1.2").unwrap_err();
    assert_eq!(String::from(error), "expected more input");
    let boxed: Box<dyn std::error::Error> =
        Box::from(RangeSet::parse("a", Compat::Npm).unwrap_err());
    assert_eq!(boxed.to_string(), "not a range");
}

#[test]
fn values_are_cloned_and_hashed() -> Result<(), String> {
    let set: RangeSet = "^1.2.3 || =2.0.0-rc".parse()?;
    let sets = HashSet::from([set.clone(), set]);
    assert_eq!(sets.len(), 1);
    Ok(())
}

// ---------------------------------------------------------------- traits that are written by hand

fn npm_range(range: &str, pre_releases: PreReleases) -> VersionRange {
    VersionRange::parse(range, Dialect::Npm.with(pre_releases)).unwrap()
}

#[test]
fn ranges_are_cloned_and_hashed_by_their_versions_and_rules() {
    let range = npm_range("^1.2.3-rc.1", PreReleases::ByDialect);
    let ranges = [
        range.clone(),
        npm_range("^1.2.3-rc.1 || ^1.4", PreReleases::ByDialect),
        npm_range("^1.2.3-rc.1+b5", PreReleases::ByDialect),
        range.clone(),
    ];
    assert!(ranges.iter().all(|it| *it == range));
    let others = [
        npm_range("^1.2.3", PreReleases::ByDialect),
        npm_range("^1.2.3-rc.1", PreReleases::Included),
        npm_range("^1.2.3-rc.1", PreReleases::Excluded),
        VersionRange::parse("^1.2.3-rc.1", Dialect::Cargo).unwrap(),
    ];
    let all: HashSet<VersionRange> = ranges.into_iter().chain(others.clone()).collect();
    assert_eq!(all.len(), 1 + others.len());
    assert!(others.iter().all(|it| *it != range && all.contains(it)));
}

#[test]
fn a_clone_of_a_range_has_a_memory_of_its_own() {
    let range = npm_range("=1.2.3-rc.1 || ^2.0.0-a", PreReleases::ByDialect);
    let copy = range.clone();
    drop(range);
    assert_eq!(copy.contains("1.2.3-rc.1"), Ok(true));
    assert_eq!(copy.contains("2.0.0-b"), Ok(true));
    assert_eq!(copy.contains("1.2.3-rc.2"), Ok(false));
}

#[test]
fn ranges_of_cargo_are_cloned_and_hashed_by_their_versions() {
    let read = |range: &str| VersionRange::parse(range, Dialect::Cargo).unwrap();
    let one = read(">=1.2.0, <1.5.0-rc.1");
    let same = [
        one.clone(),
        read(">=1.2.0, >=1.0.0, <1.5.0-rc.1+b5"),
        one.clone(),
    ];
    assert!(same.iter().all(|it| *it == one));
    let others = [
        read(">=1.2.0, <1.5.0-rc.2"),
        read(">=1.2.0, <1.5.0"),
        read("*"),
        read(">1, <1"),
    ];
    let all: HashSet<VersionRange> = same.into_iter().chain(others.clone()).collect();
    assert_eq!(all.len(), 1 + others.len());
    assert!(others.iter().all(|it| *it != one && all.contains(it)));
}

/// To the crate an identifier of digits from 2^64 on is a string, so its ranges are others.
#[test]
fn ranges_of_other_digits_are_different() {
    let of_crate = VersionRange::parse("=1.2.3", Dialect::CrateNpm).unwrap();
    let of_npm = VersionRange::parse("=1.2.3", Dialect::Npm).unwrap();
    assert!(of_crate == of_crate.clone() && of_npm == of_npm.clone());
    assert!(of_crate != of_npm && of_crate.clone() != of_npm && of_crate != of_npm.clone());
    let different = of_crate.is_subset(&of_npm).unwrap_err();
    assert_eq!(different.kind(), ErrorKind::DifferentRules);
    assert_eq!(HashSet::from([of_crate, of_npm]).len(), 2);
}

#[test]
fn rules_for_pre_releases_are_read_by_their_names() {
    let read = |name: &str| name.parse::<PreReleases>();
    assert_eq!(read("by-dialect"), Ok(PreReleases::ByDialect));
    assert_eq!(read("included"), Ok(PreReleases::Included));
    assert_eq!(read("excluded"), Ok(PreReleases::Excluded));
    for name in ["", "Included", "included ", "cargo", "default"] {
        let error = read(name).unwrap_err().to_string();
        let expected = "expected by-dialect, included or excluded";
        assert_eq!(error, format!("unknown name {name:?}: {expected}"));
    }
}

#[test]
fn borrowed_versions_are_equal_by_their_parts() {
    let read = |version, dialect| VersionRef::parse(version, dialect).unwrap();
    let one = read("1.2.3-rc.1+b5", Dialect::Cargo);
    assert_eq!(one, read(" v1.2.3-rc.1+b5 ", Dialect::Npm));
    let others = [
        "2.2.3-rc.1+b5",
        "1.3.3-rc.1+b5",
        "1.2.4-rc.1+b5",
        "1.2.3-rc.2+b5",
    ];
    for other in others
        .iter()
        .chain(&["1.2.3-rc.1+b6", "1.2.3-rc.1", "1.2.3+b5"])
    {
        assert_ne!(one, read(other, Dialect::Cargo), "{other}");
    }
    // Equal by precedence, and not by their bytes.
    let build = read("1.2.3-rc.1+b6", Dialect::Cargo);
    assert!(one.cmp_precedence(&build).is_eq() && one != build && one < build);
    let zero = read("1.2.3-01", Dialect::CrateNpm);
    assert_ne!(zero, read("1.2.3-1", Dialect::CrateNpm));
}

/// No version of a dialect has a number above its limit M, so above M the number before it is
/// raised. The rows are decided by hand, by that rule.
#[test]
fn the_lowest_version_is_one_of_the_dialect() {
    // A range, the lowest version by default, and with all pre-releases.
    let rows = [
        (">1.2.M", "1.3.0", "1.3.0-0"),
        (">1.M.M", "2.0.0", "2.0.0-0"),
        (">M.M.M", "none", "none"),
        (">1.2.M-a", "1.2.M-a.0", "1.2.M-a.0"),
        ("=1.2.M", "1.2.M", "1.2.M"),
        (">1.2.0", "1.2.1", "1.2.1-0"),
    ];
    // Npm's ranges may also be joined by `||` and spaces.
    let rows_of_npm = [
        (">1.2.M <1.3.0-0", "none", "none"),
        (">1.2.M <1.3.0-0 || 5", "5.0.0", "5.0.0-0"),
        (">1.2.M <1.3.0 || 5", "5.0.0", "1.3.0-0"),
        (">1.2.M <1.3.0-0 || >2.M.M <3.0.0-0 || 4.0.0-b", "4.0.0-b", "4.0.0-b"),
    ];
    let npm = rows.iter().chain(&rows_of_npm).map(|row| (Dialect::Npm, (1u64 << 53) - 1, row));
    let cargo = rows.iter().map(|row| (Dialect::Cargo, u64::MAX, row));
    for (dialect, most, (range, by_default, with_all)) in npm.chain(cargo) {
        let most = most.to_string();
        for (pre_releases, wanted) in
            [(PreReleases::ByDialect, by_default), (PreReleases::Included, with_all)]
        {
            let range = range.replace('M', &most);
            let read = VersionRange::parse(&range, dialect.with(pre_releases)).unwrap();
            let lowest = read.min_version().map_or("none".into(), |version| version.to_string());
            assert_eq!(lowest, wanted.replace('M', &most), "{range} in {dialect}'s dialect");
        }
    }
}

// ---------------------------------------------------------------- errors

/// The string is printed in one line, with each character escaped that isn't a printable one of
/// ASCII, and the carets are in the columns of the span, which begins at the offset here.
#[test]
fn carets_are_below_the_span() {
    let of_range = |range| VersionRange::parse(range, Dialect::Npm).unwrap_err();
    let rows = [
        ("1 \u{e9}", 2, "1 \\u{e9}", 2, 6),
        ("1\t\u{e9}", 2, "1\\t\\u{e9}", 3, 6),
        ("1\t\t\u{e9}\u{4e2d}", 3, "1\\t\\t\\u{e9}\\u{4e2d}", 5, 14),
        ("\u{a0}1 \u{1b123}", 4, "\\u{a0}1 \\u{1b123}", 8, 9),
        ("\u{1b}[31m", 0, "\\u{1b}[31m", 0, 6),
        ("1\t\"", 2, "1\\t\\\"", 3, 2),
        ("1\t\\", 2, "1\\t\\\\", 3, 2),
        ("1\r\n\u{7f}", 3, "1\\r\\n\\u{7f}", 5, 6),
        ("\u{1f600}", 0, "\\u{1f600}", 0, 9),
    ];
    for (range, offset, shown, column, width) in rows {
        let error = of_range(range);
        assert_eq!(error.offset(), Some(offset), "{range:?}");
        let carets = format!("{}{}", " ".repeat(4 + column), "^".repeat(width));
        let wanted = format!("invalid range: unexpected character\n    {shown}\n{carets}");
        assert_eq!(format!("{error:#}"), wanted, "{range:?}");
    }
}

/// A width in a format string can't be above 65,535.
#[test]
fn a_caret_may_be_far_away() {
    for length in [10, 65_535, 66_000] {
        let version = format!("1.2.3-{}!", "a".repeat(length));
        let error = VersionRef::parse(&version, Dialect::Cargo).unwrap_err();
        let caret = format!("{}^", " ".repeat(4 + version.len() - 1));
        let wanted = format!("invalid version: unexpected character\n    {version}\n{caret}");
        assert_eq!(format!("{error:#}"), wanted);
    }
}

#[cfg(feature = "std")]
#[test]
fn an_error_of_the_lexer_is_the_source_of_that_of_the_parser() {
    use std::error::Error;
    let error = version::parse("1.2.3-a/").unwrap_err();
    assert_eq!(
        error,
        parser::Error::Lexer(lexer::Error::UnexpectedChar('/'))
    );
    let source = error.source().unwrap();
    assert_eq!(source.to_string(), "unexpected character '/'");
    let of_lexer = source.downcast_ref::<lexer::Error>();
    assert_eq!(of_lexer, Some(&lexer::Error::UnexpectedChar('/')));
    assert!(source.source().is_none());
    assert!(version::parse("1.2").unwrap_err().source().is_none());
}

// ---------------------------------------------------------------- out of memory

/// Refuses requests of a thread, if that asks for it.
struct Refusing;

/// How many more requests of a thread are granted, and whether only the next one is refused or all.
#[derive(Clone, Copy)]
struct Granted {
    left: usize,
    refuses_all: bool,
    was_refused: bool,
}

const ALL: Granted = Granted {
    left: usize::MAX,
    refuses_all: false,
    was_refused: false,
};

thread_local! {
    static GRANTED: Cell<Granted> = const { Cell::new(ALL) };
}

fn is_granted() -> bool {
    let granted = GRANTED.with(Cell::get);
    let is_granted = granted.left > 0;
    let left = match is_granted {
        true => granted.left - 1,
        false if granted.refuses_all => 0,
        false => usize::MAX,
    };
    let was_refused = granted.was_refused || !is_granted;
    GRANTED.with(|it| {
        it.set(Granted {
            left,
            was_refused,
            ..granted
        })
    });
    is_granted
}

#[global_allocator]
static REFUSING: Refusing = Refusing;

// SAFETY: each call is passed on to `System`, or returns null, as `alloc` may. `is_granted` doesn't
// allocate: its variable is made by the compiler, and nothing is dropped when the thread ends.
unsafe impl GlobalAlloc for Refusing {
    unsafe fn alloc(&self, layout: Layout) -> *mut u8 {
        if !is_granted() {
            return std::ptr::null_mut();
        }
        System.alloc(layout)
    }

    unsafe fn dealloc(&self, at: *mut u8, layout: Layout) {
        System.dealloc(at, layout)
    }
}

/// Makes a call whose first requests are granted. Returns whether one was refused.
fn with_granted<T>(left: usize, refuses_all: bool, call: impl FnOnce() -> T) -> (T, bool) {
    GRANTED.with(|it| {
        it.set(Granted {
            left,
            refuses_all,
            was_refused: false,
        })
    });
    let result = call();
    let was_refused = GRANTED.with(Cell::get).was_refused;
    GRANTED.with(|it| it.set(ALL));
    (result, was_refused)
}

fn is_out_of_memory(error: &Error) -> bool {
    error.kind() == ErrorKind::OutOfMemory
        && (error.offset(), error.reason(), error.string()) == (None, None, "")
        && error.to_string() == "out of memory"
        && format!("{error:#}") == "out of memory"
}

/// A call that fails, and returns its error.
type Failing = fn() -> Option<Error>;

/// Makes a call with each of its requests refused, alone and with all after it.
fn fails_as_it_should(what: &str, call: Failing) {
    let wanted = call().unwrap();
    assert_ne!(wanted.kind(), ErrorKind::OutOfMemory, "{what}");
    assert!(
        wanted.offset().is_some() && wanted.reason().is_some(),
        "{what}"
    );
    for refuses_all in [false, true] {
        let mut request = 0;
        loop {
            let (error, was_refused) = with_granted(request, refuses_all, call);
            if !was_refused {
                assert_eq!(error.as_ref(), Some(&wanted), "{what}");
                break;
            }
            assert!(
                is_out_of_memory(&error.unwrap()),
                "{what}, request {request}"
            );
            request += 1;
        }
        assert!(request > 0, "{what}: it doesn't allocate");
    }
}

#[test]
fn an_error_for_out_of_memory_has_no_offset() {
    const LARGE: &str = "^18446744073709551615";
    let calls: [(&str, Failing); 7] = [
        ("a range", || {
            VersionRange::parse("^1.2 || 2", Dialect::Cargo).err()
        }),
        ("a number", || {
            VersionRange::parse(LARGE, Dialect::Cargo).err()
        }),
        ("terms", || terms("1 2 |", Dialect::Npm).err()),
        ("a borrowed version", || {
            VersionRef::parse("1.2.3-a..b", Dialect::Npm).err()
        }),
        ("a version", || {
            "1.2.3-".parse::<semver_parser::Version>().err()
        }),
        ("the version of both", || {
            satisfies("1.2", "^1", Dialect::Npm).err()
        }),
        ("the range of both", || {
            satisfies("1.2.3", "^1 ^", Dialect::Npm).err()
        }),
    ];
    for (what, call) in calls {
        fails_as_it_should(what, call);
    }
}

/// A version that is copied reports a failed allocation, and so does the name of no dialect.
#[test]
fn other_calls_report_a_failed_allocation() {
    let read = || semver_parser::Version::parse("1.2.3-rc.1+b5", Dialect::Cargo);
    let (version, was_refused) = with_granted(0, false, read);
    assert!(was_refused && is_out_of_memory(&version.unwrap_err()));
    let (dialect, was_refused) = with_granted(0, false, || "yarn".parse::<Dialect>());
    assert!(was_refused && is_out_of_memory(&dialect.unwrap_err()));
    let read = |range| VersionRange::parse(range, Dialect::Npm).unwrap();
    let (one, other) = (read("^1 || ^3"), read("^2 || ^4"));
    let (union, was_refused) = with_granted(0, false, || one.union(&other));
    assert!(was_refused && is_out_of_memory(&union.unwrap_err()));
}
