//! The interface that isn't `semver-parser` 0.10's: versions, ranges, rules and the error. The order
//! of versions in these tests is that of SemVer 2.0.0, section 11.

use semver_parser::*;
use std::collections::hash_map::DefaultHasher;
use std::collections::{BTreeSet, HashSet};
use std::hash::{Hash, Hasher};
use std::panic::{RefUnwindSafe, UnwindSafe};

type Result<T = (), E = Error> = std::result::Result<T, E>;

#[test]
fn a_version_is_semver_and_version_parse_is_the_originals() -> Result {
    for (string, semver, original) in [
        ("1.0.0--a", true, false),
        ("1.0.0-a-", true, false),
        ("1.0.0-01", false, true),
        (" 1.2.3\n", false, true),
        ("1.2.3-rc.1+b", true, true),
    ] {
        assert_eq!(string.parse::<Version>().is_ok(), semver, "{string:?}");
        assert_eq!(Version::try_from(string).is_ok(), semver);
        assert_eq!(Version::try_from(string.to_string()).is_ok(), semver);
        assert_eq!(Version::parse(string, Dialect::Cargo).is_ok(), semver);
        assert_eq!(version::parse(string).is_ok(), original, "{string:?}");
    }
    const VERSION: Version = Version::new(1, 2, 3);
    const BORROWED: VersionRef<'_> = VersionRef::new(1, 2, 3);
    assert_eq!(VERSION, BORROWED.to_version());
    assert_eq!(VersionRef::from(&VERSION), BORROWED);
    let plain = version::parse("1.2.3-rc.1+b").unwrap();
    assert_eq!(version::Version::from(&Version::try_from(&plain)?), plain);
    assert!(Version::try_from(&version::parse("1.0.0-01").unwrap()).is_err());
    assert!("1.0.0-rc".parse::<Version>()? < Version::new(1, 0, 0));
    assert!(version::parse("1.0.0-rc").unwrap() > version::parse("1.0.0").unwrap());
    assert_eq!(format!("{VERSION:?} {BORROWED:?}"), "\"1.2.3\" \"1.2.3\"");
    Ok(())
}

/// The example of section 11.4.4 of SemVer 2.0.0, and numbers above 2^64 - 1.
#[test]
fn versions_are_ordered_by_precedence() -> Result {
    let ascending = [
        "1.0.0-9223372036854775808",
        "1.0.0-18446744073709551616",
        "1.0.0-100000000000000000000",
        "1.0.0-9a",
        "1.0.0-alpha",
        "1.0.0-alpha.1",
        "1.0.0-alpha.beta",
        "1.0.0-beta",
        "1.0.0-beta.2",
        "1.0.0-beta.11",
        "1.0.0-rc.1",
        "1.0.0",
        "2.0.0",
        "2.1.0",
        "2.1.1",
    ];
    let versions: Vec<Version> = ascending.iter().map(|it| it.parse()).collect::<Result<_>>()?;
    for (i, one) in versions.iter().enumerate() {
        for (j, other) in versions.iter().enumerate() {
            assert_eq!(one.cmp(other), i.cmp(&j), "{one} {other}");
            assert_eq!(one.cmp_precedence(other), i.cmp(&j), "{one} {other}");
        }
    }
    Ok(())
}

/// 0.10 and its dialects keep identifiers of digits from 2^64 on, and those that begin with a zero,
/// as strings; versions of all dialects are in one order nevertheless.
#[test]
fn the_order_is_that_of_equality() -> Result {
    let hash = |version: &VersionRef<'_>| {
        let mut hasher = DefaultHasher::new();
        version.hash(&mut hasher);
        hasher.finish()
    };
    let mut all = Vec::new();
    for dialect in Dialect::ALL {
        for core in ["1.0.0", "1.0.1", "2.0.0"] {
            for pre in ["", "-1", "-01", "-1.a", "-a", "-99999999999999999999", "-9a"] {
                for build in ["", "+a", "+01", "+1"] {
                    let string: &'static str = format!("{core}{pre}{build}").leak();
                    all.extend(VersionRef::parse(string, dialect));
                }
            }
        }
    }
    assert!(all.len() > 250);
    for one in &all {
        for other in &all {
            let ordering = one.cmp(other);
            assert_eq!(ordering, other.cmp(one).reverse(), "{one} {other}");
            assert_eq!(ordering.is_eq(), one == other, "{one} {other}");
            assert_eq!(one == other, one.to_string() == other.to_string());
            assert_eq!(ordering, one.to_version().cmp(&other.to_version()));
            assert!(one != other || hash(one) == hash(other));
            let precedence = one.cmp_precedence(other);
            assert!(precedence.is_eq() || precedence == ordering, "{one} {other}");
            for third in all.iter().filter(|_| ordering.is_le()) {
                assert!(other > third || one <= third, "{one} {other} {third}");
            }
        }
    }
    let set: HashSet<_> = all.iter().collect();
    assert_eq!(set.len(), all.iter().collect::<BTreeSet<_>>().len());
    Ok(())
}

#[test]
fn a_version_keeps_its_strings() -> Result {
    for string in ["1.2.3", "1.2.3-rc.1", "1.2.3+b.5", "1.2.3-rc.1+b.5", "1.2.3--.0+-"] {
        let version: Version = string.parse()?;
        let borrowed = version.as_version_ref();
        assert_eq!((version.pre(), version.build()), (borrowed.pre(), borrowed.build()));
        let (rest, build) = string.split_once('+').unwrap_or((string, ""));
        let (_, pre) = rest.split_once('-').unwrap_or((rest, ""));
        assert_eq!((version.pre(), version.build()), (pre, build));
        assert_eq!(version.is_pre_release(), !pre.is_empty());
        assert_eq!((version.to_string(), borrowed.to_string()), (string.into(), string.into()));
        assert_eq!(String::from(version.clone()), string);
        assert_eq!(Version::from(borrowed), version);
    }
    Ok(())
}

#[test]
fn one_name_asks_about_all_kinds_of_versions() -> Result {
    let range = VersionRange::parse("^1.2", Dialect::Npm)?;
    let owned = Version::new(1, 9, 0);
    let borrowed = VersionRef::parse("1.9.0", Dialect::Npm)?;
    let plain = version::parse("1.9.0")?;
    assert!(range.contains(&owned) && range.contains(borrowed) && range.contains(&borrowed));
    assert!(range.contains(&plain) && range.contains(plain.clone()));
    assert!(range.contains("1.9.0")? && range.contains(String::from("1.9.0"))?);
    assert_eq!([owned.clone()].iter().filter(|it| range.contains(it)).count(), 1);
    let strings: Vec<String> = ["1.9.0", "x", "1.10.0", "2.0.0"].map(String::from).into();
    assert_eq!(range.highest(&strings), Some(&strings[2]));
    assert_eq!(range.lowest(strings.iter().map(String::as_str)), Some("1.9.0"));
    assert_eq!(range.highest(strings.clone()), Some(strings[2].clone()));
    let versions = [owned.clone(), Version::new(1, 2, 0), Version::new(3, 0, 0)];
    assert_eq!(range.highest(&versions), Some(&owned));
    assert_eq!(range.lowest(versions.clone()), Some(Version::new(1, 2, 0)));
    assert_eq!(range.lowest([borrowed, VersionRef::new(1, 3, 0)]), Some(VersionRef::new(1, 3, 0)));
    assert_eq!(range.highest([&plain]), Some(&plain));
    assert_eq!(range.highest(["2.0.0", "latest"]), None);
    assert_eq!(range.highest(Vec::<Version>::new()), None);
    Ok(())
}

/// Equal versions are those that differ in their build metadata only.
#[test]
fn of_equal_versions_the_first_is_returned() -> Result {
    let range = VersionRange::parse(">=1.0.0-a", Dialect::Npm)?;
    let strings = ["1.0.0-b+1", "1.0.0-b+2", "1.0.0-a+1", "1.0.0-a+2"];
    assert_eq!(range.highest(strings), Some("1.0.0-b+1"));
    assert_eq!(range.lowest(strings), Some("1.0.0-a+1"));
    let versions = strings.map(|it| it.parse::<Version>().unwrap());
    assert_eq!(range.highest(&versions), Some(&versions[0]));
    assert_eq!(range.lowest(&versions), Some(&versions[2]));
    let plain = strings.map(|it| version::parse(it).unwrap());
    assert_eq!(range.highest(&plain), Some(&plain[0]));
    assert_eq!(range.lowest(&plain), Some(&plain[2]));
    Ok(())
}

/// To 0.10 an identifier of digits from 2^64 on is a string, so that `99..` is above `100..`.
#[test]
fn the_dialect_says_what_the_highest_version_is() -> Result {
    let strings = ["1.0.0-99999999999999999999", "1.0.0-100000000000000000000"];
    for (dialect, highest) in
        [(Dialect::Cargo, 1), (Dialect::Npm, 1), (Dialect::CrateCargo, 0), (Dialect::CrateNpm, 0)]
    {
        let range = VersionRange::parse(">=1.0.0-0", dialect)?;
        assert_eq!(range.highest(strings), Some(strings[highest]), "{dialect}");
        assert_eq!(range.lowest(strings), Some(strings[1 - highest]), "{dialect}");
        let plain = strings.map(|it| version::parse(it).unwrap());
        assert_eq!(range.highest(&plain), Some(&plain[highest]), "{dialect}");
        let borrowed = strings.map(|it| VersionRef::parse(it, dialect).unwrap());
        assert_eq!(range.highest(borrowed), Some(borrowed[highest]), "{dialect}");
        let owned = borrowed.map(|it| it.to_version());
        assert_eq!(range.highest(&owned), Some(&owned[highest]), "{dialect}");
    }
    Ok(())
}

#[test]
fn each_error_converts() {
    fn from_version() -> Result {
        version::parse("1")?;
        Ok(())
    }
    fn from_token() -> Result {
        lexer::Lexer::new("/").next().unwrap()?;
        Ok(())
    }
    fn from_range() -> Result {
        RangeSet::try_parse("a", Compat::Npm)?;
        Ok(())
    }
    let cargo = VersionRange::parse("1", Dialect::Cargo).unwrap();
    let npm = VersionRange::parse("1", Dialect::Npm).unwrap();
    let different = "the ranges were read by different rules";
    let all = [
        (ErrorKind::InvalidVersion, "invalid version: expected more input", from_version()),
        (ErrorKind::InvalidVersion, "invalid version: unexpected character '/'", from_token()),
        (ErrorKind::InvalidRange, "invalid range: not a range", from_range()),
        (
            ErrorKind::UnknownName,
            "unknown name \"yarn\": expected cargo, npm, crate-cargo or crate-npm",
            "yarn".parse::<Dialect>().map(drop),
        ),
        (
            ErrorKind::UnknownName,
            "unknown name \"\": expected by-dialect, included or excluded",
            "".parse::<PreReleases>().map(drop),
        ),
        (ErrorKind::DifferentRules, different, cargo.union(&npm).map(drop)),
        (ErrorKind::DifferentRules, different, npm.difference(&cargo).map(drop)),
    ];
    for (kind, sentence, result) in all {
        let error = result.unwrap_err();
        assert_eq!((error.kind(), error.to_string()), (kind, sentence.to_string()));
        assert_eq!(format!("{error:#}"), sentence);
        assert_eq!((error.offset(), error.reason()), (None, None));
    }
    let memory = Error::from(RangeError::OutOfMemory);
    assert_eq!((memory.kind(), memory.to_string()), (ErrorKind::OutOfMemory, "out of memory".into()));
    assert_eq!(Error::from(parser::Error::OutOfMemory), memory);
}

#[cfg(feature = "std")]
#[test]
fn an_error_can_be_boxed() {
    let memory = Error::from(RangeError::OutOfMemory);
    let boxed: Box<dyn std::error::Error + Send + Sync> = memory.into();
    assert_eq!(boxed.to_string(), "out of memory");
}

#[test]
fn a_dialect_alone_means_its_own_rule() -> Result {
    for dialect in Dialect::ALL {
        let rules = VersionRange::parse("1.2.3", dialect)?.rules();
        assert_eq!(rules, Rules::from(dialect));
        assert_eq!((rules.dialect, rules.pre_releases), (dialect, PreReleases::ByDialect));
        assert_eq!(dialect.name().parse(), Ok(dialect));
        assert_eq!(format!("{dialect:>12}"), format!("{:>12}", dialect.name()));
    }
    assert_eq!(PreReleases::default(), PreReleases::ByDialect);
    const ALL: Rules = Dialect::Npm.with(PreReleases::Included);
    assert!(satisfies("1.3.0-rc.1", "^1.2", ALL)?);
    assert!(!satisfies("1.3.0-rc.1", "^1.2", Dialect::Npm)?);
    assert!(!satisfies("1.2.0-b", "^1.2.0-a", Dialect::Npm.with(PreReleases::Excluded))?);
    assert!(satisfies("1.2.0-b", "^1.2.0-a", Dialect::Npm)?);
    Ok(())
}

#[test]
fn debug_of_a_range_has_the_range_and_its_rules() -> Result {
    let range = VersionRange::parse("^1.2", Dialect::Cargo)?;
    let rules = "Rules { dialect: Cargo, pre_releases: ByDialect }";
    assert_eq!(format!("{range:?}"), format!("VersionRange(>=1.2.0, <2.0.0, {rules})"));
    assert_eq!(format!("{range:#?}"), format!("{range:?}"));
    Ok(())
}

#[test]
fn an_operator_panics_if_rules_differ() {
    let [cargo, npm] = [Dialect::Cargo, Dialect::Npm].map(|it| VersionRange::parse("1", it).unwrap());
    for call in [|a: &_, b: &_| a | b, |a: &VersionRange, b: &_| a & b, |a: &_, b: &_| a - b] {
        let (one, other) = (cargo.clone(), npm.clone());
        let panic = std::panic::catch_unwind(move || call(&one, &other)).unwrap_err();
        let said = panic.downcast_ref::<String>().unwrap();
        assert_eq!(said, "the ranges were read by different rules");
    }
}

fn is_plain<T: Send + Sync + UnwindSafe + RefUnwindSafe + Unpin + 'static>() {}

#[test]
fn types_have_the_auto_traits() {
    is_plain::<Version>();
    is_plain::<VersionRef<'static>>();
    is_plain::<VersionRange>();
    is_plain::<Rules>();
    is_plain::<Dialect>();
    is_plain::<PreReleases>();
    is_plain::<Error>();
    is_plain::<ErrorKind>();
    is_plain::<Reason>();
    is_plain::<Term<'static>>();
    is_plain::<Terms<'static>>();
    is_plain::<PartialVersion<'static>>();
    is_plain::<Span>();
    is_plain::<Operator>();
    is_plain::<Component>();
    is_plain::<RangeSet>();
    is_plain::<Range>();
    is_plain::<Comparator>();
    is_plain::<Op>();
    is_plain::<Compat>();
    is_plain::<Identifier>();
    is_plain::<RangeError>();
    is_plain::<version::Version>();
    is_plain::<version::Identifier>();
    is_plain::<lexer::Lexer<'static>>();
    is_plain::<lexer::Token<'static>>();
    is_plain::<lexer::Error>();
    is_plain::<parser::Parser<'static>>();
    is_plain::<parser::Error<'static>>();
    assert!(std::mem::size_of::<Error>() <= 64);
    assert_eq!(std::mem::size_of::<Result<bool>>(), std::mem::size_of::<Error>());
}
