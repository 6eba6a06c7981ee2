//! The terms of ranges: what is written, and where. The expected values are read off the strings.

use semver_parser::Component::{Number, Wildcard};
use semver_parser::{terms, Component, Dialect, Error, ErrorKind, Operator, Reason, Span, VersionRef};

/// What is written of a term: the index of its range, its operator, its string, and of each version
/// the string.
type Written<'t> = (usize, String, &'t str, Vec<&'t str>);

fn written(range: &str, dialect: Dialect) -> Result<Vec<Written<'_>>, Error> {
    let found = terms(range, dialect)?.map(|term| {
        let versions = [Some(term.version), term.upper].into_iter().flatten();
        (
            term.range,
            term.operator.to_string(),
            &range[term.span.range()],
            versions.map(|version| &range[version.span.range()]).collect(),
        )
    });
    Ok(found.collect())
}

#[test]
fn each_term_is_where_it_is_written() -> Result<(), Error> {
    assert_eq!(
        written("\t^ v1.2  ||>=3.0.0-rc.1 <\n4\u{a0}|| 1.2  -  2.x ||", Dialect::Npm)?,
        [
            (0, "^".into(), "^ v1.2", vec!["v1.2"]),
            (1, ">=".into(), ">=3.0.0-rc.1", vec!["3.0.0-rc.1"]),
            (1, "<".into(), "<\n4", vec!["4"]),
            (2, "-".into(), "1.2  -  2.x", vec!["1.2", "2.x"]),
        ]
    );
    assert_eq!(
        written(" >= 1.2 ,<2,=1.5.*", Dialect::Cargo)?,
        [
            (0, ">=".into(), ">= 1.2", vec!["1.2"]),
            (0, "<".into(), "<2", vec!["2"]),
            (0, "=".into(), "=1.5.*", vec!["1.5.*"]),
        ]
    );
    assert_eq!(
        written("  1.2.3+b || ~> 1.X", Dialect::CrateNpm)?,
        [
            (0, "".into(), "1.2.3+b", vec!["1.2.3+b"]),
            (1, "~".into(), "~> 1.X", vec!["1.X"]),
        ]
    );
    Ok(())
}

#[test]
fn an_empty_range_has_no_term() -> Result<(), Error> {
    assert_eq!(written("", Dialect::Npm)?, []);
    assert_eq!(written(" || ", Dialect::CrateCargo)?, []);
    assert_eq!(written("|| ||1", Dialect::Npm)?, [(2, "".into(), "1", vec!["1"])]);
    assert_eq!(written("*", Dialect::Cargo)?, [(0, "".into(), "*", vec!["*"])]);
    Ok(())
}

#[test]
fn a_version_has_its_components() -> Result<(), Error> {
    type Parts<'t> = (Component, Option<Component>, Option<Component>, &'t str, &'t str);
    fn parts(range: &str) -> Result<Parts<'_>, Error> {
        let version = terms(range, Dialect::Npm)?.next().unwrap().version;
        Ok((version.major, version.minor, version.patch, version.pre, version.build))
    }
    let (one, two, three) = (Number(1), Some(Number(2)), Some(Number(3)));
    assert_eq!(parts("~1")?, (one, None, None, "", ""));
    assert_eq!(parts("~1.2")?, (one, two, None, "", ""));
    assert_eq!(parts("1.2.3")?, (one, two, three, "", ""));
    assert_eq!(parts(">1.2.3-rc.1+b.5")?, (one, two, three, "rc.1", "b.5"));
    assert_eq!(parts("1.2.3+b.5")?, (one, two, three, "", "b.5"));
    assert_eq!(parts("1.X.3")?, (one, Some(Wildcard('X')), three, "", ""));
    assert_eq!(parts("x")?, (Wildcard('x'), None, None, "", ""));
    assert_eq!(parts("1.2.*-x.y")?, (one, two, Some(Wildcard('*')), "x.y", ""));
    // A number after a wildcard doesn't count. This one is 2^64.
    let largest = Some(Number(u64::MAX));
    assert_eq!(parts("1.x.18446744073709551616")?, (one, Some(Wildcard('x')), largest, "", ""));
    Ok(())
}

#[test]
fn invalid_ranges_have_no_terms() {
    let error = terms("1 || 2", Dialect::Cargo).unwrap_err();
    assert_eq!((error.offset(), error.string()), (Some(2), "1 || 2"));
    let error = terms("^1 || <9007199254740992", Dialect::Npm).unwrap_err();
    let found = (error.kind(), error.offset(), error.reason());
    let wanted = (ErrorKind::InvalidRange, Some(7), Some(Reason::NpmTooLarge));
    assert_eq!(found, wanted);
}

#[test]
fn iterators_are_cloned_and_end() -> Result<(), Error> {
    let mut found = terms("1 - 2 || 3", Dialect::Npm)?;
    let again = found.clone();
    assert_eq!(found.next().map(|term| term.operator), Some(Operator::Hyphen));
    assert_eq!(found.next().map(|term| term.span), Some(Span { start: 9, end: 10 }));
    assert_eq!((found.next(), found.next()), (None, None));
    assert_eq!(again.count(), 2);
    Ok(())
}

#[test]
fn a_version_takes_the_form_of_another() -> Result<(), Error> {
    let to = VersionRef::parse("3.1.4-rc.1+b5", Dialect::Npm)?;
    let rewritten = |range| {
        let version = terms(range, Dialect::Npm)?.next().unwrap().version;
        Ok::<_, Error>((version.to_string(), version.with_version(&to).to_string()))
    };
    for (range, written, new) in [
        ("^1", "1", "3"),
        ("~> 1.2", "1.2", "3.1"),
        ("v1.2.0", "v1.2.0", "v3.1.4-rc.1"),
        ("=1.2.3-a.b+c.d", "1.2.3-a.b+c.d", "3.1.4-rc.1"),
        ("1.2.3+c", "1.2.3+c", "3.1.4-rc.1"),
        ("1.X", "1.X", "3.X"),
        ("1.*.x", "1.*.x", "3.*.x"),
        ("1.2.x-a", "1.2.x-a", "3.1.x"),
        ("x.1.2", "x.1.2", "x.1.4"),
        ("*", "*", "*"),
    ] {
        assert_eq!(rewritten(range)?, (written.to_string(), new.to_string()), "{range}");
    }
    let raised = terms("1 - v2.x", Dialect::Npm)?.next().unwrap().upper.unwrap();
    assert_eq!(raised.with_version(&to).span, Span { start: 4, end: 8 });
    Ok(())
}
