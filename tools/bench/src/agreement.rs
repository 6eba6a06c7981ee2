//! Checks what has to hold before anything is timed: each side accepts the same texts, and its
//! calls return the same numbers.

use crate::calls::{
    here_filter, here_has, here_read_kept, semver_filter, semver_read_kept, Call, REFUSED,
};
use crate::rows::Row;

/// Checks that this library and the crate `semver-parser`, or `semver` if the row has no call of
/// that, return the same for each text of a row, and accept each, or none if the row's texts are
/// invalid.
pub fn check_row(row: &Row, texts: &[&str]) -> Result<(), String> {
    for text in texts {
        let other = row.parser.unwrap_or(row.semver);
        let (here, other) = ((row.here)(text), other(text));
        if here != other || (here == REFUSED) != row.is_refused() {
            let (here, other) = (answer(here), answer(other));
            let title = row.title;
            return Err(format!("{title}: {text:?}: {here} here, {other} there"));
        }
    }
    Ok(())
}

/// Checks that each range keeps as many of the versions here as with the crate `semver`, both if
/// the versions are parsed before and if they are parsed as far as needed.
pub fn check_filter(ranges: &str, versions: &str) -> Result<(), String> {
    for range in ranges.lines() {
        let semver = semver_filter(range, versions);
        let others = [here_filter, here_read_kept, semver_read_kept];
        for kept in others.map(|filter| filter(range, versions)) {
            if kept != semver || kept == REFUSED {
                let (kept, semver) = (answer(kept), answer(semver));
                return Err(format!("filters: {range:?}: {kept} are kept, and {semver} by semver"));
            }
        }
    }
    Ok(())
}

/// Checks that the set of each range here contains as many of the versions as match the range in
/// the crate `semver`.
pub fn check_has(ranges: &str, versions: &str) -> Result<(), String> {
    for range in ranges.lines() {
        let (here, semver) = (here_has(range, versions), semver_filter(range, versions));
        if here != semver || here == REFUSED {
            let (here, semver) = (answer(here), answer(semver));
            return Err(format!("sets: {range:?}: {here} are in it, but {semver} match in semver"));
        }
    }
    Ok(())
}

/// Returns how many of the texts a call accepts.
pub fn count_read(call: Call, texts: &[&str]) -> usize {
    texts.iter().filter(|text| call(text) != REFUSED).count()
}

fn answer(number: u64) -> String {
    if number == REFUSED {
        "refused".to_string()
    } else {
        number.to_string()
    }
}
