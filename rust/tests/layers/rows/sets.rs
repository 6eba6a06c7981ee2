//! Sets of the versions that satisfy ranges, and how two of them compare.

use super::{versions_of, NOT_ALL};
use crate::proved::semver_parser::version::Version;
use crate::proved::semver_parser::RangeError;
use crate::proved::tool_ranges::meaning::{self, Rules};
use crate::proved::version_sets::{Combination, VersionSet};

/// Returns the versions of a list that are in the set of a range, then its lowest version and its
/// lowest release, or the error of the range.
pub fn set(meaning: Rules, text: &str, list: &str) -> String {
    let Some(versions) = versions_of(list) else {
        return NOT_ALL.into();
    };
    let set = match meaning::read(meaning, text) {
        Ok(set) => set,
        Err(error) => return error.to_string(),
    };
    let release = set.lowest_release().map(|it| it.version());
    let inside = versions.iter().filter(|version| set.contains(version));
    format!(
        "{}end, least {}, least release {}, empty {}",
        inside.map(|version| format!("{version} ")).collect::<String>(),
        lowest(&set),
        shown(release),
        set.is_empty()
    )
}

/// Returns how the sets of two ranges compare, or the error of a range. After the second range
/// there may be a semicolon and versions: for each of them, the sets that contain it follow.
pub fn pair(meaning: Rules, text: &str, steps: &str) -> String {
    let (other, list) = steps.split_once(';').unwrap_or((steps, ""));
    let parts = match Parts::of(meaning, text, other) {
        Ok(parts) => parts,
        Err(error) => return error.to_string(),
    };
    let Some(versions) = versions_of(list) else {
        return NOT_ALL.into();
    };
    let (first, second) = (&parts.first, &parts.second);
    let within = first.is_subset(second).unwrap();
    let overlaps = !first.is_disjoint(second).unwrap();
    let compared = format!(
        "lost {}, gained {}, shared {}, within {within}, overlaps {overlaps}, same {}",
        lowest(&parts.lost),
        lowest(&parts.gained),
        lowest(&parts.shared),
        first == second
    );
    let places = versions.iter().map(|it| format!("; {it}:{}", parts.with(it)));
    compared + &places.collect::<String>()
}

/// Returns the releases and the pre-releases in a range as ranges, or the error of the range.
pub fn whole(meaning: Rules, text: &str) -> String {
    match meaning::read(meaning, text) {
        Ok(set) => ranges(&set),
        Err(error) => error.to_string(),
    }
}

/// Returns what the second of two ranges loses, gains and shares compared with the first, as
/// ranges, or the error of a range.
pub fn whole_pair(meaning: Rules, text: &str, other: &str) -> String {
    match Parts::of(meaning, text, other) {
        Ok(it) => format!(
            "lost {}; gained {}; shared {}",
            ranges(&it.lost),
            ranges(&it.gained),
            ranges(&it.shared)
        ),
        Err(error) => error.to_string(),
    }
}

/// Returns the releases and the pre-releases in a set as ranges.
fn ranges(set: &VersionSet) -> String {
    let (releases, others) = (set.release_ranges().unwrap(), set.pre_release_ranges().unwrap());
    format!("{releases}, pre-releases {others}")
}

/// The sets of two ranges, their differences, intersection and union.
struct Parts {
    first: VersionSet,
    second: VersionSet,
    lost: VersionSet,
    gained: VersionSet,
    shared: VersionSet,
    union: VersionSet,
}

impl Parts {
    fn of(meaning: Rules, text: &str, other: &str) -> Result<Parts, RangeError> {
        let first = meaning::read(meaning, text)?;
        let second = meaning::read(meaning, other)?;
        Ok(Parts {
            lost: first.combined(Combination::Difference, &second).unwrap(),
            gained: second.combined(Combination::Difference, &first).unwrap(),
            shared: first.combined(Combination::Intersection, &second).unwrap(),
            union: first.combined(Combination::Union, &second).unwrap(),
            first,
            second,
        })
    }

    /// Returns the names of the sets that contain a version, each after a space.
    fn with(&self, version: &Version) -> String {
        let named = [
            (" first", &self.first),
            (" second", &self.second),
            (" lost", &self.lost),
            (" gained", &self.gained),
            (" shared", &self.shared),
            (" union", &self.union),
        ];
        let inside = named.into_iter().filter(|(_, set)| set.contains(version));
        inside.map(|(name, _)| name).collect()
    }
}

/// Returns the lowest version of a set, if there is one.
fn lowest(set: &VersionSet) -> String {
    shown(set.lowest().unwrap())
}

fn shown(version: Option<Version>) -> String {
    version.map_or("none".into(), |it| it.to_string())
}
