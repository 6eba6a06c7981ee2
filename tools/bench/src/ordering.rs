//! Compares, sorts and clones versions that were parsed before.

use crate::generation::Make;
use crate::texts::COUNT;
use here::Dialect;

/// The same versions, parsed here and with the crate `semver`.
pub struct Parsed {
    here: Vec<here::Version>,
    semver: Vec<semver::Version>,
}

/// Compares, sorts or clones versions. Returns a number that depends on the result.
pub type Call = fn(&Parsed) -> u64;

/// Rows: a title, and the calls that are compared.
pub const ROWS: [(&str, Call, Call); 4] = [
    ("comparing two versions", compared_here, compared_by_semver),
    ("sorting references to 1,000 versions", sorted_here, sorted_by_semver),
    ("cloning 1,000 versions", cloned_here, cloned_by_semver),
    ("cloning and sorting 1,000 versions", sorted_clones_here, sorted_clones_by_semver),
];

/// Parses versions, plain and with identifiers, in groups of 1,000. Checks that both sides put each
/// group into the same order.
pub fn parsed(seed: u64) -> Result<Vec<Parsed>, String> {
    let texts = Make::Mixed.texts(seed, COUNT);
    let texts: Vec<&str> = texts.lines().collect();
    let groups: Option<Vec<Parsed>> = texts.chunks(1_000).map(parsed_group).collect();
    let groups = groups.ok_or("a version isn't accepted by both sides")?;
    if groups.iter().all(is_ordered_alike) {
        Ok(groups)
    } else {
        Err("versions are sorted in another order here than by semver".to_string())
    }
}

fn parsed_group(texts: &[&str]) -> Option<Parsed> {
    let here = texts.iter().map(|text| here::Version::parse(text, Dialect::Cargo).ok());
    let semver = texts.iter().map(|text| semver::Version::parse(text).ok());
    Some(Parsed { here: here.collect::<Option<_>>()?, semver: semver.collect::<Option<_>>()? })
}

fn is_ordered_alike(parsed: &Parsed) -> bool {
    let (mut here, mut semver) = (parsed.here.clone(), parsed.semver.clone());
    here.sort();
    semver.sort();
    here.iter().zip(&semver).all(|(one, other)| one.to_string() == other.to_string())
}

/// Compares each version with the next one. Returns how many are below it.
fn compared_here(parsed: &Parsed) -> u64 {
    count_below(&parsed.here)
}

fn compared_by_semver(parsed: &Parsed) -> u64 {
    count_below(&parsed.semver)
}

fn count_below<T: Ord>(versions: &[T]) -> u64 {
    versions.windows(2).map(|pair| u64::from(pair[0] < pair[1])).sum()
}

/// Returns the major of the version in the middle.
fn sorted_here(parsed: &Parsed) -> u64 {
    middle(parsed.here.iter().collect()).major()
}

fn sorted_by_semver(parsed: &Parsed) -> u64 {
    middle(parsed.semver.iter().collect()).major
}

/// Returns the major of the last version.
fn cloned_here(parsed: &Parsed) -> u64 {
    parsed.here.clone().last().map_or(0, |version| version.major())
}

fn cloned_by_semver(parsed: &Parsed) -> u64 {
    parsed.semver.clone().last().map_or(0, |version| version.major)
}

/// Returns the major of the version in the middle.
fn sorted_clones_here(parsed: &Parsed) -> u64 {
    middle(parsed.here.clone()).major()
}

fn sorted_clones_by_semver(parsed: &Parsed) -> u64 {
    middle(parsed.semver.clone()).major
}

/// Sorts versions. Returns the one in the middle.
fn middle<T: Ord>(mut versions: Vec<T>) -> T {
    versions.sort();
    versions.swap_remove(versions.len() / 2)
}
