//! Replays the table in `tests/layers`. Each line of `stdin` has a name, a call and a string,
//! separated by tabs, and for some calls versions, another range, or both. Each line of `stdout`
//! has the name and what the call returned, or after `sum-of-` the length and the checksum of that.
//! The wanted lines come from brute force, from the tools themselves, and from the published rules
//! (`docs/TESTED.md`). The calls of the port, which other tables have, are answered, too.

mod filtering;
mod ranges;
mod sets;
mod versions;

use crate::proved::replayed_cases::{self as port, checksum::Checksum, text};
use crate::proved::semver_parser::version::{self, Grammar, Version};
use crate::proved::semver_ranges::dialect::Dialect;
use crate::proved::tool_ranges::meaning::Rules;
use crate::proved::version_sets::PreReleases;
use std::io::{self, BufRead, Write};

pub fn main() -> io::Result<()> {
    let mut output = io::BufWriter::new(io::stdout());
    for line in io::stdin().lock().lines() {
        writeln!(output, "{}", replayed(&line?))?;
    }
    output.flush()
}

/// Returns the name of a case and what its call returned.
fn replayed(line: &str) -> String {
    let mut fields = line.splitn(4, '\t');
    let mut field = || fields.next().unwrap_or_default();
    let (name, call) = (field(), field());
    let [Some(text), Some(steps)] = [field(), field()].map(|it| text::expanded(it).unwrap()) else {
        return format!("{name}: no text");
    };
    let Some(call) = call.strip_prefix("sum-of-") else {
        return format!("{name}: {}", answer(call, &text, &steps));
    };
    let mut sum = Checksum::new();
    sum.write_all(answer(call, &text, &steps).as_bytes()).unwrap();
    format!("{name}: {sum}")
}

/// Returns what a call returns for a string.
fn answer(call: &str, text: &str, steps: &str) -> String {
    if let Some((call, tool)) = call.rsplit_once("-as-") {
        return answer_in(call, tool, text, steps);
    }
    match call {
        "read" => versions::read(text),
        "read-ref" => versions::read_ref(text),
        "copy-lines" => filtering::copied(text, "", steps),
        "copy-tags" => filtering::copied(text, "v", steps),
        "greatest-line" => filtering::highest_line(text, "", steps),
        "greatest-tag" => filtering::highest_line(text, "v", steps),
        "greatest-release" => filtering::highest(text, PreReleases::Excluded, steps),
        "greatest-stated" => filtering::highest(text, PreReleases::ByDialect, steps),
        "greatest-of-all" => filtering::highest(text, PreReleases::Included, steps),
        _ => answer_by_rule(call, text, steps),
    }
}

/// Returns what a call returns in a dialect.
fn answer_in(call: &str, tool: &str, text: &str, steps: &str) -> String {
    let (grammar, dialect) = match tool {
        "cargo" => (Grammar::Cargo, Dialect::Cargo),
        "npm" => (Grammar::Npm, Dialect::Npm),
        "crate" | "crate-cargo" => (Grammar::Crate, Dialect::CrateCargo),
        "crate-npm" => (Grammar::Crate, Dialect::CrateNpm),
        _ => return "no such call".into(),
    };
    let meaning = |pre_releases| Rules { dialect, pre_releases };
    match call {
        "version" => versions::read_in(text, grammar),
        "refused" => versions::refused(text, grammar),
        "refused-range" => ranges::refused(text, dialect),
        "rewritten" => ranges::rewritten(text, dialect),
        "meant" => ranges::meant(text, meaning(PreReleases::ByDialect), steps),
        "meant-with-all" => ranges::meant(text, meaning(PreReleases::Included), steps),
        "upgraded" => ranges::upgraded(text, meaning(PreReleases::ByDialect), steps),
        "requirement" => match steps {
            "included" => ranges::required(text, meaning(PreReleases::Included)),
            "excluded" => ranges::required(text, meaning(PreReleases::Excluded)),
            _ => ranges::required(text, meaning(PreReleases::ByDialect)),
        },
        _ => "no such call".into(),
    }
}

/// Returns what a call returns by a rule for pre-releases in a mode of the crate, which are the
/// last two words of its name, such as `pair-stated-npm`. Any other call is one of the port.
fn answer_by_rule(call: &str, text: &str, steps: &str) -> String {
    let words: Vec<&str> = call.rsplitn(3, '-').collect();
    let dialect = match words[0] {
        "cargo" => Dialect::CrateCargo,
        "npm" => Dialect::CrateNpm,
        _ => return answer_of_port(call, text, steps),
    };
    let pre_releases = match words.get(1) {
        Some(&"releases") => PreReleases::Excluded,
        Some(&"stated") => PreReleases::ByDialect,
        Some(&"mean") => PreReleases::Included,
        _ => return answer_of_port(call, text, steps),
    };
    let meaning = Rules { dialect, pre_releases };
    match words.get(2) {
        None => filtering::kept(text, meaning, steps),
        Some(&"set") => sets::set(meaning, text, steps),
        Some(&"pair") => sets::pair(meaning, text, steps),
        Some(&"whole") => sets::whole(meaning, text),
        Some(&"whole-pair") => sets::whole_pair(meaning, text, steps),
        _ => "no such call".into(),
    }
}

fn answer_of_port(call: &str, text: &str, steps: &str) -> String {
    let mut bytes = Vec::new();
    port::answer(call, text, steps, &mut bytes).unwrap();
    String::from_utf8(bytes).unwrap()
}

/// Returns the versions of a list, between which are spaces, or `None` if an item is invalid.
fn versions_of(list: &str) -> Option<Vec<Version>> {
    let items = list.split(' ').filter(|item| !item.is_empty());
    items.map(|item| version::parse(item).ok()).collect()
}

const NOT_ALL: &str = "not all are versions";
