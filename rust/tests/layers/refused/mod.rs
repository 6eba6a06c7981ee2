//! Calls the functions beyond the port that allocate, and checks that each call returns its result
//! or out of memory, and then leaves everything as its contract says. With enough memory every call
//! has to return its result. Otherwise the one request that fails has to be made by exactly one
//! call, which is named.

mod lines;
mod ranges;
mod sets;
mod upgrades;
mod version_ranges;
mod versions;

use crate::proved::version_sets::VersionSet;

/// How a call ended.
#[derive(Clone, Copy, PartialEq, Eq)]
enum Ending {
    /// With its result.
    Full,
    /// Out of memory, and what its contract says about this holds.
    Refused,
    /// In any other way.
    Wrong,
}

impl Ending {
    /// Returns `Full` if the result is right, and otherwise `Wrong`.
    fn full_if(is_right: bool) -> Ending {
        if is_right {
            Ending::Full
        } else {
            Ending::Wrong
        }
    }

    /// Returns `Refused` if what the contract says holds, and otherwise `Wrong`.
    fn refused_if(is_kept: bool) -> Ending {
        if is_kept {
            Ending::Refused
        } else {
            Ending::Wrong
        }
    }
}

/// Makes all calls, and prints those that ran out of memory, and those that went wrong.
pub fn main() -> std::io::Result<()> {
    tell(&of_errors_and_ranges());
    tell(&of_lines());
    match sets::of_texts() {
        Ok((first, second)) => tell(&of_sets(&first, &second)),
        Err(ending) => tell(&[("sets_of_texts", ending)]),
    }
    println!("done");
    Ok(())
}

fn tell(endings: &[(&str, Ending)]) {
    for (call, ending) in endings {
        match ending {
            Ending::Full => {}
            Ending::Refused => println!("refused: {call}"),
            Ending::Wrong => println!("wrong: {call}"),
        }
    }
}

/// Returns how each call that explains an error, or reads or combines ranges, ends.
fn of_errors_and_ranges() -> [(&'static str, Ending); 15] {
    [
        ("version_error", versions::version_error()),
        ("cargo_requirement", ranges::requirement()),
        ("refused_requirements", ranges::refused_requirements()),
        ("cargo_read", sets::of_requirement()),
        ("refused_cargo_reads", sets::of_refused_requirements()),
        ("npm_range", ranges::npm_range()),
        ("refused_npm_ranges", ranges::refused_npm_ranges()),
        ("npm_read", sets::of_npm_ranges()),
        ("refused_npm_reads", sets::of_refused_npm_ranges()),
        ("within_bounds", sets::within_bounds()),
        ("refused_bounds", sets::of_refused_bounds()),
        ("range_error", ranges::range_error()),
        ("version_range", version_ranges::parse()),
        ("combined_ranges", version_ranges::combined()),
        ("raised_range", upgrades::raised()),
    ]
}

/// Returns how each filter of lines ends.
fn of_lines() -> [(&'static str, Ending); 9] {
    [
        ("copied_lines", lines::copied_lines()),
        ("greatest_line", lines::greatest_line()),
        ("least_line", lines::least_line()),
        ("sorted_lines", lines::sorted_lines()),
        ("many_sorted_lines", lines::many_sorted_lines()),
        ("line_without_an_end", lines::line_without_an_end()),
        ("line_of_a_file", lines::line_of_a_file()),
        ("lines_passed_over", lines::lines_passed_over()),
        ("refused_filter_texts", lines::refused_texts()),
    ]
}

/// Returns how each call for sets of versions ends, except reading these two.
fn of_sets(first: &VersionSet, second: &VersionSet) -> [(&'static str, Ending); 10] {
    [
        ("refused_set_texts", sets::of_refused_texts()),
        ("union", sets::union(first, second)),
        ("intersection", sets::intersection(first, second)),
        ("difference", sets::difference(first, second)),
        ("all", sets::all(first)),
        ("least", sets::lowest(first)),
        ("compared", sets::compared(first, second)),
        ("release_ranges", sets::release_ranges(first)),
        ("pre_release_ranges", sets::pre_release_ranges(first)),
        ("sets_without_requests", sets::without_requests(first, second)),
    ]
}
