//! The table of times.

use crate::agreement::{check_filter, check_has, check_row, count_read};
use crate::calls::{
    here_filter, here_has, here_read_kept, semver_filter, semver_read_kept, Call,
};
use crate::cells::grouped;
use crate::generation::Make;
use crate::ordering::{self, Parsed};
use crate::rows::{Row, ROWS};
use crate::texts::{self, COUNT};
use crate::timing::{best, Side};

/// How many texts are timed at once, if they are parsed one by one.
const STRETCH: usize = 1_000;

/// How many versions are filtered at once.
const FILTERED: usize = 10_000;

/// The number of ranges by which versions are filtered while they are parsed.
const READ_BY: usize = 10;

/// Nanoseconds for a text.
struct Times {
    title: String,
    here: f64,
    parser: Option<f64>,
    semver: f64,
    semver_reads: String,
}

/// Checks that all sides agree, times them, and prints a table.
pub fn print_table(seed: u64) -> Result<(), String> {
    let (filters, released) = (texts::filters()?, Make::Released.texts(seed, COUNT));
    let mixed = Make::Mixed.texts(seed, COUNT);
    let made: Vec<String> = ROWS.iter().map(|row| row.make.texts(seed, COUNT)).collect();
    let made: Vec<Vec<&str>> = made.iter().map(|text| text.lines().collect()).collect();
    for (row, texts) in ROWS.iter().zip(&made) {
        check_row(row, texts)?;
    }
    check_filter(&filters, &released)?;
    check_has(&filters, &mixed)?;
    let parsed = ordering::parsed(seed)?;

    print_head();
    for (row, texts) in ROWS.iter().zip(&made) {
        print_times(&row_times(row, texts));
    }
    for (title, here, semver) in ordering::ROWS {
        print_times(&ordering_times(title, [here, semver], &parsed));
    }
    print_times(&reading_times(&filters, &released));
    for times in filter_times(&filters, &released) {
        print_times(&times);
    }
    print_times(&has_times(&filters, &mixed));
    Ok(())
}

/// Returns the times of a row whose texts are parsed one by one.
fn row_times(row: &Row, texts: &[&str]) -> Times {
    let stretches: Vec<&[&str]> = texts.chunks(STRETCH).collect();
    let calls = [Some(row.here), Some(row.semver), row.parser];
    let sides: Vec<Side<&[&str]>> = calls.into_iter().flatten().map(side).collect();
    let best = best(&stretches, &sides);
    let count = texts.len() as f64;
    let read = grouped(count_read(row.semver, texts) as u64);
    Times {
        title: row.title.to_string(),
        here: best[0] / count,
        parser: best.get(2).map(|time| time / count),
        semver: best[1] / count,
        semver_reads: format!("{read} of {}", grouped(texts.len() as u64)),
    }
}

/// Returns a side that parses texts one by one.
pub fn side<'a>(call: Call) -> Side<'a, &'a [&'a str]> {
    Box::new(move |texts| texts.iter().fold(0, |sum: u64, text| sum.wrapping_add(call(text))))
}

/// Returns the times of a row of versions that were parsed before.
fn ordering_times(title: &str, calls: [ordering::Call; 2], parsed: &[Parsed]) -> Times {
    let sides = calls.map(|call| -> Side<'_, Parsed> { Box::new(call) });
    let best = best(parsed, &sides);
    Times {
        title: title.to_string(),
        here: best[0] / COUNT as f64,
        parser: None,
        semver: best[1] / COUNT as f64,
        semver_reads: format!("all of {}", grouped(COUNT as u64)),
    }
}

/// Returns the times of a filter that parses each version as far as needed: the mean for some
/// ranges.
fn reading_times(filters: &str, released: &str) -> Times {
    let ranges: Vec<&str> = filters.lines().take(READ_BY).collect();
    let by_each = |filter: fn(&str, &str) -> u64| -> Side<'_, String> {
        let ranges = ranges.clone();
        Box::new(move |versions| ranges.iter().map(|range| filter(range, versions)).sum())
    };
    let best = best(&stretches(released), &[here_read_kept, semver_read_kept].map(by_each));
    let count = ranges.len() as f64;
    filtering("parsing and filtering at once,", best[0] / count, best[1] / count, released)
}

/// Returns two times: versions that are parsed and filtered by the first range, and only filtering.
fn filter_times(filters: &str, released: &str) -> [Times; 2] {
    let (first, further) = first_and_further(here_filter, filters, released);
    [
        filtering("parsing all, and then filtering,", first[0], first[1], released),
        filtering("only filtering,", further[0], further[1], released),
    ]
}

/// Returns the time for checking whether versions, with pre-releases, are in a set.
fn has_times(filters: &str, mixed: &str) -> Times {
    let (_, further) = first_and_further(here_has, filters, mixed);
    filtering("checking whether they are in a set,", further[0], further[1], mixed)
}

/// Returns the times for versions that are parsed and matched with the first range, here and with
/// the crate `semver`, and the mean of the additional time for each further range. The crate
/// `semver-parser` has no call for whether a version satisfies a range.
fn first_and_further(
    here: fn(&str, &str) -> u64,
    ranges: &str,
    versions: &str,
) -> ([f64; 2], [f64; 2]) {
    let first = ranges.lines().next().unwrap_or("");
    let sides: [Side<String>; 4] = [
        Box::new(|versions| here(first, versions)),
        Box::new(|versions| semver_filter(first, versions)),
        Box::new(|versions| here(ranges, versions)),
        Box::new(|versions| semver_filter(ranges, versions)),
    ];
    let best = best(&stretches(versions), &sides);
    let further = (ranges.lines().count() - 1) as f64;
    ([best[0], best[1]], [(best[2] - best[0]) / further, (best[3] - best[1]) / further])
}

/// Returns a row for filters, from the nanoseconds for all versions.
fn filtering(title: &str, here: f64, semver: f64, released: &str) -> Times {
    let versions = released.lines().count();
    Times {
        title: format!("{title} {} versions", grouped(FILTERED as u64)),
        here: here / versions as f64,
        parser: None,
        semver: semver / versions as f64,
        semver_reads: format!("all of {}", grouped(versions as u64)),
    }
}

/// Returns the lines, `FILTERED` in each text.
fn stretches(lines: &str) -> Vec<String> {
    let lines: Vec<&str> = lines.split_inclusive('\n').collect();
    lines.chunks(FILTERED).map(|lines| lines.concat()).collect()
}

fn print_head() {
    print!("| ns a string | here | `semver-parser` | `semver` ");
    println!("| ratio to `semver-parser` | ratio to `semver` | `semver` reads |");
    println!("|---|---|---|---|---|---|---|");
}

fn print_times(times: &Times) {
    let (parser, to_parser) = match times.parser {
        Some(parser) => (format!("{parser:.1}"), format!("{:.2}", times.here / parser)),
        None => ("none".to_string(), "none".to_string()),
    };
    let (title, here, semver) = (&times.title, times.here, times.semver);
    let (to_semver, reads) = (here / semver, &times.semver_reads);
    print!("| {title} | {here:.1} | {parser} | {semver:.1} ");
    println!("| {to_parser} | {to_semver:.2} | {reads} |");
}
