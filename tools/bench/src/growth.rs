//! How the work grows with the length of a text: the instructions of one call, counted by
//! callgrind.

use crate::calls::{
    here_meets_npm, here_range, here_replaced, here_set, here_terms, here_version, here_within,
    Call, REFUSED,
};
use crate::cells::grouped;
use std::env;
use std::process::Command;

/// A text with this many elements, and calls with it that are repeated. The calls return whether
/// none rejected it.
struct Form {
    name: &'static str,
    text: fn(usize) -> String,
    calls: fn(&str, u64) -> bool,
}

const FORMS: [Form; 9] = [
    Form {
        name: "identifiers",
        text: |count| format!("1.2.3-{}", joined("rc", ".", count)),
        calls: |text, times| reads(here_version, text, times),
    },
    Form {
        name: "alphanumerics",
        text: |count| format!("1.2.3-{}", joined("rc", "-", count)),
        calls: |text, times| reads(here_version, text, times),
    },
    Form {
        name: "digits",
        text: |count| format!("1.2.3-{}", joined("7", "", count)),
        calls: |text, times| reads(here_version, text, times),
    },
    Form {
        name: "terms",
        text: |count| joined("^1.2.3", " ", count),
        calls: |text, times| reads(here_range, text, times),
    },
    Form {
        name: "ranges",
        text: |count| joined("^1.2.3", " || ", count),
        calls: |text, times| reads(here_range, text, times),
    },
    Form {
        name: "terms, matched with one version",
        text: |count| format!("{}\t9.9.9", joined("^1.2.3", " ", count)),
        calls: |text, times| reads(here_meets_npm, text, times),
    },
    Form {
        name: "ranges, matched with one version",
        text: |count| format!("{}\t9.9.9", joined("^1.2.3", " || ", count)),
        calls: |text, times| reads(here_meets_npm, text, times),
    },
    Form {
        name: "ranges, made into a set",
        text: distinct_ranges,
        calls: |text, times| reads(here_set, text, times),
    },
    Form {
        name: "ranges, one set within another",
        text: distinct_ranges,
        calls: |text, times| here_within(text, times) == times,
    },
];

/// Short elements, for calls on the terms of a text.
const SHORT: [&str; 5] = ["1 ", "^1 || ", "1.x ", ">1 <2 ", "1 - 2 || "];
const ON_TERMS: [(&str, Call); 2] = [("terms of ", here_terms), ("replacing in ", here_replaced)];

const COUNTS: [usize; 4] = [10, 1_000, 10_000, 100_000];

/// Prints a table of the forms, and one of the calls on terms, separated by an empty line.
pub fn print_tables() -> Result<(), String> {
    print_head("instructions for a string of");
    for form in &FORMS {
        print_row(form.name, form.name)?;
    }
    println!();
    print_head("instructions for");
    for (call, _) in ON_TERMS {
        for short in SHORT {
            let shown = short.replace('|', "\\|");
            print_row(&format!("{call}{short}"), &format!("{call}`{shown}`"))?;
        }
    }
    Ok(())
}

fn print_head(title: &str) {
    print!("| {title} | 10 | for each | 1,000 | for each ");
    println!("| 10,000 | for each | 100,000 | for each |");
    println!("|---|---|---|---|---|---|---|---|---|");
}

/// Prints the instructions of a call for each count of elements, and the instructions for one
/// element.
fn print_row(name: &str, title: &str) -> Result<(), String> {
    print!("| {title} |");
    for count in COUNTS {
        let instructions = instructions(name, count)?;
        print!(" {} | {} |", grouped(instructions), grouped(instructions / count as u64));
    }
    println!();
    Ok(())
}

/// Makes a text of a form, and makes the calls of that form this many times, for callgrind.
pub fn run(name: &str, count: &str, calls: &str) -> Result<(), String> {
    let count = count.parse().map_err(|_| "no count")?;
    let calls = calls.parse().map_err(|_| "no count of calls")?;
    let accepts = match FORMS.iter().find(|form| form.name == name) {
        Some(form) => (form.calls)(&(form.text)(count), calls),
        None => {
            let of = |(title, call): &(&str, Call)| Some((*call, name.strip_prefix(title)?));
            let (call, short) = ON_TERMS.iter().find_map(of).ok_or("no such form")?;
            reads(call, &short.repeat(count), calls)
        }
    };
    if accepts {
        Ok(())
    } else {
        Err(format!("a text of {count} {name} was refused"))
    }
}

/// Returns whether a call accepts a text each time.
fn reads(call: Call, text: &str, times: u64) -> bool {
    (0..times).all(|_| call(text) != REFUSED)
}

/// Returns the instructions of one call: the difference between a run with it and one without.
fn instructions(name: &str, count: usize) -> Result<u64, String> {
    Ok(counted(name, count, "1")? - counted(name, count, "0")?)
}

/// Returns the instructions of this program under callgrind.
fn counted(name: &str, count: usize, calls: &str) -> Result<u64, String> {
    let program = env::current_exe().map_err(|error| error.to_string())?;
    let run = Command::new("valgrind")
        .args(["--tool=callgrind", "--callgrind-out-file=/dev/null"])
        .arg(program)
        .args(["run", name, &count.to_string(), calls])
        .output()
        .map_err(|error| format!("valgrind: {error}"))?;
    let report = String::from_utf8_lossy(&run.stderr);
    if !run.status.success() {
        return Err(report.into_owned());
    }
    let collected = report.lines().find_map(|line| line.split("Collected : ").nth(1));
    collected
        .and_then(|number| number.trim().parse().ok())
        .ok_or(format!("callgrind counted nothing: {report}"))
}

fn joined(element: &str, between: &str, count: usize) -> String {
    vec![element; count].join(between)
}

/// Returns ranges that are pairwise disjoint: `~0.1.0 || ~1.1.0`, and so on.
fn distinct_ranges(count: usize) -> String {
    let ranges: Vec<String> = (0..count).map(|major| format!("~{major}.1.0")).collect();
    ranges.join(" || ")
}
