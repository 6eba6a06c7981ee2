//! The table of whole runs: `release-filter` as cargo builds it and as the kit does, compared with
//! the same filter with the crate `semver`.

use crate::cells::grouped;
use crate::generation::Make;
use crate::texts::write;
use crate::timing::{best, Side};
use std::env;
use std::fs::{self, File};
use std::path::{Path, PathBuf};
use std::process::{Command, Stdio};

/// The program that cargo built, relative to the directory `bench`.
const BY_CARGO: &str = "target/crate/release/release-filter";

/// The one that the kit built, if it did.
const BY_KIT: &str = "../../crates/release_filter_main/out/release_filter_main";

/// How many distinct lines a run reads.
const LINES: usize = 1_000_000;

/// What the lines are made of.
const MAKES: [(&str, Make); 2] =
    [("plain versions", Make::Plain), ("versions, plain and with identifiers", Make::Mixed)];

/// The arguments here, options and a range, and those of the program with the crate `semver`,
/// options and a requirement. Each is here twice: in the crate's Cargo mode, and below in Cargo's
/// own dialect.
const ARGUMENTS: [(&[&str], &str, &[&str], &str); 8] = [
    (&["--dialect", "crate-cargo"], "^1.2", &[], "^1.2"),
    (&[], "^1.2", &[], "^1.2"),
    (&["--dialect", "crate-cargo"], ">=1.0.0 <3.0.0", &[], ">=1.0.0, <3.0.0"),
    (&[], ">=1.0.0, <3.0.0", &[], ">=1.0.0, <3.0.0"),
    (&["--dialect", "crate-cargo"], "^1.2.3-a", &["--pre-stated"], "^1.2.3-a"),
    (&[], "^1.2.3-a", &["--pre-stated"], "^1.2.3-a"),
    (&["--dialect", "crate-cargo", "--highest"], "^1.2", &["--highest"], "^1.2"),
    (&["--highest"], "^1.2", &["--highest"], "^1.2"),
];

/// The programs, with arguments that mean the same to each.
struct Sides<'a> {
    here: Filter<'a>,
    by_kit: Option<Filter<'a>>,
    semver: Filter<'a>,
}

/// A program with its arguments.
struct Filter<'a> {
    program: &'a Path,
    options: &'a [&'a str],
    range: &'a str,
}

/// Checks that the programs write the same, times them, and prints a table.
pub fn print_table(seed: u64) -> Result<(), String> {
    let folder = folder()?;
    let (lines, semver) = (folder.join("lines.txt"), folder.join("filter-by-semver"));
    let (by_cargo, by_kit) = (Path::new(BY_CARGO), Path::new(BY_KIT));
    let sides = ARGUMENTS.map(|(options, range, options_there, requirement)| Sides {
        here: Filter { program: by_cargo, options, range },
        by_kit: by_kit.exists().then_some(Filter { program: by_kit, options, range }),
        semver: Filter { program: &semver, options: options_there, range: requirement },
    });
    print!("| ms a run | `release-filter` | as the kit builds it | over `semver` ");
    println!("| ratio | kept of {} lines |", grouped(LINES as u64));
    println!("|---|---|---|---|---|---|");
    for (title, make) in MAKES {
        let versions = make.texts(seed, LINES);
        write(&lines, &versions)?;
        for sides in &sides {
            print_row(title, sides, &lines, true)?;
        }
        write(&lines, &tags(&versions))?;
        for sides in &sides[..2] {
            print_row(&format!("{title}, with a `v` before"), sides, &lines, false)?;
        }
    }
    fs::remove_file(&lines).map_err(|error| format!("{}: {error}", lines.display()))
}

/// Returns the directory of this program, which also has the other one.
fn folder() -> Result<PathBuf, String> {
    let program = env::current_exe().map_err(|error| error.to_string())?;
    program.parent().map(Path::to_path_buf).ok_or("this program has no directory".to_string())
}

/// Returns lines with a `v` before each version, which makes them invalid in Cargo's dialect.
fn tags(versions: &str) -> String {
    versions.lines().flat_map(|line| ["v", line, "\n"]).collect()
}

/// Prints the row of one range for lines of which some are kept, or none.
fn print_row(title: &str, sides: &Sides, lines: &Path, is_kept: bool) -> Result<(), String> {
    let here = &sides.here;
    let kept = here.output(lines)?;
    let others = [Some(&sides.semver), sides.by_kit.as_ref()];
    for other in others.into_iter().flatten() {
        if kept.is_empty() == is_kept || kept != other.output(lines)? {
            let range = here.range;
            return Err(format!("{title}, {range}: the programs don't write what is expected"));
        }
    }
    let filters = [Some(here)].into_iter().chain(others).flatten();
    let passes: Vec<Side<&Path>> = filters.map(|filter| filter.side()).collect();
    let best: Vec<f64> =
        best(&[lines], &passes).iter().map(|nanoseconds| nanoseconds / 1e6).collect();
    let kept = grouped(kept.iter().filter(|byte| **byte == b'\n').count() as u64);
    let arguments = [here.options, &[here.range]].concat().join(" ");
    let by_kit = best.get(2).map_or("none".to_string(), |time| format!("{time:.1}"));
    let (here, semver) = (best[0], best[1]);
    let ratio = here / semver;
    print!("| {title}, `{arguments}` | {here:.1} | {by_kit} | {semver:.1} ");
    println!("| {ratio:.2} | {kept} |");
    Ok(())
}

impl Filter<'_> {
    /// Returns what the program writes for the lines. Its status has to be 1 if that is nothing.
    fn output(&self, lines: &Path) -> Result<Vec<u8>, String> {
        let named = |error| format!("{}: {error}", self.program.display());
        let run = self.command(lines).stderr(Stdio::inherit()).output().map_err(named)?;
        if run.status.code() == Some(i32::from(run.stdout.is_empty())) {
            Ok(run.stdout)
        } else {
            Err(format!("{} {:?}: {}", self.program.display(), self.range, run.status))
        }
    }

    fn side(&self) -> Side<'_, &Path> {
        Box::new(|lines| self.pass(lines))
    }

    /// Runs the program once, without its output and messages. Returns the status.
    fn pass(&self, lines: &Path) -> u64 {
        let run = self.command(lines).stdout(Stdio::null()).stderr(Stdio::null()).status();
        run.ok().and_then(|status| status.code()).map_or(u64::MAX, |code| code as u64)
    }

    fn command(&self, lines: &Path) -> Command {
        let mut command = Command::new(self.program);
        command.args(self.options).arg(self.range).stdin(File::open(lines).map_or(Stdio::null(), Stdio::from));
        command
    }
}
