//! The row of npm's dialect: ranges, each matched with one version, here and in node-semver.

use crate::calls::{here_meets_npm, REFUSED};
use crate::cells::grouped;
use crate::generation::Make;
use crate::speed::side;
use crate::texts::{self, COUNT};
use crate::timing::best;
use std::fs;
use std::path::Path;
use std::process::Command;

/// How many texts are timed at once.
const STRETCH: usize = 1_000;

/// How many passes node-semver makes.
const PASSES: &str = "30";

/// The file with the pairs for node-semver.
const PAIRS: &str = "target/asked-npm.txt";

/// Checks that both sides agree on how many ranges contain their version, times them, and prints a
/// table.
pub fn print_table(seed: u64) -> Result<(), String> {
    let made = Make::AskedNpm.texts(seed, COUNT);
    let pairs: Vec<&str> = made.lines().collect();
    if pairs.iter().any(|pair| here_meets_npm(pair) == REFUSED) {
        return Err("a pair was rejected here".to_string());
    }
    let met: u64 = pairs.iter().map(|pair| here_meets_npm(pair)).sum();
    fs::create_dir_all("target").map_err(|error| error.to_string())?;
    texts::write(Path::new(PAIRS), &made)?;
    let (node, node_met) = by_node_semver()?;
    if met != node_met {
        return Err(format!("{met} ranges contain their version, but {node_met} in node-semver"));
    }
    let stretches: Vec<&[&str]> = pairs.chunks(STRETCH).collect();
    let here = best(&stretches, &[side(here_meets_npm)])[0] / pairs.len() as f64;
    println!("| ns a pair | here | node-semver | ratio | have their version |");
    println!("|---|---|---|---|---|");
    let (met, count) = (grouped(met), grouped(pairs.len() as u64));
    println!("| three ranges of one version | {here:.1} | {node:.1} | {:.2} | {met} of {count} |", here / node);
    Ok(())
}

/// Returns node-semver's nanoseconds for a pair, and how many ranges contain their version in it.
fn by_node_semver() -> Result<(f64, u64), String> {
    let run = Command::new("node")
        .args(["node-semver.js", PAIRS, PASSES])
        .output()
        .map_err(|error| format!("node: {error}"))?;
    let printed = String::from_utf8_lossy(&run.stdout);
    let told = printed.trim().split_once(' ');
    told.and_then(|(time, met)| Some((time.parse().ok()?, met.parse().ok()?)))
        .ok_or_else(|| format!("node: {}", String::from_utf8_lossy(&run.stderr)))
}
