//! Compares this repository's program with the original crate on random texts.
//!
//! `compare PROGRAM COUNT SEED`: PROGRAM is the built `replayed_cases`. For each kind of case it
//! prints how many were compared and how often each known departure of the crate occurred. At the
//! first other difference it prints its smallest form, and exits with 1.

mod cases;
mod departures;
mod escaped;
mod exact;
mod program;
mod random;
mod ranges;
mod real;
mod texts;

use cases::{Case, Kind};
use departures::expected;
use program::answers;
use random::Random;
use std::collections::BTreeMap;
use std::process::ExitCode;

/// How many cases are passed to the program at once.
const BATCH: usize = 20_000;

fn main() -> ExitCode {
    let arguments: Vec<String> = std::env::args().skip(1).collect();
    if arguments.len() != 3 {
        eprintln!("usage: compare PROGRAM COUNT SEED");
        return ExitCode::from(2);
    }
    let (count, seed) = match (arguments[1].parse::<usize>(), arguments[2].parse::<u64>()) {
        (Ok(count), Ok(seed)) => (count, seed),
        _ => {
            eprintln!("COUNT and SEED are numbers");
            return ExitCode::from(2);
        }
    };
    std::panic::set_hook(Box::new(|_| {}));
    for kind in Kind::ALL {
        if !compare(&arguments[0], kind, count, seed) {
            return ExitCode::FAILURE;
        }
    }
    ExitCode::SUCCESS
}

/// Compares `count` cases of a kind. Returns whether there was no difference except the known ones.
fn compare(program: &str, kind: Kind, count: usize, seed: u64) -> bool {
    let mut random = Random::new(seed);
    let mut occurred: BTreeMap<&'static str, usize> = BTreeMap::new();
    let mut done = 0;
    while done < count {
        let batch: Vec<Case> = (0..BATCH.min(count - done)).map(|_| texts::case(kind, &mut random)).collect();
        for (case, answer) in batch.iter().zip(answers(program, &batch)) {
            let expected = expected(case);
            if expected.answer != answer {
                report(program, case);
                return false;
            }
            for name in expected.departures {
                *occurred.entry(name).or_default() += 1;
            }
        }
        done += batch.len();
    }
    println!("{}: {done} compared, seed {seed}: no difference but the known ones", kind.name());
    for (name, times) in &occurred {
        println!("  {times} times: {name}");
    }
    true
}

/// Removes characters and calls as long as there is a difference, and prints what is left.
fn report(program: &str, case: &Case) {
    let mut smallest = case.clone();
    loop {
        let smaller = smallest.smaller();
        let all = answers(program, &smaller);
        let next = smaller.iter().zip(&all).find(|(case, answer)| expected(case).answer != **answer);
        match next {
            Some((case, _)) => smallest = case.clone(),
            None => break,
        }
    }
    let ours = answers(program, std::slice::from_ref(&smallest));
    println!("{} differ: {smallest}", smallest.kind.name());
    println!("  the crate: {}", real::answer(&smallest));
    println!("  expected here: {}", expected(&smallest).answer);
    println!("  here: {}", ours[0]);
}
