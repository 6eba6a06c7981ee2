//! Compares which versions a range matches here, by the default rule for pre-releases, with Cargo's
//! `semver`.
//!
//! `with-cargo-semver PROGRAM COUNT SEED`: PROGRAM is the program `layers` of rust/tests. It makes COUNT
//! pairs of a range of one to three simple ranges, in Cargo mode, and a version near one of them.
//! If `semver` is known to read a simple range differently, that is turned into ones that `semver`
//! reads as it is meant here. Which pre-releases count next to these is left to
//! `VersionReq::matches`. It prints how often each departure changed a result; at the first other
//! difference it prints that, and exits with 1.

#[allow(dead_code)]
#[path = "../random.rs"]
mod random;

use random::Random;
use semver::{Version, VersionReq};
use std::collections::BTreeMap;
use std::io::Write;
use std::process::{Command, ExitCode, Stdio};

/// How many versions are matched with a range.
const VERSIONS: usize = 8;

const SIGNS: [&str; 10] = ["", "=", "<", "<=", ">", ">=", "~", "^", "^", "^"];
const NUMBERS: [u64; 10] = [0, 0, 0, 1, 1, 2, 3, 9, 10, 11];
const PRE_RELEASES: [&str; 8] = ["alpha", "alpha.1", "beta", "beta.2", "beta.11", "rc-1", "1", "a.0"];

const NOTHING: &str = "nothing stated stands by itself there, or is refused";
const GREATER: &str = "`>` with one or two numbers begins with the next ones";
const PARTIAL: &str = "one or two numbers take no pre-release in that another simple states, but for carets those of the bound";

/// A simple range: its operator, what it states, and its pre-release.
struct Simple {
    sign: &'static str,
    stated: Vec<u64>,
    pre: &'static str,
}

impl Simple {
    fn made(random: &mut Random) -> Simple {
        let count = [0, 1, 2, 3, 3, 3, 3][random.below(7)];
        let stated: Vec<u64> = (0..count).map(|_| NUMBERS[random.below(10)]).collect();
        let has_pre = count == 3 && random.below(2) == 0;
        let pre = if has_pre { PRE_RELEASES[random.below(8)] } else { "" };
        Simple { sign: SIGNS[random.below(10)], stated, pre }
    }

    /// Returns its text here.
    fn text(&self) -> String {
        let mut numbers: Vec<String> = self.stated.iter().map(u64::to_string).collect();
        if numbers.len() < 3 {
            numbers.push("*".to_string());
        }
        format!("{}{}{}", self.sign, numbers.join("."), tail(self.pre))
    }

    /// Returns the version, completed with zeros.
    fn filled(&self) -> String {
        version_text(&self.numbers(), self.pre)
    }

    fn numbers(&self) -> [u64; 3] {
        let number = |at: usize| self.stated.get(at).copied().unwrap_or(0);
        [number(0), number(1), number(2)]
    }

    /// Returns the exact bound that is raised at this many numbers.
    fn below(&self, count: usize) -> String {
        let mut numbers = self.numbers();
        numbers[count - 1] += 1;
        numbers[count..].fill(0);
        format!("<{}", version_text(&numbers, "0"))
    }

    /// Returns what means the same in `semver`, and why its own text doesn't.
    fn undone(&self) -> (Vec<String>, Option<&'static str>) {
        let lower = format!(">={}", self.filled());
        let count = self.stated.len();
        match (self.sign, count) {
            ("<" | ">", 0) => (vec!["<0.0.0".to_string()], Some(NOTHING)),
            (_, 0) => (vec![lower], Some(NOTHING)),
            (_, 3) => (vec![format!("{}{}", self.sign, self.filled())], None),
            (">", _) => (vec![format!(">{}", self.filled())], Some(GREATER)),
            ("<", _) => (vec![format!("<{}", self.filled())], Some(PARTIAL)),
            ("<=", _) => (vec![self.below(count)], Some(PARTIAL)),
            (">=", _) => (vec![lower], Some(PARTIAL)),
            ("^", _) => {
                let first = self.stated.iter().position(|number| *number > 0);
                (vec![lower, self.below(first.map_or(count, |at| at + 1))], Some(PARTIAL))
            }
            _ => (vec![lower, self.below(count)], Some(PARTIAL)),
        }
    }

    /// Returns a version near it.
    fn near(&self, random: &mut Random) -> String {
        let mut numbers = self.numbers();
        let place = random.below(6);
        if place < 3 {
            numbers[place] = if random.below(3) == 0 { numbers[place].saturating_sub(1) } else { numbers[place] + 1 };
            numbers[place + 1..].fill([0, 0, 7][random.below(3)]);
        }
        let pre = ["", "0", "zz", self.pre, self.pre, PRE_RELEASES[random.below(8)]][random.below(6)];
        version_text(&numbers, pre)
    }
}

fn tail(pre: &str) -> String {
    if pre.is_empty() { String::new() } else { format!("-{pre}") }
}

fn version_text(numbers: &[u64; 3], pre: &str) -> String {
    format!("{}.{}.{}{}", numbers[0], numbers[1], numbers[2], tail(pre))
}

/// A range, and versions near it.
struct Case {
    simples: Vec<Simple>,
    versions: Vec<String>,
}

impl Case {
    fn made(random: &mut Random) -> Case {
        let count = [1, 1, 2, 2, 3][random.below(5)];
        let simples: Vec<Simple> = (0..count).map(|_| Simple::made(random)).collect();
        let versions = (0..VERSIONS)
            .map(|_| {
                let place = random.below(simples.len());
                simples[place].near(random)
            })
            .collect();
        Case { simples, versions }
    }

    fn joined(&self, between: &str) -> String {
        self.simples.iter().map(Simple::text).collect::<Vec<String>>().join(between)
    }

    fn line(&self) -> String {
        format!("-\tstated-cargo\t{}\t{}\n", self.joined(" "), self.versions.join(" "))
    }

    /// Compares what the program kept, and counts departures. Returns the first other difference.
    fn differs(&self, kept: &str, occurred: &mut BTreeMap<&'static str, usize>) -> Option<String> {
        let kept: Vec<&str> = kept.trim_start_matches("-: ").split(' ').collect();
        let undone: Vec<(Vec<String>, Option<&'static str>)> = self.simples.iter().map(Simple::undone).collect();
        let wanted = undone.iter().flat_map(|(texts, _)| texts.clone()).collect::<Vec<String>>().join(", ");
        let wanted = VersionReq::parse(&wanted).expect("what is undone is read");
        let own = VersionReq::parse(&self.joined(", "));
        for text in &self.versions {
            let version = Version::parse(text).expect("a version is read");
            let answer = kept.contains(&text.as_str());
            if wanted.matches(&version) != answer {
                return Some(format!("{:?} and {text}: answered here {answer}", self.joined(" ")));
            }
            if !own.as_ref().is_ok_and(|own| own.matches(&version) == answer) {
                let known: Vec<&'static str> = undone.iter().filter_map(|(_, departure)| *departure).collect();
                if known.is_empty() {
                    return Some(format!("{:?} and {text}: here {answer}, for no known reason", self.joined(" ")));
                }
                for departure in known {
                    *occurred.entry(departure).or_default() += 1;
                }
            }
        }
        None
    }
}

fn answers(program: &str, cases: &[Case]) -> String {
    let mut child = Command::new(program).stdin(Stdio::piped()).stdout(Stdio::piped()).spawn().expect("the program runs");
    let mut input = child.stdin.take().expect("its input is a pipe");
    let lines: String = cases.iter().map(Case::line).collect();
    let writer = std::thread::spawn(move || input.write_all(lines.as_bytes()).expect("it reads all cases"));
    let output = child.wait_with_output().expect("it ends");
    writer.join().expect("all cases were written");
    String::from_utf8(output.stdout).expect("it writes text")
}

fn main() -> ExitCode {
    let arguments: Vec<String> = std::env::args().skip(1).collect();
    let (count, seed) = match arguments.as_slice() {
        [_, count, seed] => (count.parse().unwrap_or(0), seed.parse().unwrap_or(0)),
        _ => (0, 0),
    };
    if count == 0 {
        eprintln!("usage: with-cargo-semver PROGRAM COUNT SEED");
        return ExitCode::from(2);
    }
    let mut random = Random::new(seed);
    let cases: Vec<Case> = (0..count / VERSIONS).map(|_| Case::made(&mut random)).collect();
    let mut occurred = BTreeMap::new();
    let kept = answers(&arguments[0], &cases);
    assert_eq!(kept.lines().count(), cases.len(), "one result for each case");
    for (case, kept) in cases.iter().zip(kept.lines()) {
        if let Some(difference) = case.differs(kept, &mut occurred) {
            println!("differ: {difference}");
            return ExitCode::FAILURE;
        }
    }
    println!("{} pairs compared, seed {seed}: no difference but the known ones", cases.len() * VERSIONS);
    for (departure, times) in occurred {
        println!("  {times} times: {departure}");
    }
    ExitCode::SUCCESS
}
