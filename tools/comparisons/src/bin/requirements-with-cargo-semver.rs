//! Compares requirements in Cargo's dialect with `VersionReq` of the crate `semver`: whether a text
//! is accepted, which releases satisfy its comparators, and which versions it matches: releases and
//! pre-releases at and around the numbers that it states.
//!
//! `requirements-with-cargo-semver PROGRAM COUNT SEED`, where PROGRAM is the program
//! `layers` of rust/tests, makes COUNT texts, by the grammar and with one change. Their numbers stay
//! small, so that none is too large. `requirements-with-cargo-semver PROGRAM --texts TEXTS
//! VERSIONS` takes the lines of two files. It prints the first difference, and then exits with 1.

#[path = "../escaped.rs"]
mod escaped;
#[allow(dead_code)]
#[path = "../random.rs"]
mod random;

use escaped::escaped;
use random::Random;
use semver::{Prerelease, Version, VersionReq};
use std::io::Write;
use std::process::{Command, ExitCode, Stdio};

const SIGNS: [&str; 12] = ["", "", "", "=", "<", "<=", ">", ">=", "~", "^", "~>", "=="];
const COMPONENTS: [&str; 12] = ["0", "0", "1", "1", "2", "3", "9", "10", "01", "x", "X", "*"];
const QUALIFIERS: [&str; 14] =
    ["-a", "-0", "-rc.1", "-01", "-a.01", "--", "-1a", "-", "-a..b", "+b", "+01", "-a+b", "+", "-0.0"];
const SPACES: [&str; 8] = ["", "", "", "", "", " ", "  ", "\t"];
const COMMAS: [&str; 8] = [",", ",", ",", ",", ",", ", ", " ", "||"];
const NUMBERS: [u64; 7] = [0, 1, 2, 3, 9, 10, 11];
const PRE_RELEASES: [&str; 10] = ["", "0", "0.0", "1", "a", "a.0", "b", "rc.1", "rc.2", "z9"];
const BYTES: &[u8] = b"0123.-+,*xX<>=~^ |av\t";

fn simple(random: &mut Random) -> String {
    let count = [1, 2, 3, 3][random.below(4)];
    let numbers: Vec<&str> = (0..count).map(|_| random.pick(&COMPONENTS)).collect();
    let qualifier = if random.one_in(4) { random.pick(&QUALIFIERS) } else { "" };
    let (before, gap, after) = (random.pick(&SPACES), random.pick(&SPACES), random.pick(&SPACES));
    format!("{before}{}{gap}{}{qualifier}{after}", random.pick(&SIGNS), numbers.join("."))
}

/// Returns comparators that state nearly the same numbers. Those with three mostly have a
/// pre-release.
fn related(random: &mut Random) -> String {
    let numbers = [(); 3].map(|()| NUMBERS[random.below(NUMBERS.len())]);
    let comparators = (0..2 + random.below(2)).map(|_| {
        let count = [1, 2, 3, 3][random.below(4)];
        let stated: Vec<String> = numbers[..count].iter().map(|number| (number + u64::from(random.one_in(6))).to_string()).collect();
        let pre = if count == 3 && !random.one_in(4) { random.pick(&["-0", "-a", "-a.0", "-rc.1", "-1"]) } else { "" };
        format!("{}{}{pre}", random.pick(&["", "=", "<", "<=", ">", ">=", "~", "^"]), stated.join("."))
    });
    comparators.collect::<Vec<String>>().join(",")
}

fn text(random: &mut Random) -> String {
    if random.one_in(3) {
        return related(random);
    }
    let simples: Vec<String> = (0..[1, 1, 1, 2, 3][random.below(5)]).map(|_| simple(random)).collect();
    let text = simples.join(random.pick(&COMMAS));
    if !random.one_in(5) || text.is_empty() {
        return text;
    }
    let (at, byte) = (random.below(text.len()), char::from(BYTES[random.below(BYTES.len())]));
    let (front, back) = text.split_at(at);
    match random.below(3) {
        0 => format!("{front}{byte}{back}"),
        1 => format!("{front}{}", &back[1..]),
        _ => format!("{front}{byte}{}", &back[1..]),
    }
}

/// Returns whether a release satisfies a printed set of one range, by its numbers.
fn meets(printed: &str, release: &Version) -> bool {
    printed.split(' ').all(|comparator| {
        let (sign, bound) = comparator.split_at(comparator.bytes().take_while(|b| !b.is_ascii_digit()).count());
        let order = release.cmp(&bound.parse::<Version>().expect("a bound is a version"));
        match sign {
            "<" => order.is_lt(),
            "<=" => order.is_le(),
            ">" => order.is_gt(),
            ">=" => order.is_ge(),
            _ => order.is_eq(),
        }
    })
}

/// Returns the versions to match a text with: the numbers that each comparator states, completed at
/// random, and others, with and without pre-releases.
fn asked(text: &str, random: &mut Random) -> Vec<Version> {
    let mut asked = Vec::new();
    for comparator in text.split(',') {
        let stated = comparator.split(|c: char| !c.is_ascii_digit()).filter_map(|digits| digits.parse::<u64>().ok());
        let mut numbers: Vec<u64> = stated.take(3).collect();
        numbers.resize_with(3, || [0, 0, 1, NUMBERS[random.below(NUMBERS.len())]][random.below(4)]);
        for _ in 0..3 {
            asked.extend(PRE_RELEASES.map(|pre| version(&numbers, pre)));
            let at = random.below(3);
            numbers[at] = [numbers[at] + 1, numbers[at].saturating_sub(1), 0][random.below(3)];
        }
    }
    for _ in 0..20 {
        let numbers: Vec<u64> = (0..3).map(|_| NUMBERS[random.below(NUMBERS.len())]).collect();
        asked.push(version(&numbers, random.pick(&PRE_RELEASES)));
    }
    asked
}

fn version(numbers: &[u64], pre: &str) -> Version {
    let pre = Prerelease::new(pre).expect("each is a pre-release");
    Version { pre, ..Version::new(numbers[0], numbers[1], numbers[2]) }
}

/// Returns the program's result for each call with its text and versions.
fn answers(program: &str, calls: &[String]) -> Vec<String> {
    let mut child =
        Command::new(program).stdin(Stdio::piped()).stdout(Stdio::piped()).spawn().expect("the program runs");
    let mut input = child.stdin.take().expect("its input is a pipe");
    let lines: String = calls.iter().map(|call| format!("-\t{call}\n")).collect();
    let writer = std::thread::spawn(move || input.write_all(lines.as_bytes()).expect("it reads all calls"));
    let output = child.wait_with_output().expect("it ends");
    writer.join().expect("all calls were written");
    let output = String::from_utf8(output.stdout).expect("it writes text");
    let answers: Vec<String> =
        output.split_terminator('\n').map(|line| line.strip_prefix("-: ").expect("a result begins with the name").to_string()).collect();
    assert_eq!(answers.len(), calls.len(), "one result for each call");
    answers
}

/// Returns the texts, and the versions to match each with: from two files, or random.
fn questioned(count: &str, second: &str, versions: Option<&String>) -> (Vec<String>, Vec<Vec<Version>>) {
    if let Some(versions) = versions {
        let texts = lines(second);
        let parsed = lines(versions).iter().map(|line| line.parse().expect("each is a version")).collect();
        return (texts.clone(), vec![parsed; texts.len()]);
    }
    let count = count.parse().expect("COUNT is a number");
    let mut random = Random::new(second.parse().expect("SEED is a number"));
    let texts: Vec<String> = (0..count).map(|_| text(&mut random)).collect();
    let asked = texts.iter().map(|text| asked(text, &mut random)).collect();
    (texts, asked)
}

fn lines(file: &str) -> Vec<String> {
    let text = std::fs::read_to_string(file).expect("the file can be read");
    text.lines().filter(|line| !line.is_empty()).map(str::to_string).collect()
}

fn main() -> ExitCode {
    let arguments: Vec<String> = std::env::args().collect();
    let (texts, asked) = questioned(&arguments[2], &arguments[3], arguments.get(4));
    let count = texts.len();
    let mut releases = Vec::new();
    for major in NUMBERS {
        for minor in NUMBERS {
            releases.extend(NUMBERS.map(|patch| Version::new(major, minor, patch)));
        }
    }
    let (mut read, mut met, mut pre_releases) = (0, 0, 0);
    let rewritings: Vec<String> = texts.iter().map(|text| format!("rewritten-as-cargo\t{}", escaped(text))).collect();
    let questions = texts.iter().zip(&asked).map(|(text, versions)| {
        let versions: Vec<String> = versions.iter().map(Version::to_string).collect();
        format!("meant-as-cargo\t{}\t{}", escaped(text), versions.join(" "))
    });
    let questions: Vec<String> = questions.collect();
    let rewritten = answers(&arguments[1], &rewritings);
    let meant = answers(&arguments[1], &questions);
    for (at, text) in texts.iter().enumerate() {
        let (rewritten, meant) = (&rewritten[at], &meant[at]);
        let same = match VersionReq::parse(text) {
            Err(_) => rewritten == "not-a-range" && meant == "not-a-range",
            Ok(_) if rewritten == "not-a-range" => false,
            Ok(requirement) => {
                read += 1;
                let wanted: Vec<&Version> = asked[at].iter().filter(|version| requirement.matches(version)).collect();
                met += wanted.len();
                pre_releases += wanted.iter().filter(|version| !version.pre.is_empty()).count();
                let wanted: String = wanted.iter().map(|version| format!(" {version}")).collect();
                *meant == format!("means{wanted}")
                    && releases.iter().all(|release| requirement.matches(release) == meets(rewritten, release))
            }
        };
        if !same {
            println!("{text:?}: {rewritten}, {meant}, but not so in semver, matched with {}", questions[at]);
            return ExitCode::FAILURE;
        }
    }
    println!("{count} texts, {read} of them accepted: no difference of {} releases by their comparators,", releases.len());
    println!("nor of the versions that each was matched with; {met} matched, {pre_releases} of them pre-releases");
    ExitCode::SUCCESS
}
