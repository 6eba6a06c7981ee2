//! Random cases: texts from the grammars of versions and ranges, most of them with a change, and
//! lists of tokens.

use crate::cases::{Case, Kind, STEPS};
use crate::random::Random;

/// A number of 40 digits.
const LONG: &str = "1000000000000000000000000000000000000007";

/// Returns a case of a kind.
pub fn case(kind: Kind, random: &mut Random) -> Case {
    let mut text = match kind {
        Kind::Tokens => match random.below(3) {
            0 => version(random),
            1 => set(random),
            _ => tokens(random),
        },
        Kind::Steps => match random.below(4) {
            0 => tokens(random),
            1 => identifiers(random),
            _ => version(random),
        },
        Kind::Versions => version(random),
        Kind::Cargo | Kind::Npm | Kind::CargoExact | Kind::NpmExact => set(random),
    };
    if random.one_in(100) {
        text = many_hyphens(random, &text);
    }
    match random.below(4) {
        0 => {}
        1 => change(random, &mut text),
        2 => (0..=random.below(3)).for_each(|_| change(random, &mut text)),
        _ => move_a_piece(random, &mut text),
    }
    let steps = if kind == Kind::Steps { steps(random) } else { Vec::new() };
    Case { kind, text, steps }
}

/// Returns calls of a parser: some at random, some in the order of a version.
fn steps(random: &mut Random) -> Vec<&'static str> {
    let mut steps = match random.below(3) {
        0 => vec!["numeric", "dot_numeric", "dot_component"],
        1 => vec!["version"],
        _ => Vec::new(),
    };
    steps.truncate(random.below(4));
    for _ in 0..=random.below(6) {
        steps.push(STEPS[random.below(STEPS.len())]);
    }
    steps
}

/// Removes a character, or inserts a few.
fn change(random: &mut Random, text: &mut String) {
    const NEW: &[&str] = &[
        "", " ", "\t", "\n", "\r", ".", "-", "+", "|", "||", "0", "1", "01", "x", "X", "*", "a", "<", ">", "=", "~", "^", ",", ", ",
        "/", "\\", "\u{0}", "\u{b}", "\u{c}", "\u{85}", "\u{2028}", "v", "_", "é", "\u{a0}", "\u{ff11}", "1.2.3", "-0", "-01", "+a",
        "-a+a", ".0a", "~>", "<=", "> ", " - ", "18446744073709551615", "18446744073709551616", "99999999999999999999",
    ];
    let start = place(random, text);
    let end = text[start..].chars().next().map_or(start, |c| start + c.len_utf8());
    let new = random.pick(NEW);
    if random.one_in(2) {
        text.replace_range(start..end, new);
    } else {
        text.insert_str(start, new);
    }
}

/// Moves a piece of the text, or repeats it elsewhere.
fn move_a_piece(random: &mut Random, text: &mut String) {
    let (one, other) = (place(random, text), place(random, text));
    let (start, end) = (one.min(other), one.max(other));
    let piece = text[start..end].to_string();
    if random.one_in(2) {
        text.replace_range(start..end, "");
    }
    let at = place(random, text);
    text.insert_str(at, &piece);
}

/// Returns an offset between two characters.
fn place(random: &mut Random, text: &str) -> usize {
    let places: Vec<usize> = text.char_indices().map(|(i, _)| i).chain([text.len()]).collect();
    places[random.below(places.len())]
}

/// Returns the text followed by an identifier with hundreds of hyphens.
fn many_hyphens(random: &mut Random, text: &str) -> String {
    let runs = vec![random.pick(&["a", "0", "1", "01"]); 250 + random.below(20)];
    format!("{text}{}{}", random.pick(&["", "-", "-", "+", "."]), runs.join("-"))
}

/// Returns signs, alphanumerics and white space in any order.
fn tokens(random: &mut Random) -> String {
    const PIECES: &[&str] = &[
        "=", ">", "<", "<=", ">=", "^", "~", "*", ".", ",", "-", "+", "||", "|", " ", "\t\r\n ", "0", "1", "7", "42", "00", "01", "1a", "a1",
        "x", "X", "xX", "alpha", "18446744073709551615", "18446744073709551616", "018446744073709551615", "/", "é", "\u{a0}", "_",
    ];
    (0..random.below(12)).map(|_| random.pick(PIECES)).collect()
}

fn blanks(random: &mut Random) -> &'static str {
    random.pick(&["", "", "", " ", "  ", "\t"])
}

fn some_blanks(random: &mut Random) -> &'static str {
    random.pick(&[" ", " ", "  ", "\t", " \t"])
}

fn number(random: &mut Random) -> String {
    match random.below(12) {
        0..=3 => random.below(3).to_string(),
        4..=7 => random.below(100).to_string(),
        8 => "18446744073709551614".to_string(),
        9 => random.pick(&["18446744073709551615", "0", "10"]).to_string(),
        10 => random.pick(&["18446744073709551616", "99999999999999999999", LONG, "0", "00", "01"]).to_string(),
        _ => random.below(1_000_000).to_string(),
    }
}

fn identifiers(random: &mut Random) -> String {
    const PIECES: &[&str] = &[
        "alpha", "beta", "rc", "a", "0", "1", "42", "01", "00", "1a", "0a", "a1", "x", "m", "mm1", "18446744073709551615", "18446744073709551616",
        "018446744073709551615", "a-b", "1-2", "0-0", "a--b", "-a", "a-", "-", "pre",
    ];
    let mut all = random.pick(PIECES).to_string();
    while random.one_in(2) {
        all.push('.');
        all.push_str(random.pick(PIECES));
    }
    all
}

fn qualifier(random: &mut Random) -> String {
    let mut qualifier = String::new();
    if random.one_in(2) {
        qualifier.push('-');
        qualifier.push_str(&identifiers(random));
    }
    if random.one_in(4) {
        qualifier.push('+');
        qualifier.push_str(&identifiers(random));
    }
    qualifier
}

fn version(random: &mut Random) -> String {
    let outer = |random: &mut Random| random.pick(&["", "", "", " ", "\n", "\r\n", " \t"]);
    let before = outer(random);
    let numbers = format!("{}.{}.{}", number(random), number(random), number(random));
    let qualifier = qualifier(random);
    format!("{before}{numbers}{qualifier}{}", outer(random))
}

fn component(random: &mut Random) -> String {
    if random.one_in(6) {
        random.pick(&["x", "X", "*"]).to_string()
    } else {
        number(random)
    }
}

fn partial(random: &mut Random) -> String {
    let mut partial = component(random);
    for _ in 0..random.below(3) {
        partial.push('.');
        partial.push_str(&component(random));
    }
    if partial.matches('.').count() == 2 && random.one_in(2) {
        partial.push_str(&qualifier(random));
    }
    partial
}

fn simple(random: &mut Random) -> String {
    const OPERATORS: &[&str] = &["", "", "", "=", "<", "<=", ">", ">=", "~", "~>", "^", "^"];
    let operator = random.pick(OPERATORS);
    let gap = if operator.is_empty() { "" } else { blanks(random) };
    format!("{operator}{gap}{}", partial(random))
}

fn range(random: &mut Random) -> String {
    match random.below(8) {
        0 => String::new(),
        1 | 2 => {
            let left = partial(random);
            let (before, after) = (some_blanks(random), some_blanks(random));
            format!("{left}{before}-{after}{}", partial(random))
        }
        _ => {
            let mut range = simple(random);
            while random.one_in(3) {
                range.push_str(random.pick(&["", "", "", "", "", "", "", ","]));
                range.push_str(some_blanks(random));
                range.push_str(&simple(random));
            }
            range
        }
    }
}

fn set(random: &mut Random) -> String {
    let mut set = format!("{}{}{}", blanks(random), range(random), blanks(random));
    while random.one_in(4) {
        set.push_str("||");
        set.push_str(blanks(random));
        set.push_str(&range(random));
        set.push_str(blanks(random));
    }
    set
}
