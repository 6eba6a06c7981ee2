//! What is compared: a call, its text, and for a parser its steps.

use crate::escaped::escaped;
use std::fmt;

/// Which call a case makes.
#[derive(Clone, Copy, PartialEq, Eq)]
pub enum Kind {
    /// The tokens of a text.
    Tokens,
    /// Calls of one parser, one after the other.
    Steps,
    /// A whole text as a version.
    Versions,
    /// A whole text as a range set in Cargo mode.
    Cargo,
    /// A whole text as a range set in npm mode.
    Npm,
    /// A whole text as a range set with exact bounds in Cargo mode, as it prints.
    CargoExact,
    /// A whole text as a range set with exact bounds in npm mode, as it prints.
    NpmExact,
}

impl Kind {
    pub const ALL: [Kind; 7] =
        [Kind::Tokens, Kind::Steps, Kind::Versions, Kind::Cargo, Kind::Npm, Kind::CargoExact, Kind::NpmExact];

    /// Returns the name that is printed.
    pub fn name(self) -> &'static str {
        match self {
            Kind::Tokens => "tokens",
            Kind::Steps => "parser calls",
            Kind::Versions => "versions",
            Kind::Cargo => "ranges in Cargo mode",
            Kind::Npm => "ranges in npm mode",
            Kind::CargoExact => "ranges with exact bounds in Cargo mode",
            Kind::NpmExact => "ranges with exact bounds in npm mode",
        }
    }

    /// Returns the name in a line of `replayed_cases`.
    pub fn call(self) -> &'static str {
        match self {
            Kind::Tokens => "lex",
            Kind::Steps => "parser",
            Kind::Versions => "version",
            Kind::Cargo => "cargo",
            Kind::Npm => "npm",
            Kind::CargoExact => "cargo-exact",
            Kind::NpmExact => "npm-exact",
        }
    }
}

/// The calls of a parser, by their names in a line of `replayed_cases`.
pub const STEPS: [&str; 8] =
    ["component", "numeric", "dot_component", "dot_numeric", "is_eof", "tail", "identifier", "version"];

/// One case.
#[derive(Clone)]
pub struct Case {
    pub kind: Kind,
    pub text: String,
    /// The calls of a parser; empty for the other kinds.
    pub steps: Vec<&'static str>,
}

impl Case {
    /// Returns the cases without one step or without a piece of the text, longer pieces first.
    pub fn smaller(&self) -> Vec<Case> {
        let mut all = Vec::new();
        for step in 0..self.steps.len() {
            let mut case = self.clone();
            case.steps.remove(step);
            all.push(case);
        }
        let places: Vec<usize> = self.text.char_indices().map(|(at, _)| at).chain([self.text.len()]).collect();
        for length in (0..12).rev().map(|power| 1 << power).chain([3, 5, 6, 7]) {
            for (start, end) in places.iter().zip(places.iter().skip(length)) {
                let mut case = self.clone();
                case.text.replace_range(start..end, "");
                all.push(case);
            }
        }
        all.retain(|case| case.kind != Kind::Steps || !case.steps.is_empty());
        all
    }

    /// Returns the line for `replayed_cases`.
    pub fn line(&self) -> String {
        let text = escaped(&self.text);
        let steps = if self.steps.is_empty() { String::new() } else { format!("\t{}", self.steps.join(",")) };
        format!("-\t{}\t{text}{steps}\n", self.kind.call())
    }
}

impl fmt::Display for Case {
    fn fmt(&self, f: &mut fmt::Formatter<'_>) -> fmt::Result {
        write!(f, "{:?}", self.text)?;
        if !self.steps.is_empty() {
            write!(f, " by {}", self.steps.join(", "))?;
        }
        Ok(())
    }
}
