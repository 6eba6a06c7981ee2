//! Determines what a set with exact bounds prints, from the fields of the set with other bounds. A
//! bound that is raised gets the pre-release `0`, and one that the text states stays. The signs in
//! the text show which is which.

/// Returns what is printed for a text whose set has these fields, or the message of its error.
pub fn printed(text: &str, fields: &str) -> String {
    match fields {
        "NotARange" => return "not a range".to_string(),
        "NumberTooLarge" => return "number too large".to_string(),
        _ => {}
    }
    let fields = fields.split_once(' ').map_or("", |(_, ranges)| ranges);
    let ranges: Vec<String> =
        text.split("||").zip(fields.split(" || ")).map(|(text, fields)| range(text, fields)).collect();
    ranges.join(" || ")
}

/// A comparator as it prints, its sign, and whether its version is above 0.0.0, as every raised
/// bound is.
struct Comparator {
    text: String,
    sign: String,
    is_above_zero: bool,
}

fn range(text: &str, fields: &str) -> String {
    let comparators: Vec<Comparator> = fields.split(']').filter(|field| !field.is_empty()).map(comparator).collect();
    let raised = raised(text, &comparators);
    let texts: Vec<String> = comparators
        .iter()
        .zip(raised)
        .map(|(comparator, is_raised)| comparator.text.clone() + if is_raised { "-0" } else { "" })
        .collect();
    texts.join(" ")
}

/// Parses a comparator from its fields, up to the bracket that ends them.
fn comparator(field: &str) -> Comparator {
    let (head, identifiers) = field.trim_start().split_once('[').expect("a bracket follows the numbers");
    let identifiers: Vec<&str> = identifiers
        .split_whitespace()
        .map(|identifier| identifier.split_once('(').expect("a kind and its value").1.trim_end_matches(')'))
        .collect();
    let numbers = head.trim_start_matches(['<', '>', '=']);
    let pre = if identifiers.is_empty() { String::new() } else { format!("-{}", identifiers.join(".")) };
    Comparator {
        text: format!("{head}{pre}"),
        sign: head[..head.len() - numbers.len()].to_string(),
        is_above_zero: numbers != "0.0.0",
    }
}

/// Returns which comparators are raised bounds.
fn raised(text: &str, comparators: &[Comparator]) -> Vec<bool> {
    let is_bound = |comparator: &Comparator| comparator.sign == "<" && comparator.is_above_zero;
    if text.split_whitespace().any(|word| word == "-") {
        return comparators.iter().map(is_bound).collect();
    }
    let mut raised = Vec::new();
    for (sign, states_nothing) in simples(text) {
        let first = comparators.get(raised.len()).map_or("", |comparator| comparator.sign.as_str());
        match sign.as_str() {
            "<" | ">" | ">=" => raised.push(false),
            "<=" => raised.push(comparators.get(raised.len()).map_or(false, is_bound)),
            _ if states_nothing || first == "=" => raised.push(false),
            _ => raised.extend([false, true]),
        }
    }
    if raised.is_empty() {
        raised.push(false);
    }
    assert_eq!(raised.len(), comparators.len(), "each comparator has its simple: {text:?}");
    raised
}

/// Returns the sign of each simple range, and whether its partial version states nothing.
fn simples(text: &str) -> Vec<(String, bool)> {
    let mut simples = Vec::new();
    let mut sign = String::new();
    for word in text.split_whitespace() {
        let partial = word.trim_start_matches(['<', '>', '=', '~', '^']);
        sign.push_str(&word[..word.len() - partial.len()]);
        if !partial.is_empty() {
            simples.push((std::mem::take(&mut sign), partial.starts_with(['x', 'X', '*'])));
        }
    }
    simples
}
