//! The results of the original crate, printed as this repository's program prints its own.

use crate::cases::{Case, Kind};
use crate::ranges;
use semver_parser::lexer::{self, Lexer, Token};
use semver_parser::parser::{Error, Parser};
use semver_parser::version::{self, Identifier, Version};
use semver_parser::Compat;

/// Follows the tokens if the crate returns the lexer's error again at two further calls.
pub const ERROR_AGAIN: &str = "and again";

/// Returns the crate's result for a case.
pub fn answer(case: &Case) -> String {
    match case.kind {
        Kind::Tokens => lexed(&case.text),
        Kind::Steps => stepped(&case.text, &case.steps),
        Kind::Versions => or_error(version::parse(&case.text), |version| fields(&version)),
        Kind::Cargo | Kind::CargoExact => ranges::read(&case.text, Compat::Cargo).text(),
        Kind::Npm | Kind::NpmExact => ranges::read(&case.text, Compat::Npm).text(),
    }
}

/// Returns the items up to the end or the first error, and then the results of two further calls.
fn lexed(text: &str) -> String {
    let mut lexer = Lexer::new(text);
    let mut items = Vec::new();
    let mut bad = None;
    while bad.is_none() {
        match lexer.next() {
            Some(Ok(token)) => items.push(token_text(&token)),
            Some(Err(lexer::Error::UnexpectedChar(character))) => bad = Some(character),
            None => break,
        }
    }
    let further = [lexer.next(), lexer.next()];
    let all_are = |wanted: &Option<Result<Token, lexer::Error>>| further.iter().all(|item| item == wanted);
    match bad {
        Some(character) => {
            items.push(format!("UnexpectedChar({character})"));
            let is_again = all_are(&Some(Err(lexer::Error::UnexpectedChar(character))));
            items.push(if is_again { ERROR_AGAIN } else { "and then something else" }.to_string());
        }
        None => items.push(if all_are(&None) { "end" } else { "more" }.to_string()),
    }
    items.join(" ")
}

/// Returns the results of a parser of the text, one call after the other.
fn stepped(text: &str, steps: &[&str]) -> String {
    let mut parser = match Parser::new(text) {
        Ok(parser) => parser,
        Err(error) => return error_text(&error),
    };
    let answers: Vec<String> = steps.iter().map(|step| step_answer(&mut parser, step)).collect();
    answers.join("; ")
}

fn step_answer(parser: &mut Parser, step: &str) -> String {
    match step {
        "component" => or_error(parser.component(), component_text),
        "numeric" => or_error(parser.numeric(), |number| number.to_string()),
        "dot_component" => {
            or_error(parser.dot_component(), |(component, is_wildcard)| format!("{} {is_wildcard}", component_text(component)))
        }
        "dot_numeric" => or_error(parser.dot_numeric(), |number| number.to_string()),
        "is_eof" => parser.is_eof().to_string(),
        "tail" => or_error(parser.tail(), |tokens| format!("[{}]", tokens_text(&tokens))),
        "identifier" => or_error(parser.identifier(), |identifier| identifier_text(&identifier)),
        "version" => or_error(parser.version(), |version| fields(&version)),
        _ => unreachable!("a step of a parser"),
    }
}

fn or_error<T>(answer: Result<T, Error>, text: impl FnOnce(T) -> String) -> String {
    match answer {
        Ok(value) => text(value),
        Err(error) => error_text(&error),
    }
}

fn component_text(component: Option<u64>) -> String {
    component.map_or_else(|| "wildcard or none".to_string(), |number| number.to_string())
}

fn error_text(error: &Error) -> String {
    match error {
        Error::UnexpectedToken(token) => format!("UnexpectedToken({})", token_text(token)),
        Error::Lexer(lexer::Error::UnexpectedChar(character)) => format!("Lexer({character})"),
        Error::MoreInput(tokens) => format!("MoreInput({})", tokens_text(tokens)),
        Error::UnexpectedEnd | Error::EmptyPredicate | Error::EmptyRange => format!("{error:?}"),
    }
}

fn tokens_text(tokens: &[Token]) -> String {
    let texts: Vec<String> = tokens.iter().map(token_text).collect();
    texts.join(" ")
}

fn token_text(token: &Token) -> String {
    match token {
        Token::Whitespace(first, after) => format!("Whitespace({first},{after})"),
        Token::AlphaNumeric(word) => format!("AlphaNumeric({word})"),
        other => format!("{other:?}"),
    }
}

/// Returns the numbers of a version, and each identifier by its kind and value.
fn fields(version: &Version) -> String {
    let part = |identifiers: &[Identifier]| identifiers.iter().map(identifier_text).collect::<Vec<_>>().join(" ");
    let (major, minor, patch) = (version.major, version.minor, version.patch);
    format!("{major} {minor} {patch} pre[{}] build[{}]", part(&version.pre), part(&version.build))
}

fn identifier_text(identifier: &Identifier) -> String {
    match identifier {
        Identifier::Numeric(number) => format!("Numeric({number})"),
        Identifier::AlphaNumeric(word) => format!("AlphaNumeric({word})"),
    }
}
