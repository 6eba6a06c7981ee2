// Made by tools/erase.py from crates/library_tests/src/refused/parsers.rt; not edited by hand.
//! Methods of a parser.
#![cfg(feature = "std")]

use crate::rattle_std::prelude::*;
use super::Ending;
use super::versions::prints_as;
use crate::proved::semver_parser::lexer;
use crate::proved::semver_parser::lexer::Token;
use crate::proved::semver_parser::parser::{Error, Parser};
use crate::proved::semver_parser::version::Identifier;

/// `identifier` on `a-b-1.2/`. If it is out of memory, it leaves a final part of the tokens, and
/// the bad character after them.
pub fn identifier() -> Ending {
    let Ok(mut parser) = Parser::new("a-b-1.2/") else {
        return Ending::Wrong;
    };
    match parser.identifier() {
        Ok(Identifier::AlphaNumeric(text)) => {
            Ending::full_if(text.as_str() == "a-b-1" && leads_to_a_slash(&mut parser, 2))
        }
        Err(Error::OutOfMemory) => Ending::refused_if(leads_to_a_slash(&mut parser, 7)),
        _ => Ending::Wrong,
    }
}

/// `version` on `1.2.3-a-b.c+d 4/`. If it is out of memory, it leaves a final part of the tokens,
/// and the bad character after them.
pub fn version() -> Ending {
    let Ok(mut parser) = Parser::new("1.2.3-a-b.c+d 4/") else {
        return Ending::Wrong;
    };
    match parser.version() {
        Ok(version) => Ending::full_if(
            prints_as(&version, "1.2.3-a-b.c+d") && leads_to_a_slash(&mut parser, 1),
        ),
        Err(Error::OutOfMemory) => Ending::refused_if(leads_to_a_slash(&mut parser, 15)),
        Err(_) => Ending::Wrong,
    }
}

/// Returns whether at most this number of tokens are taken before the bad character is read.
fn leads_to_a_slash(parser: &mut Parser<'_>, tokens: u32) -> bool {
    for _ in 0..tokens {
        if matches!(
            parser.component(),
            Err(Error::Lexer(lexer::Error::UnexpectedChar('/')))
        ) {
            return true;
        }
    }
    false
}

/// `tail` on `1.2.3 a.b.c`. If it is out of memory, it changes nothing, so the next call returns
/// all eleven tokens.
pub fn tail() -> Ending {
    let Ok(mut parser) = Parser::new("1.2.3 a.b.c") else {
        return Ending::Wrong;
    };
    match parser.tail() {
        Ok(tokens) => Ending::full_if(are_all_eleven(&tokens) && parser.is_eof()),
        Err(Error::OutOfMemory) => match parser.tail() {
            Ok(tokens) => Ending::refused_if(are_all_eleven(&tokens) && parser.is_eof()),
            Err(_) => Ending::Wrong,
        },
        Err(_) => Ending::Wrong,
    }
}

fn are_all_eleven(tokens: &[Token<'_>]) -> bool {
    tokens
        == [
            Token::Numeric(1),
            Token::Dot,
            Token::Numeric(2),
            Token::Dot,
            Token::Numeric(3),
            Token::Whitespace(5, 6),
            Token::AlphaNumeric("a"),
            Token::Dot,
            Token::AlphaNumeric("b"),
            Token::Dot,
            Token::AlphaNumeric("c"),
        ]
        .as_slice()
}

/// `tail` on `1 /` makes no request, since it returns the error for the bad character.
pub fn tail_before_a_bad_character() -> Ending {
    let Ok(mut parser) = Parser::new("1 /") else {
        return Ending::Wrong;
    };
    let first = matches!(
        parser.tail(),
        Err(Error::Lexer(lexer::Error::UnexpectedChar('/')))
    );
    let second = matches!(
        parser.tail(),
        Err(Error::Lexer(lexer::Error::UnexpectedChar('/')))
    );
    Ending::full_if(first && second && parser.is_eof())
}

/// `tail` on the empty string makes no request.
pub fn tail_of_nothing() -> Ending {
    let Ok(mut parser) = Parser::new("") else {
        return Ending::Wrong;
    };
    match parser.tail() {
        Ok(tokens) => Ending::full_if(tokens.is_empty()),
        Err(_) => Ending::Wrong,
    }
}
