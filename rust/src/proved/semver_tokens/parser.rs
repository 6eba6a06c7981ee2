// Made by tools/erase.py from crates/semver_tokens/src/parser.rt; not edited by hand.
//! Reads numbers, components, identifiers and versions from the tokens of a string, with one token
//! of lookahead.
//!
//! The state of a parser is the list of the remaining tokens, and a pending character if the string
//! continues with one that begins no token. Taking a token first reads the next one. So the last
//! token before a bad character is never returned, and the errors `Lexer` and `UnexpectedEnd` leave
//! the parser as it was. An unexpected token is consumed.

use crate::rattle_std::prelude::*;
use crate::proved::semver_tokens::lexer::{self, Lexer, Token, copy, count_tokens, rest};
use crate::proved::semver_texts::bytes::part_len;
use crate::proved::semver_texts::version::{Identifier, Version};
use crate::rattle_std::AllocError;
use crate::rattle_std::fmt;

/// The error of a method of a parser, or of `version::parse`. It borrows the input.
///
/// ```
/// use semver_parser::parser::Error;
/// use semver_parser::version;
///
/// let error = version::parse("1.2").unwrap_err();
/// assert_eq!(error, Error::UnexpectedEnd);
/// assert_eq!(error.to_string(), "expected more input");
/// ```
#[derive(Debug, PartialEq, Eq, PartialOrd, Ord)]
pub enum Error<'input> {
    /// A token is missing at the end of the string.
    UnexpectedEnd,
    /// This token isn't allowed here. It has been consumed.
    UnexpectedToken(Token<'input>),
    /// The string continues with a character that begins no token.
    Lexer(lexer::Error),
    /// These tokens follow the version.
    MoreInput(Vec<Token<'input>>),
    /// Never returned. The variant exists because the Rust crate has it.
    EmptyPredicate,
    /// Never returned. The variant exists because the Rust crate has it.
    EmptyRange,
    /// An allocation failed.
    OutOfMemory,
}

impl<'input> From<lexer::Error> for Error<'input> {
    /// Returns the error of the lexer as `Lexer`.
    #[inline(always)]
    fn from(value: lexer::Error) -> Self {
        Error::Lexer(value)
    }
}

impl<'input> fmt::Display for Error<'input> {
    /// Writes a sentence for people, such as `expected more input`. It does not allocate, and its
    /// only error is the writer's.
    fn fmt(&self, f: &mut fmt::Formatter<'_>) -> fmt::Result {
        match self {
            Error::UnexpectedEnd => f.write_str("expected more input"),
            Error::UnexpectedToken(token) => write!(f, "encountered unexpected token: {token:?}"),
            Error::Lexer(error) => write!(f, "lexer error: {error:?}"),
            Error::MoreInput(tokens) => write!(f, "expected end of input, but got: {tokens:?}"),
            Error::EmptyPredicate => f.write_str("encountered empty predicate"),
            Error::EmptyRange => f.write_str("encountered empty range"),
            Error::OutOfMemory => f.write_str("out of memory"),
        }
    }
}

impl<'input> Error<'input> {
    /// Returns the string that `Display` writes, for use where the Rust crate converts an error
    /// into a `String`.
    ///
    /// `Err` means out of memory; the error itself isn't changed.
    pub(crate) fn text(&self) -> Result<String, AllocError> {
        self.fallible_to_string()
    }
}

/// Reads a string token by token, with one token of lookahead.
///
/// ```
/// use semver_parser::lexer::Token;
/// use semver_parser::parser::{Error, Parser};
///
/// let mut parser = Parser::new(".x.01")?;
/// assert_eq!(parser.dot_component()?, (None, true));
/// assert_eq!(parser.dot_numeric(), Err(Error::UnexpectedToken(Token::AlphaNumeric("01"))));
/// assert!(parser.is_eof());
/// # Ok::<(), Error>(())
/// ```
#[derive(Debug)]
pub struct Parser<'input> {
    lexer: Lexer<'input>,
    // The first of the remaining tokens.
    lookahead: Option<Token<'input>>,
    // The string from that token on.
    rest: &'input str,
}

impl<'input> Parser<'input> {
    /// Returns a parser at the beginning of a string: all its tokens remain. If the string ends in
    /// a character that begins no token, that character is pending. It does not allocate.
    ///
    /// # Errors
    ///
    /// `Lexer` if and only if the string begins with such a character.
    ///
    /// ```
    /// use semver_parser::lexer;
    /// use semver_parser::parser::{Error, Parser};
    ///
    /// let refused = Parser::new("/").err();
    /// assert_eq!(refused, Some(Error::Lexer(lexer::Error::UnexpectedChar('/'))));
    /// assert!(Parser::new("1 /").is_ok() && Parser::new("").is_ok());
    /// ```
    pub fn new(input: &'input str) -> Result<Parser<'input>, Error<'input>> {
        let mut lexer = Lexer::new(input);
        let lookahead = lexer.next().transpose()?;
        Ok(Parser {
            lexer,
            lookahead,
            rest: input,
        })
    }

    /// Takes the first token. The token after it is read first, so an error changes nothing.
    #[inline(always)]
    fn pop(&mut self) -> Result<Token<'input>, Error<'input>> {
        let rest = rest(&self.lexer);
        let mut lexer = copy(&self.lexer);
        let after = lexer.next().transpose()?;
        let Some(first) = self.lookahead.take() else {
            return Err(Error::UnexpectedEnd);
        };
        self.lexer = lexer;
        self.lookahead = after;
        self.rest = rest;
        Ok(first)
    }

    /// Takes a number.
    ///
    /// # Errors
    ///
    /// `UnexpectedToken` for any other token, which is consumed. `UnexpectedEnd` if no token
    /// remains, and `Lexer` if a character is pending after at most one token; both leave the
    /// parser as it was. It does not allocate.
    ///
    /// ```
    /// use semver_parser::lexer::Token;
    /// use semver_parser::parser::Parser;
    ///
    /// let mut parser = Parser::new("1.2")?;
    /// assert_eq!(parser.numeric()?, 1);
    /// assert_eq!(parser.tail()?, [Token::Dot, Token::Numeric(2)]);
    /// # Ok::<(), semver_parser::parser::Error>(())
    /// ```
    #[inline(always)]
    pub fn numeric(&mut self) -> Result<u64, Error<'input>> {
        match self.pop()? {
            Token::Numeric(number) => Ok(number),
            token => Err(Error::UnexpectedToken(token)),
        }
    }

    /// Returns the first token without taking it.
    fn peek(&self) -> Option<&Token<'input>> {
        self.lookahead.as_ref()
    }

    /// Takes a number, or a wildcard, which is returned as `None`.
    ///
    /// Its errors are those of `numeric`. It does not allocate.
    ///
    /// ```
    /// use semver_parser::lexer::Token;
    /// use semver_parser::parser::Parser;
    ///
    /// let mut parser = Parser::new("X.1")?;
    /// assert_eq!(parser.component()?, None);
    /// assert_eq!(parser.tail()?, [Token::Dot, Token::Numeric(1)]);
    /// # Ok::<(), semver_parser::parser::Error>(())
    /// ```
    #[inline(always)]
    pub fn component(&mut self) -> Result<Option<u64>, Error<'input>> {
        match self.pop()? {
            Token::Numeric(number) => Ok(Some(number)),
            token => {
                if token.is_wildcard() {
                    Ok(None)
                } else {
                    Err(Error::UnexpectedToken(token))
                }
            }
        }
    }

    /// Takes a dot and a component, if a dot is next. Returns `(Some(n), false)` for a number, and
    /// `(None, true)` for a wildcard. If no dot is next, it returns `(None, false)` and takes
    /// nothing.
    ///
    /// Its errors are those of `component`. After an error the dot has been consumed, unless the
    /// dot itself is the last token before a pending character. It does not allocate.
    ///
    /// ```
    /// use semver_parser::parser::Parser;
    ///
    /// let mut parser = Parser::new(".1.x")?;
    /// assert_eq!(parser.dot_component()?, (Some(1), false));
    /// assert_eq!(parser.dot_component()?, (None, true));
    /// assert_eq!(parser.dot_component()?, (None, false));
    /// # Ok::<(), semver_parser::parser::Error>(())
    /// ```
    #[inline(always)]
    pub fn dot_component(&mut self) -> Result<(Option<u64>, bool), Error<'input>> {
        if !self.at_dot() {
            return Ok((None, false));
        }
        let _dot = self.pop()?;
        let component = self.component()?;
        Ok((component, component.is_none()))
    }

    /// Takes a dot and a number.
    ///
    /// Its errors are those of `numeric`, for either token. What it took before the error stays
    /// consumed. It does not allocate.
    ///
    /// ```
    /// use semver_parser::parser::Parser;
    ///
    /// assert_eq!(Parser::new(".7")?.dot_numeric()?, 7);
    /// # Ok::<(), semver_parser::parser::Error>(())
    /// ```
    #[inline(always)]
    pub fn dot_numeric(&mut self) -> Result<u64, Error<'input>> {
        match self.pop()? {
            Token::Dot => self.numeric(),
            token => Err(Error::UnexpectedToken(token)),
        }
    }

    /// Returns whether no token remains. A character may still be pending. It changes nothing.
    ///
    /// ```
    /// use semver_parser::parser::Parser;
    ///
    /// assert!(Parser::new("")?.is_eof());
    /// let mut parser = Parser::new("1")?;
    /// assert!(!parser.is_eof());
    /// parser.numeric()?;
    /// assert!(parser.is_eof());
    /// # Ok::<(), semver_parser::parser::Error>(())
    /// ```
    #[inline(always)]
    pub fn is_eof(&mut self) -> bool {
        self.lookahead.is_none()
    }

    /// Takes letters and digits, and returns their number if they are one.
    #[inline(always)]
    fn run(&mut self) -> Result<Option<u64>, Error<'input>> {
        match self.pop()? {
            Token::Numeric(number) => Ok(Some(number)),
            Token::AlphaNumeric(_) => Ok(None),
            token => Err(Error::UnexpectedToken(token)),
        }
    }

    /// Returns whether a hyphen is next.
    #[inline(always)]
    fn at_hyphen(&self) -> bool {
        matches!(self.peek(), Some(Token::Hyphen))
    }

    /// Returns whether a plus is next.
    #[inline(always)]
    fn at_plus(&self) -> bool {
        matches!(self.peek(), Some(Token::Plus))
    }

    /// Returns whether a dot is next.
    #[inline(always)]
    fn at_dot(&self) -> bool {
        matches!(self.peek(), Some(Token::Dot))
    }

    /// Takes the tokens of an identifier, and returns its number if it is only a number.
    fn pass_identifier(&mut self) -> Result<Option<u64>, Error<'input>> {
        let mut number = self.run()?;
        while self.at_hyphen() {
            self.pop()?;
            self.run()?;
            number = None;
        }
        Ok(number)
    }

    /// Reads an identifier of a version: one or more sequences of ASCII letters and digits, joined
    /// by single hyphens. A single sequence that is the canonical decimal of a number up to 2^64 -
    /// 1 is returned as `Numeric`, anything else as `AlphaNumeric` with its string. Only the
    /// identifier's tokens are taken.
    ///
    /// # Errors
    ///
    /// - `UnexpectedToken`: letters or digits are missing, at the beginning or after a hyphen, and
    ///   another token is there. It is taken, too.
    /// - `UnexpectedEnd`: no token remains there. The tokens before stay taken.
    /// - `Lexer`: a bad character is pending and at most one token remains. That token stays, since
    ///   it isn't known whether the identifier ends with it.
    /// - `OutOfMemory`: the allocation of the string, which is made at once, failed. Only its
    ///   tokens stay taken. A number does not allocate.
    ///
    /// ```
    /// use semver_parser::parser::Parser;
    /// use semver_parser::version::Identifier;
    ///
    /// assert_eq!(Parser::new("7")?.identifier()?, Identifier::Numeric(7));
    /// for text in ["07", "1-2"] {
    ///     let identifier = Parser::new(text)?.identifier()?;
    ///     assert_eq!(identifier, Identifier::AlphaNumeric(text.to_string()));
    /// }
    /// # Ok::<(), semver_parser::parser::Error>(())
    /// ```
    pub fn identifier(&mut self) -> Result<Identifier, Error<'input>> {
        let text = self.rest;
        if let Some(number) = self.pass_identifier()? {
            return Ok(Identifier::Numeric(number));
        }
        let Ok(kept) = String::fallible_from_str(identifier_front(text)) else {
            return Err(Error::OutOfMemory);
        };
        Ok(Identifier::AlphaNumeric(kept))
    }

    /// Takes the next token and an identifier after it, and repeats this at each dot.
    fn identifiers(&mut self) -> Result<Vec<Identifier>, Error<'input>> {
        let mut identifiers = Vec::new();
        loop {
            self.pop()?;
            let identifier = self.identifier()?;
            let Ok(()) = identifiers.fallible_push(identifier) else {
                return Err(Error::OutOfMemory);
            };
            if !self.at_dot() {
                return Ok(identifiers);
            }
        }
    }

    /// Reads the identifiers of a part, whose mark is next, if the part is there. Otherwise it
    /// returns none.
    #[inline(always)]
    fn part(&mut self, there: bool) -> Result<Vec<Identifier>, Error<'input>> {
        if there {
            self.identifiers()
        } else {
            Ok(Vec::new())
        }
    }

    /// Takes white space, if it is next.
    #[inline(always)]
    fn skip_whitespace(&mut self) -> Result<(), Error<'input>> {
        if self.peek().is_some_and(|token| token.is_whitespace()) {
            self.pop()?;
        }
        Ok(())
    }

    /// Takes white space, if it is next, and three numbers joined by dots.
    #[inline(always)]
    fn numbers(&mut self) -> Result<(u64, u64, u64), Error<'input>> {
        self.skip_whitespace()?;
        let major = self.numeric()?;
        let minor = self.dot_numeric()?;
        let patch = self.dot_numeric()?;
        Ok((major, minor, patch))
    }

    /// Reads a version and the white space around it. It ends before the first token that doesn't
    /// fit; that token and all after it remain.
    ///
    /// # Errors
    ///
    /// - `UnexpectedToken`: a number, a dot or an identifier is missing, and another token is
    ///   there. It is taken, too.
    /// - `UnexpectedEnd`: no token remains there. The tokens before stay taken.
    /// - `Lexer`: a bad character is pending and at most one token remains. That token stays.
    /// - `OutOfMemory`: an allocation failed, for the string of an identifier or for a list of
    ///   identifiers. What was taken stays taken. Nothing is allocated for a version without a
    ///   pre-release and build metadata.
    ///
    /// ```
    /// use semver_parser::lexer::Token;
    /// use semver_parser::parser::Parser;
    ///
    /// let mut parser = Parser::new(" 1.2.3-rc.4+5aedf a")?;
    /// assert_eq!(parser.version()?.to_string(), "1.2.3-rc.4+5aedf");
    /// assert_eq!(parser.tail()?, [Token::AlphaNumeric("a")]);
    /// # Ok::<(), semver_parser::parser::Error>(())
    /// ```
    pub fn version(&mut self) -> Result<Version, Error<'input>> {
        let (major, minor, patch) = self.numbers()?;
        let has_pre = self.at_hyphen();
        let pre = self.part(has_pre)?;
        let has_build = self.at_plus();
        let build = self.part(has_build)?;
        self.skip_whitespace()?;
        Ok(Version {
            major,
            minor,
            patch,
            pre,
            build,
        })
    }

    /// Takes and returns all remaining tokens, in order.
    ///
    /// # Errors
    ///
    /// - `Lexer` if a character is pending. No token remains then, and the character stays pending.
    /// - `OutOfMemory` if its one allocation failed. Nothing is changed then. It allocates only if
    ///   tokens remain and no character is pending, once, for exactly their number.
    ///
    /// ```
    /// use semver_parser::lexer::Token;
    /// use semver_parser::parser::Parser;
    ///
    /// let tokens = Parser::new("a.b")?.tail()?;
    /// assert_eq!(tokens, [Token::AlphaNumeric("a"), Token::Dot, Token::AlphaNumeric("b")]);
    /// # Ok::<(), semver_parser::parser::Error>(())
    /// ```
    pub fn tail(&mut self) -> Result<Vec<Token<'input>>, Error<'input>> {
        let (count, end) = count_tokens(&self.lexer);
        if let Err(error) = copy(&end).next().transpose() {
            self.rest = rest(&end);
            self.lexer = end;
            self.lookahead = None;
            return Err(Error::Lexer(error));
        }
        if self.lookahead.is_none() {
            return Ok(Vec::new());
        }
        let Ok(mut tokens) = Vec::fallible_with_capacity(count + 1) else {
            return Err(Error::OutOfMemory);
        };
        if let Some(first) = self.lookahead.take() {
            push_within(&mut tokens, first);
        }
        let mut lexer = copy(&self.lexer);
        while let Some(Ok(token)) = lexer.next() {
            push_within(&mut tokens, token);
        }
        self.rest = rest(&end);
        self.lexer = end;
        Ok(tokens)
    }
}

/// Returns the longest prefix of letters, digits and hyphens.
fn identifier_front(text: &str) -> &str {
    let len = part_len(text.as_bytes());
    &text[..len]
}

/// Appends a token to a vector that has capacity for it.
fn push_within<'input>(tokens: &mut Vec<Token<'input>>, token: Token<'input>) {
    let Ok(()) = tokens.fallible_push(token) else {
        unreachable!()
    };
}
