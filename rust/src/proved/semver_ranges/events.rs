// Made by tools/erase.py from crates/semver_ranges/src/events.rt; not edited by hand.
//! The events of a range string, with each term as a `Simple`, which has one version. The two sides
//! of a hyphen range are terms of their own. Nothing here allocates.

use crate::rattle_std::prelude::*;
use crate::proved::semver_ranges::cursor::{self, Cursor};
use crate::proved::semver_ranges::grammar::Simple;
use crate::proved::semver_ranges::operator::Operator;
use crate::proved::semver_ranges::partial::Partial;
use crate::proved::semver_ranges::range_set::RangeError;
use crate::proved::semver_ranges::term::RawTerm;
use crate::proved::semver_texts::grammar::Grammar;

/// The next part of a range string, with its terms as `Simple`s.
#[derive(Clone, Copy)]
pub enum Event<'input> {
    /// A term of the range. An empty range gives a bare wildcard. A hyphen range gives its left
    /// side, and its right side as a term with `<=`. A side without a number is left out if the
    /// other one has one.
    Simple(Simple<'input>),
    /// Two bars, after which the next range begins.
    NextRange,
}

/// A cursor over a range string that returns its events.
#[derive(Clone, Copy, Debug)]
pub struct Events<'input> {
    cursor: Cursor<'input>,
    /// The right side of a hyphen range, if it comes next.
    upper: Option<Simple<'input>>,
}

impl<'input> Events<'input> {
    /// Returns the events of a string in a dialect.
    #[inline(always)]
    pub fn new(text: &'input [u8], grammar: Grammar) -> Events<'input> {
        Events {
            cursor: Cursor::new(text, grammar),
            upper: None,
        }
    }

    /// Returns whether nothing is left.
    #[inline(always)]
    pub(crate) fn is_at_end(&self) -> bool {
        match &self.upper {
            None => self.cursor.is_at_end(),
            Some(_) => false,
        }
    }

    /// Returns the next event in a dialect, or an error if the string isn't in the grammar from
    /// there on. It returns `None` at the end, and after an error.
    #[inline(always)]
    pub fn next_in(&mut self, grammar: Grammar) -> Option<Result<Event<'input>, RangeError>> {
        if let Some(upper) = self.upper {
            self.upper = None;
            return Some(Ok(Event::Simple(upper)));
        }
        match self.cursor.next_in(grammar)? {
            Ok(event) => {
                let (event, upper) = view(&event, grammar);
                self.upper = upper;
                Some(Ok(event))
            }
            Err(error) => Some(Err(error)),
        }
    }
}

/// Returns an event in plain terms, and the right side of a hyphen range, if it comes next.
#[inline(always)]
fn view<'input>(
    event: &cursor::Event<'input>,
    grammar: Grammar,
) -> (Event<'input>, Option<Simple<'input>>) {
    match event {
        cursor::Event::Term(term) => {
            let (first, upper) = simples(term, grammar);
            (Event::Simple(first), upper)
        }
        cursor::Event::EmptyRange => (Event::Simple(Simple::wildcard()), None),
        cursor::Event::NextRange => (Event::NextRange, None),
    }
}

/// Returns a term in plain terms: the one, or the two sides of a hyphen range.
#[inline(always)]
fn simples<'input>(
    term: &RawTerm<'input>,
    grammar: Grammar,
) -> (Simple<'input>, Option<Simple<'input>>) {
    let simple = term.simple(grammar);
    match &term.upper {
        Some(upper) => hyphen_sides(simple, Partial::of(&upper.components)),
        None => (simple, None),
    }
}

/// Returns the terms of the two sides of a hyphen range. A side without a number is left out,
/// except for the left one if neither side has a number.
#[inline(always)]
fn hyphen_sides<'input>(
    left: Simple<'input>,
    right: Partial<'input>,
) -> (Simple<'input>, Option<Simple<'input>>) {
    let upper = Simple {
        operator: Operator::LessOrEqual,
        partial: right,
    };
    if right.states_nothing() {
        (left, None)
    } else if left.partial.states_nothing() {
        (upper, None)
    } else {
        (left, Some(upper))
    }
}
