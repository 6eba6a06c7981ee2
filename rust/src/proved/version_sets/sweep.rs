// Made by tools/erase.py from crates/version_sets/src/sweep.rt; not edited by hand.
//! Goes through two lists of boundaries together, from the lowest to the highest.

use crate::rattle_std::prelude::*;
use crate::proved::version_sets::boundary::Boundary;
use crate::rattle_std::cmp::Ordering;

/// The versions between one boundary and the next boundary of either list.
pub(crate) struct Piece<'a, T> {
    /// The boundary at the beginning of the piece.
    pub from: &'a T,
    /// Whether the piece is in the first set.
    pub in_first: bool,
    /// Whether the piece is in the second set.
    pub in_second: bool,
}

/// The rest of two lists of boundaries, and whether the versions right below it are in the two
/// sets.
pub(crate) struct Sweep<'a, T> {
    first: &'a [T],
    second: &'a [T],
    in_first: bool,
    in_second: bool,
}

impl<'a, T: Boundary> Sweep<'a, T> {
    /// Returns the pieces of two sets, which are given by their increasing boundaries. For the
    /// boundaries 1, 3 and 2, 3 the pieces are: from 1 only in the first, from 2 in both, from 3 in
    /// neither.
    pub(crate) fn over(first: &'a [T], second: &'a [T]) -> Sweep<'a, T> {
        Sweep {
            first,
            second,
            in_first: false,
            in_second: false,
        }
    }
}

impl<'a, T: Boundary> Iterator for Sweep<'a, T> {
    type Item = Piece<'a, T>;

    #[inline(always)]
    fn next(&mut self) -> Option<Piece<'a, T>> {
        let (from, turns) = match (self.first.first(), self.second.first()) {
            (None, None) => return None,
            (Some(a), None) => (a, Ordering::Less),
            (None, Some(b)) => (b, Ordering::Greater),
            (Some(a), Some(b)) => match a.compare(b) {
                Ordering::Greater => (b, Ordering::Greater),
                turns => (a, turns),
            },
        };
        if turns.is_le() {
            self.first = &self.first[1..];
            self.in_first = !self.in_first;
        }
        if turns.is_ge() {
            self.second = &self.second[1..];
            self.in_second = !self.in_second;
        }
        Some(Piece {
            from,
            in_first: self.in_first,
            in_second: self.in_second,
        })
    }
}
