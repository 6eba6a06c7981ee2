// Made by tools/erase.py from crates/version_sets/src/successor.rt; not edited by hand.
//! Identifiers followed by the number 0: the pre-release right above theirs.

use crate::rattle_std::prelude::*;
use crate::proved::semver_texts::precedence::{IdentifierRef, Identifiers};

/// Identifiers, and whether the number 0 follows them.
#[derive(Clone, Copy)]
pub(crate) struct Successor<A> {
    pub(crate) identifiers: A,
    pub(crate) zero: bool,
}

impl<'a, A: Identifiers<'a>> Identifiers<'a> for Successor<A> {
    fn is_empty(&self) -> bool {
        self.identifiers.is_empty() && !self.zero
    }

    fn next(&mut self) -> Option<IdentifierRef<'a>> {
        if let Some(first) = self.identifiers.next() {
            return Some(first);
        }
        if !self.zero {
            return None;
        }
        self.zero = false;
        Some(IdentifierRef::Numeric(0))
    }
}
