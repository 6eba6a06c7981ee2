// Made by tools/erase.py from crates/version_sets/src/hashing.rt; not edited by hand.
//! The hash of a set.

use crate::rattle_std::prelude::*;
use crate::proved::version_sets::boundary::Boundary;
use crate::proved::version_sets::version_set::VersionSet;
use crate::rattle_std::hash::{Hash, Hasher};

impl Hash for VersionSet {
    /// Hashes the boundaries of the releases, and the three numbers of each boundary of the
    /// pre-releases.
    fn hash<H: Hasher>(&self, state: &mut H) {
        self.releases.as_slice().hash(state);
        for boundary in self.pre_releases.as_slice() {
            boundary.numbers().hash(state);
        }
    }
}
