//! Pages with the grammars, the tables and the definitions.
//!
//! | page | content |
//! |---|---|
//! | [`ranges`] | the dialects, the releases of each form of range, the rules for pre-releases, versions |
//! | [`meaning`] | the definitions: versions that satisfy a range in Cargo or npm, sets of versions |
//! | [`grammar`] | which strings Cargo and npm accept, and where and why a string is invalid |
//! | [`original_crate`] | grammar, meaning and comparators of the original crate; differences |

// The first target of a link counts, so a link leads to the page here and not to the file that the
// page names.

#[doc = include_str!("../docs/RANGES.md")]
pub mod ranges {}

/// [RANGES]: crate::docs::ranges
/// [GRAMMAR]: crate::docs::grammar
/// [CRATE]: crate::docs::original_crate
/// [written terms]: crate::docs::ranges#terms
/// [rules]: crate::docs::ranges#pre-releases
/// [crate's comparators]: crate::docs::original_crate#the-comparators
#[doc = include_str!("../docs/MEANING.md")]
pub mod meaning {}

/// [crate's grammar]: crate::docs::original_crate#range-strings
/// [identifiers]: crate::docs::original_crate#identifiers
#[doc = include_str!("../docs/GRAMMAR.md")]
pub mod grammar {}

/// [terms]: crate::docs::meaning#terms
/// [The theorem]: crate#what-is-proved
/// [npm's grammar]: crate::docs::grammar#range-strings-of-npm
/// [Cargo's grammar]: crate::docs::grammar#requirements-of-cargo
#[doc = include_str!("../docs/CRATE.md")]
pub mod original_crate {}
