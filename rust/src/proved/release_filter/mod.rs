// Made by tools/erase.py from crates/release_filter/src/lib.rt; not edited by hand.
//! Filters versions and lines by a range: the releases among many versions, the lines of a text
//! that comes in pieces, the line with the highest or the lowest version, and sorted lines. Also
//! decides which versions satisfy a range set.

use crate::rattle_std::prelude::*;
mod contained;
mod counts;
mod filter;
mod held;
mod judge;
mod line_options;
mod line_texts;
mod lines;
mod meeting;
mod precedence;
mod selection;

pub use counts::{Counts, InvalidLine};
pub use filter::filter_text;
pub use line_options::LineOptions;
pub use line_texts::LineEnd;
pub use lines::{Lines, LinesError};
pub use meeting::{release_meets, version_meets};
pub use selection::Selection;
