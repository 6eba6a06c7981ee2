// Made by tools/erase.py from crates/semver_texts/src/printing.rt; not edited by hand.
//! Writes lists of values one after the other.

use crate::rattle_std::prelude::*;
use crate::rattle_std::fmt;

/// Writes the mark and then the items joined by dots, or nothing if there are no items.
///
/// For the mark `-` and the items 7 and `"rc"` it writes `-7.rc`. It does not allocate, and its
/// only error is the writer's.
pub fn write_part<T: fmt::Display>(
    f: &mut fmt::Formatter<'_>,
    mark: &str,
    items: &[T],
) -> fmt::Result {
    if items.is_empty() {
        return Ok(());
    }
    f.write_str(mark)?;
    write_joined(f, ".", items)
}

/// Writes the items, separated by the separator.
///
/// For the separator `.` and the items 7 and `"rc"` it writes `7.rc`. It does not allocate, and its
/// only error is the writer's.
pub fn write_joined<T: fmt::Display>(
    f: &mut fmt::Formatter<'_>,
    separator: &str,
    items: &[T],
) -> fmt::Result {
    let Some((first, rest)) = items.split_first() else {
        return Ok(());
    };
    write!(f, "{first}")?;
    for item in rest {
        write!(f, "{separator}{item}")?;
    }
    Ok(())
}
