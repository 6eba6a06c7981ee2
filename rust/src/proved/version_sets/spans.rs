// Made by tools/erase.py from crates/version_sets/src/spans.rt; not edited by hand.
//! Spans of one kind of versions, and the boundaries of their union.

use crate::rattle_std::prelude::*;
use crate::proved::version_sets::span_end::SpanEnd;
use crate::rattle_std::AllocError;

/// The versions at or above one end and below another. `None` is above all versions.
#[derive(Clone, Copy)]
pub(crate) struct Bounds<L> {
    /// The beginning.
    pub from: Option<L>,
    /// The end.
    pub to: Option<L>,
}

/// The versions at or above one end, and below another if there is one. The second is above the
/// first.
#[derive(Clone, Copy)]
pub(crate) struct Span<L> {
    /// The beginning.
    pub from: L,
    /// The end.
    pub to: Option<L>,
}

/// Returns the higher of two ends. `None` is above all versions.
fn later<L: SpanEnd>(first: Option<L>, second: Option<L>) -> Option<L> {
    let (first, second) = (first?, second?);
    Some(if first.compare(&second).is_ge() {
        first
    } else {
        second
    })
}

/// Returns the lower of two ends. `None` is above all versions.
fn earlier<L: SpanEnd>(first: Option<L>, second: Option<L>) -> Option<L> {
    let Some(first) = first else {
        return second;
    };
    match second {
        Some(second) => Some(if second.compare(&first).is_lt() {
            second
        } else {
            first
        }),
        None => Some(first),
    }
}

impl<L: SpanEnd> Bounds<L> {
    /// Returns the versions that are within other bounds, too.
    #[inline(always)]
    pub(crate) fn and(self, other: Bounds<L>) -> Bounds<L> {
        Bounds {
            from: later(self.from, other.from),
            to: earlier(self.to, other.to),
        }
    }

    /// Returns the span of the versions, if there is anything between the bounds.
    pub(crate) fn span(self) -> Option<Span<L>> {
        let from = self.from?;
        if let Some(to) = self.to {
            if from.compare(&to).is_ge() {
                return None;
            }
        }
        Some(Span { from, to: self.to })
    }

    /// Adds the span of the versions to others, if there is anything between the bounds. `Err`
    /// means out of memory.
    pub(crate) fn push_to(self, spans: &mut Vec<Span<L>>) -> Result<(), AllocError> {
        if let Some(span) = self.span() {
            spans.fallible_push(span)?;
        }
        Ok(())
    }

    /// Returns the boundaries of the versions. `Err` means out of memory.
    #[inline(always)]
    pub(crate) fn boundaries(self) -> Result<Vec<L::Boundary>, AllocError> {
        let Some(span) = self.span() else {
            return Ok(Vec::new());
        };
        let mut boundaries = Vec::fallible_with_capacity(2)?;
        push_boundaries(&span, &mut boundaries)?;
        Ok(boundaries)
    }
}

/// Returns the boundaries of the union of the spans. `Err` means out of memory.
pub(crate) fn boundaries_of<L: SpanEnd>(
    spans: &mut [Span<L>],
) -> Result<Vec<L::Boundary>, AllocError> {
    spans.sort_unstable_by(|span, other| span.from.compare(&other.from));
    joined(spans)
}

/// Returns the boundaries of ascending spans. `Err` means out of memory.
fn joined<L: SpanEnd>(spans: &[Span<L>]) -> Result<Vec<L::Boundary>, AllocError> {
    let [first, others @ ..] = spans else {
        return Ok(Vec::new());
    };
    let mut boundaries = Vec::fallible_with_capacity(spans.len().saturating_mul(2))?;
    let mut span = *first;
    for next in others {
        if is_apart(span.to, &next.from) {
            push_boundaries(&span, &mut boundaries)?;
            span = *next;
        } else {
            span.to = later(span.to, next.to);
        }
    }
    push_boundaries(&span, &mut boundaries)?;
    Ok(boundaries)
}

/// Returns whether there is an end, and it is below another.
fn is_apart<L: SpanEnd>(end: Option<L>, boundary: &L) -> bool {
    match end {
        Some(end) => end.compare(boundary).is_lt(),
        None => false,
    }
}

/// Adds the boundaries of a span. `Err` means out of memory.
#[inline(always)]
fn push_boundaries<L: SpanEnd>(
    span: &Span<L>,
    boundaries: &mut Vec<L::Boundary>,
) -> Result<(), AllocError> {
    boundaries.fallible_push(span.from.boundary()?)?;
    if let Some(to) = span.to {
        boundaries.fallible_push(to.boundary()?)?;
    }
    Ok(())
}
