//! Where and why a string is an invalid version.

use super::Ending;
use crate::proved::invalid_strings::reasons::Reason;
use crate::proved::invalid_strings::refusals::explain;
use crate::proved::semver_parser::version::Grammar;

/// Finds the offset and the reason of an invalid version. A valid one makes no request.
pub fn version_error() -> Ending {
    if !matches!(explain(b"1.2.3", Grammar::Cargo), Ok(None)) {
        return Ending::Wrong;
    }
    match explain(b"1.2.03", Grammar::Cargo) {
        Ok(Some(refusal)) => {
            Ending::full_if(refusal.offset == 5 && refusal.reason == Reason::LeadingZero)
        }
        Ok(None) => Ending::Wrong,
        Err(_) => Ending::Refused,
    }
}
