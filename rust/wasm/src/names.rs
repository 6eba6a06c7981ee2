//! The names of dialects, rules for pre-releases and reasons, by their numbers.

use crate::shared::{Dialect, PreReleases, Reason};
use crate::state;

/// Outputs a name, if there is one. Returns 0, or -1 if there is none.
fn hand_back(name: Option<&'static str>) -> i32 {
    let Some(name) = name else { return -1 };
    state::with(|state| {
        state.numbers[0] = name.as_ptr() as u64;
        state.numbers[1] = name.len() as u64;
    });
    0
}

/// Outputs the name of the dialect with a number. Returns 0, or -1 if there is none.
#[no_mangle]
pub extern "C" fn dialect_name(number: i32) -> i32 {
    hand_back(Dialect::from_number(number).map(Dialect::name))
}

/// Outputs the name of the rule for pre-releases with a number. Returns 0, or -1 if there is none.
#[no_mangle]
pub extern "C" fn rule_name(number: i32) -> i32 {
    hand_back(PreReleases::from_number(number).map(PreReleases::name))
}

/// Outputs the name of the reason with a number. Returns 0, or -1 if there is none.
#[no_mangle]
pub extern "C" fn reason_name(number: i32) -> i32 {
    hand_back(Reason::from_number(number).map(Reason::name))
}

/// Outputs the sentence of the reason with a number. Returns 0, or -1 if there is none.
#[no_mangle]
pub extern "C" fn reason_sentence(number: i32) -> i32 {
    hand_back(Reason::from_number(number).map(Reason::sentence))
}
