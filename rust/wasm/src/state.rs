//! The state that calls share: strings that JavaScript wrote, and the outputs of a call.

use alloc::string::String;
use alloc::vec::Vec;
use core::cell::UnsafeCell;

pub struct State {
    /// The strings that calls read.
    pub strings: Vec<u8>,
    /// The string that a call returns.
    pub text: String,
    /// The numbers that a call returns.
    pub numbers: [u64; 7],
    /// The numbers of the terms that a call returns.
    pub terms: Vec<u64>,
}

struct Shared(UnsafeCell<State>);

// SAFETY: the module has one thread, and each instance of it has its own memory.
unsafe impl Sync for Shared {}

static STATE: Shared = Shared(UnsafeCell::new(State {
    strings: Vec::new(),
    text: String::new(),
    numbers: [0; 7],
    terms: Vec::new(),
}));

/// Runs a call with the state. No call runs another one, so the reference is the only one.
pub fn with<T>(call: impl FnOnce(&mut State) -> T) -> T {
    // SAFETY: see above.
    call(unsafe { &mut *STATE.0.get() })
}

impl State {
    /// Reserves `len` bytes for strings. Returns their address, or null if out of memory. What was
    /// written before is kept.
    pub fn reserve(&mut self, len: usize) -> *mut u8 {
        let now = self.strings.len();
        if len > now {
            if self.strings.try_reserve_exact(len - now).is_err() {
                return core::ptr::null_mut();
            }
            self.strings.resize(len, 0);
        }
        self.strings.as_mut_ptr()
    }
}
