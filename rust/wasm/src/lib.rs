//! The functions that JavaScript calls. They contain no logic: each makes one call of what is proved,
//! which this crate compiles by its path.
//!
//! A string is the address and the length of its bytes, which JavaScript wrote at the address that
//! [`reserve`] returns. Further outputs of a function are in [`numbers`]: the address and the
//! length of a string, the parts of a version, or the offset and the span in an invalid string.
#![no_std]
#![warn(missing_docs)]

extern crate alloc;

#[path = "../../src/proved/mod.rs"]
mod proved;
#[path = "../../src/rattle_std.rs"]
#[allow(dead_code, unused_imports, unused_macros)]
mod rattle_std;

mod allocator;
mod errors;
mod names;
mod ranges;
#[path = "../../capi/src/shared.rs"]
mod shared;
mod state;
mod terms;
mod versions;

#[global_allocator]
static ALLOCATOR: allocator::Allocator = allocator::Allocator::new();

#[panic_handler]
fn stop(_: &core::panic::PanicInfo<'_>) -> ! {
    core::arch::wasm32::unreachable()
}

/// The statuses that a function returns instead of a result.
pub(crate) mod status {
    pub const INVALID_VERSION: i32 = -1;
    pub const INVALID_RANGE: i32 = -2;
    pub const OUT_OF_MEMORY: i32 = -3;
    pub const CANNOT_UPGRADE: i32 = -4;
}

/// Returns an address where `len` bytes of strings can be written, or null if out of memory. What
/// was written there before is kept.
#[no_mangle]
pub extern "C" fn reserve(len: usize) -> *mut u8 {
    state::with(|state| state.reserve(len))
}

/// Returns the address of the numbers that a function outputs: seven of 64 bits.
#[no_mangle]
pub extern "C" fn numbers() -> *const u64 {
    state::with(|state| state.numbers.as_ptr())
}

/// Returns the bytes at an address.
///
/// # Safety
/// There are `len` bytes at the address, and nothing writes to them meanwhile.
pub(crate) unsafe fn bytes<'a>(at: *const u8, len: usize) -> &'a [u8] {
    unsafe { core::slice::from_raw_parts(at, len) }
}
