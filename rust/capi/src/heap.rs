//! Needed without Rust's std: allocation by the C library, and a handler of panics.

use crate::rattle_std::{AllocError, FallibleVec};
use alloc::vec::Vec;
use core::alloc::{GlobalAlloc, Layout};
use core::ffi::{c_char, c_void};
use core::mem::{self, ManuallyDrop};
use core::ptr;

extern "C" {
    fn malloc(size: usize) -> *mut c_void;
    fn realloc(block: *mut c_void, size: usize) -> *mut c_void;
    fn free(block: *mut c_void);
}

#[global_allocator]
static HEAP: Heap = Heap;

struct Heap;

/// The minimum alignment of malloc: that of two pointers.
const ALIGNMENT: usize = 2 * mem::align_of::<usize>();

// SAFETY: the blocks are malloc's, which never unwinds. An alignment larger than malloc's, which
// nothing here has, is a failed allocation. `realloc` and `dealloc` get blocks of `alloc`.
unsafe impl GlobalAlloc for Heap {
    unsafe fn alloc(&self, layout: Layout) -> *mut u8 {
        // SAFETY: any size is allowed.
        let block = || unsafe { malloc(layout.size()) };
        (layout.align() <= ALIGNMENT).then(block).unwrap_or(ptr::null_mut()).cast()
    }

    unsafe fn realloc(&self, block: *mut u8, _: Layout, size: usize) -> *mut u8 {
        // SAFETY: malloc returned the block.
        unsafe { realloc(block.cast(), size) }.cast()
    }

    unsafe fn dealloc(&self, block: *mut u8, _: Layout) {
        // SAFETY: malloc returned the block.
        unsafe { free(block.cast()) }
    }
}

/// No function of the proved crate panics, and nothing unwinds into C. With the feature `std`, std
/// has the handler instead, and a program can have only one.
#[cfg(not(feature = "std"))]
#[panic_handler]
fn panic(_: &core::panic::PanicInfo<'_>) -> ! {
    extern "C" {
        fn abort() -> !;
    }
    // SAFETY: it may be called at any time.
    unsafe { abort() }
}

/// Moves a value to a block of its own, which is that of a vector. The value is dropped if the
/// allocation fails.
pub fn moved<T>(value: T) -> Result<*mut T, AllocError> {
    let mut block = Vec::fallible_with_capacity(1)?;
    block.push(value);
    Ok(ManuallyDrop::new(block).as_mut_ptr())
}

/// Drops a value of `moved`, and frees its block. SAFETY: it is such a value, or null, and isn't
/// used later.
pub unsafe fn free_value<T>(block: *mut T) {
    if !block.is_null() {
        // SAFETY: the caller ensures that it is a value of `moved`.
        drop(unsafe { Vec::from_raw_parts(block, 1, 1) });
    }
}

/// Frees a string of `message::printed`. SAFETY: it is such a string, or null, and isn't used
/// later.
pub unsafe fn free_string(string: *mut c_char) {
    // SAFETY: the caller ensures it, and the block is malloc's.
    unsafe { free(string.cast()) }
}
