//! An allocator: blocks with sizes that are powers of two, and a list of free blocks of each size.
//! Blocks are neither split nor joined.

use core::alloc::{GlobalAlloc, Layout};
use core::arch::wasm32::{memory_grow, memory_size};
use core::cell::UnsafeCell;
use core::ptr::null_mut;

const PAGE: usize = 65536;

/// The smallest block has 2^4 bytes, and the largest 2^31.
const SMALLEST: u32 = 4;
const SIZES: usize = 28;

struct Blocks {
    /// The first free block of each size. Its first word is the address of the next one.
    free: [*mut u8; SIZES],
    /// The beginning of the memory that was never allocated.
    begin: usize,
    end: usize,
}

pub struct Allocator(UnsafeCell<Blocks>);

// SAFETY: the module has one thread, and each instance of it has its own memory.
unsafe impl Sync for Allocator {}

impl Allocator {
    pub const fn new() -> Allocator {
        Allocator(UnsafeCell::new(Blocks { free: [null_mut(); SIZES], begin: 0, end: 0 }))
    }
}

/// Returns the index of the smallest size that is enough for a layout.
fn index_of(layout: Layout) -> usize {
    let size = layout.size().max(layout.align()).max(1 << SMALLEST);
    (usize::BITS - (size - 1).leading_zeros() - SMALLEST) as usize
}

impl Blocks {
    /// Returns a block of memory that was never allocated, at a multiple of its size, or of a page
    /// if that is less. Only this function grows the memory, so new pages follow the previous ones.
    fn take(&mut self, index: usize) -> Option<*mut u8> {
        if self.end == 0 {
            self.begin = memory_size(0) * PAGE;
            self.end = self.begin;
        }
        let size = 1_usize.checked_shl(index as u32 + SMALLEST)?;
        let begin = self.begin.checked_next_multiple_of(size.min(PAGE))?;
        let next = begin.checked_add(size)?;
        if next > self.end {
            let pages = (next - self.end).div_ceil(PAGE);
            let end = self.end.checked_add(pages * PAGE)?;
            if memory_grow(0, pages) == usize::MAX {
                return None;
            }
            self.end = end;
        }
        self.begin = next;
        Some(begin as *mut u8)
    }
}

// SAFETY: an allocated block is in no list, and has the size and alignment of its layout.
unsafe impl GlobalAlloc for Allocator {
    unsafe fn alloc(&self, layout: Layout) -> *mut u8 {
        let blocks = unsafe { &mut *self.0.get() };
        let index = index_of(layout);
        match blocks.free.get(index).copied() {
            Some(first) if !first.is_null() => {
                blocks.free[index] = unsafe { first.cast::<*mut u8>().read() };
                first
            }
            _ => blocks.take(index).unwrap_or(null_mut()),
        }
    }

    unsafe fn dealloc(&self, block: *mut u8, layout: Layout) {
        let blocks = unsafe { &mut *self.0.get() };
        let index = index_of(layout);
        unsafe { block.cast::<*mut u8>().write(blocks.free[index]) };
        blocks.free[index] = block;
    }
}
