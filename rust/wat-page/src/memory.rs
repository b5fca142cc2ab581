//! The allocator of the module. In an instance that calls [`wat_page_read`](crate::page::wat_page_read), JavaScript arranges all of the memory, so
//! every allocation fails.
//!
//! That function allocates in one case: for the width of more than 1,024 bytes without a space or an ASCII letter, in the line before a lexical
//! error. If the allocation fails, the width is computed in parts, and a sequence of characters across the end of a part is measured as two.
//!
//! In an instance that calls [`wat_page_room`](crate::whole::wat_page_room), allocations succeed from then on.

use std::alloc::{GlobalAlloc, Layout, System};
use std::ptr::null_mut;
use std::sync::atomic::{AtomicBool, Ordering};

static IS_GRANTED: AtomicBool = AtomicBool::new(false);

/// Enables allocation in this instance.
pub fn grant() {
    IS_GRANTED.store(true, Ordering::Relaxed);
}

/// The system's allocator, or one that always fails until [`grant`] is called.
struct Memory;

#[global_allocator]
static MEMORY: Memory = Memory;

// SAFETY: null reports an allocation failure, and every other block is the system allocator's.
#[allow(unsafe_code)]
unsafe impl GlobalAlloc for Memory {
    unsafe fn alloc(&self, layout: Layout) -> *mut u8 {
        if !IS_GRANTED.load(Ordering::Relaxed) {
            return null_mut();
        }
        unsafe { System.alloc(layout) }
    }

    unsafe fn dealloc(&self, block: *mut u8, layout: Layout) {
        unsafe { System.dealloc(block, layout) }
    }

    unsafe fn realloc(&self, block: *mut u8, layout: Layout, size: usize) -> *mut u8 {
        unsafe { System.realloc(block, layout, size) }
    }
}
