//! An allocator that counts its blocks and their bytes.

use std::alloc::{GlobalAlloc, Layout, System};
use std::sync::atomic::AtomicUsize;
use std::sync::atomic::Ordering::Relaxed;

/// The system's allocator, with counters. Each block that grows is copied, so that the instructions do not depend on what else is allocated.
struct Counting;

/// The bytes that are allocated now.
static HELD: AtomicUsize = AtomicUsize::new(0);
/// The maximum of `HELD` since the last call of [`memory`].
static MOST: AtomicUsize = AtomicUsize::new(0);
/// The number of blocks that were allocated.
static BLOCKS: AtomicUsize = AtomicUsize::new(0);

fn allocated(bytes: usize) {
    BLOCKS.fetch_add(1, Relaxed);
    let held = HELD.fetch_add(bytes, Relaxed) + bytes;
    MOST.fetch_max(held, Relaxed);
}

// SAFETY: all blocks are allocated and freed by the system's allocator.
unsafe impl GlobalAlloc for Counting {
    unsafe fn alloc(&self, layout: Layout) -> *mut u8 {
        allocated(layout.size());
        unsafe { System.alloc(layout) }
    }

    unsafe fn dealloc(&self, block: *mut u8, layout: Layout) {
        HELD.fetch_sub(layout.size(), Relaxed);
        unsafe { System.dealloc(block, layout) }
    }
}

#[global_allocator]
static ALLOCATOR: Counting = Counting;

/// Runs a call, and returns the maximum number of bytes that it had allocated at a time, and the number of blocks that it allocated. A block that
/// grows counts twice, in the maximum while it is copied.
pub fn memory(call: impl FnOnce()) -> (usize, usize) {
    let (held, blocks) = (HELD.load(Relaxed), BLOCKS.load(Relaxed));
    MOST.store(held, Relaxed);
    call();
    let peak = MOST.load(Relaxed).saturating_sub(held);
    (peak, BLOCKS.load(Relaxed) - blocks)
}
