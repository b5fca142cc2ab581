//! Allocation-failure injection: an allocator that counts the allocations of each thread and makes some of them fail.

use std::alloc::{GlobalAlloc, Layout, System};
use std::cell::Cell;
use std::ptr::null_mut;

/// The allocations that fail, by their index from 1.
#[derive(Clone, Copy, Debug)]
pub enum Refused {
    /// None of them.
    None,
    /// The allocation with this index.
    At(usize),
    /// The allocation with this index, and all after it.
    From(usize),
}

/// Counts of a run's allocations.
#[derive(Clone, Copy, Debug, Default)]
pub struct Counts {
    /// The number of allocations up to the end of the call, including those that fail.
    pub requests: usize,
    /// The bytes of these allocations. A block that grows counts with the bytes that are added.
    pub asked: usize,
    /// The bytes allocated and not freed at the end.
    pub held: isize,
}

thread_local! {
    /// The allocations that fail, while allocations are counted.
    static REFUSED: Cell<Option<Refused>> = const { Cell::new(None) };
    static COUNTS: Cell<Counts> = const { Cell::new(Counts { requests: 0, asked: 0, held: 0 }) };
}

/// Runs a function with these allocations failing. Returns its result, and the counts of its allocations.
pub fn refusing<T>(refused: Refused, run: impl FnOnce() -> T) -> (T, Counts) {
    COUNTS.take();
    REFUSED.set(Some(refused));
    let answer = ended(run());
    (answer, COUNTS.get())
}

/// Ends the injection: from here on allocations succeed and are not counted. Returns its argument, the result of the call.
pub fn ended<T>(answer: T) -> T {
    REFUSED.set(None);
    answer
}

/// The allocator that counts allocations and makes some of them fail.
struct Refusing;

fn is_refused(bytes: usize) -> bool {
    let Some(refused) = REFUSED.get() else {
        return false;
    };
    let mut counts = COUNTS.get();
    counts.requests += 1;
    counts.asked += bytes;
    COUNTS.set(counts);
    match refused {
        Refused::None => false,
        Refused::At(number) => counts.requests == number,
        Refused::From(number) => counts.requests >= number,
    }
}

fn hold(bytes: isize) {
    let mut counts = COUNTS.get();
    counts.held += bytes;
    COUNTS.set(counts);
}

// SAFETY: every block is the system allocator's.
unsafe impl GlobalAlloc for Refusing {
    unsafe fn alloc(&self, layout: Layout) -> *mut u8 {
        if is_refused(layout.size()) {
            return null_mut();
        }
        hold(layout.size().cast_signed());
        unsafe { System.alloc(layout) }
    }

    unsafe fn dealloc(&self, block: *mut u8, layout: Layout) {
        hold(-(layout.size().cast_signed()));
        unsafe { System.dealloc(block, layout) }
    }

    /// Resizes a block. If it does not grow, it is not counted and does not fail.
    unsafe fn realloc(&self, block: *mut u8, layout: Layout, size: usize) -> *mut u8 {
        let more = size.saturating_sub(layout.size());
        if more > 0 && is_refused(more) {
            return null_mut();
        }
        hold(size.cast_signed() - layout.size().cast_signed());
        unsafe { System.realloc(block, layout, size) }
    }
}

#[global_allocator]
static ALLOCATOR: Refusing = Refusing;
