//! Allocation-failure injection.
// Each test file uses a part of the module.
#![allow(dead_code)]

use std::alloc::{GlobalAlloc, Layout, System};
use std::cell::Cell;
use std::ptr::null_mut;

/// An allocator that fails every allocation of a thread after the first `GRANTED`.
struct Refusing;

thread_local! {
    static GRANTED: Cell<usize> = const { Cell::new(usize::MAX) };
    static ASKED: Cell<usize> = const { Cell::new(0) };
}

fn is_refused() -> bool {
    ASKED.set(ASKED.get() + 1);
    ASKED.get() > GRANTED.get()
}

// SAFETY: all blocks are allocated and freed by the system's allocator.
unsafe impl GlobalAlloc for Refusing {
    unsafe fn alloc(&self, layout: Layout) -> *mut u8 {
        if is_refused() {
            return null_mut();
        }
        unsafe { System.alloc(layout) }
    }

    unsafe fn dealloc(&self, block: *mut u8, layout: Layout) {
        unsafe { System.dealloc(block, layout) }
    }

    unsafe fn realloc(&self, block: *mut u8, layout: Layout, size: usize) -> *mut u8 {
        if is_refused() {
            return null_mut();
        }
        unsafe { System.realloc(block, layout, size) }
    }
}

#[global_allocator]
static ALLOCATOR: Refusing = Refusing;

/// Calls a function of whose allocations only the first `granted` succeed. Returns its result and the number of allocations.
pub fn granting<T>(granted: usize, call: impl FnOnce() -> T) -> (T, usize) {
    ASKED.set(0);
    GRANTED.set(granted);
    let answer = call();
    GRANTED.set(usize::MAX);
    (answer, ASKED.get())
}

pub fn refusing<T>(call: impl FnOnce() -> T) -> T {
    let (answer, asked) = granting(0, call);
    assert!(asked > 0, "no request was made");
    answer
}

/// Calls a function and checks that it does not allocate.
pub fn without_memory<T>(call: impl FnOnce() -> T) -> T {
    let (answer, asked) = granting(0, call);
    assert_eq!(asked, 0, "a request was made");
    answer
}

/// Calls a function with 0, 1, 2, .. successful allocations until none fails. Returns the results and the changed arguments of the failed calls, and
/// those of the last.
pub fn refusing_in_turn<S, T>(
    given: impl Fn() -> S,
    call: impl Fn(&mut S) -> T,
) -> (Vec<(T, S)>, (T, S)) {
    let mut refused = Vec::new();
    loop {
        let mut left = given();
        let (answer, asked) = granting(refused.len(), || call(&mut left));
        if asked <= refused.len() {
            assert!(!refused.is_empty(), "no request was made");
            return (refused, (answer, left));
        }
        refused.push((answer, left));
    }
}

/// Lets all further allocations succeed, inside a call of [`granting`].
pub fn grant_all() {
    GRANTED.set(usize::MAX);
}
