//! Generated identifiers, which differ from every identifier in a text, for items without a name.

use crate::token::{Id, Span};
use std::cell::Cell;
use std::thread_local;

thread_local! {
    /// The generation of the identifier that this thread generated last.
    static LAST: Cell<u32> = const { Cell::new(0) };
}

/// Resets the counter of this thread. Identifiers that are generated after that may equal earlier ones.
pub fn reset() {
    LAST.set(0);
}

/// Generates an identifier. It differs from every identifier in a text, and from all others that this thread generated since the last [`reset`].
///
/// # Panics
///
/// Panics if this thread has generated `u32::MAX` identifiers since the last [`reset`].
#[must_use]
pub fn generate(span: Span) -> Id<'static> {
    let next = LAST.get().checked_add(1);
    let generation = next.expect("fewer than u32::MAX new identifiers");
    LAST.set(generation);
    let mut id = Id::new("gensym", span);
    id.generation = generation;
    id
}

/// Returns the identifier in a slot. An empty slot is filled with a generated identifier first.
pub fn fill<'a>(span: Span, slot: &mut Option<Id<'a>>) -> Id<'a> {
    *slot.get_or_insert_with(|| generate(span))
}
