//! Boxes.
use crate::shim::alloc::{AllocFailed, Global};
use core::fmt;
use core::ops::{Deref, DerefMut};

/// A value in a heap allocation.
// Rust's stable `Box::new` cannot return an allocation failure. A vector can, and its block of one item is a boxed array of length 1.
pub struct Box<T>(alloc::boxed::Box<[T; 1]>);

impl<T> Box<T> {
    /// Allocates a box for a value. If the allocation fails, the error contains the value.
    pub fn new(_: Global, value: T) -> Result<Box<T>, AllocFailed<T>> {
        let mut block = alloc::vec::Vec::new();
        if block.try_reserve_exact(1).is_err() {
            return Err(AllocFailed { value });
        }
        block.push(value);
        match block.into_boxed_slice().try_into() {
            Ok(one) => Ok(Box(one)),
            Err(_) => unreachable!("a slice of one item is an array of one"),
        }
    }
}

impl<T> Deref for Box<T> {
    type Target = T;

    #[inline]
    fn deref(&self) -> &T {
        &self.0[0]
    }
}

impl<T> DerefMut for Box<T> {
    #[inline]
    fn deref_mut(&mut self) -> &mut T {
        &mut self.0[0]
    }
}

impl<T: fmt::Debug> fmt::Debug for Box<T> {
    fn fmt(&self, f: &mut fmt::Formatter<'_>) -> fmt::Result {
        (**self).fmt(f)
    }
}
