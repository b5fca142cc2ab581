//! Vectors that store their first items inline.
use crate::shim::alloc::{AllocFailed, Global};
use core::ops::Deref;

/// A vector that stores up to `N` items without an allocation.
#[derive(Debug)]
pub struct SmallVec<T, const N: usize>(smallvec::SmallVec<[T; N]>)
where
    [T; N]: smallvec::Array<Item = T>;

impl<T, const N: usize> SmallVec<T, N>
where
    [T; N]: smallvec::Array<Item = T>,
{
    /// Creates an empty vector, without an allocation.
    pub fn new(_: Global) -> SmallVec<T, N> {
        SmallVec(smallvec::SmallVec::new())
    }

    /// Appends an item. If an allocation fails, the error contains the item.
    pub fn push(&mut self, item: T) -> Result<(), AllocFailed<T>> {
        if self.0.try_reserve(1).is_err() {
            return Err(AllocFailed { value: item });
        }
        self.0.push(item);
        Ok(())
    }

    /// Returns the items.
    pub fn as_slice(&self) -> &[T] {
        &self.0
    }
}

impl<T, const N: usize> Deref for SmallVec<T, N>
where
    [T; N]: smallvec::Array<Item = T>,
{
    type Target = [T];

    fn deref(&self) -> &[T] {
        &self.0
    }
}
