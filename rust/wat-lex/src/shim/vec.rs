//! Vectors.
use crate::shim::alloc::{AllocError, AllocFailed, Global};
use core::fmt;
use core::ops::{Deref, DerefMut};

/// A vector whose methods return an error if an allocation fails, and leave the vector unchanged then.
#[derive(PartialEq, Eq, PartialOrd, Ord, Hash)]
pub struct Vec<T>(alloc::vec::Vec<T>);

impl<T> Vec<T> {
    /// Creates an empty vector, without an allocation.
    #[inline]
    pub const fn new(_: Global) -> Vec<T> {
        Vec(alloc::vec::Vec::new())
    }

    /// Creates an empty vector with a capacity of `count` items.
    #[inline]
    pub fn with_capacity(alloc: Global, count: usize) -> Result<Vec<T>, AllocError> {
        let mut new = Vec::new(alloc);
        new.0.try_reserve_exact(count).map_err(|_| AllocError)?;
        Ok(new)
    }

    /// Creates a vector of `count` copies of an item, for `vec![in alloc; item; count]`.
    pub fn from_elem(alloc: Global, item: T, count: usize) -> Result<Vec<T>, AllocError>
    where
        T: Clone,
    {
        let mut new = Vec::with_capacity(alloc, count)?;
        new.0.resize(count, item);
        Ok(new)
    }

    /// Appends an item. If an allocation fails, the error contains the item.
    #[inline]
    pub fn push(&mut self, item: T) -> Result<(), AllocFailed<T>> {
        if self.0.len() == self.0.capacity() && self.reserve(1).is_err() {
            return Err(AllocFailed { value: item });
        }
        self.0.push(item);
        Ok(())
    }

    /// Reserves capacity for `more` additional items.
    #[inline]
    pub fn reserve(&mut self, more: usize) -> Result<(), AllocError> {
        self.0.try_reserve(more).map_err(|_| AllocError)
    }

    /// Appends copies of items.
    #[inline]
    pub fn extend_from_slice(&mut self, items: &[T]) -> Result<(), AllocError>
    where
        T: Clone,
    {
        self.reserve(items.len())?;
        self.0.extend_from_slice(items);
        Ok(())
    }

    /// Moves all items of another list to the end of this one.
    #[inline]
    pub fn append(&mut self, other: &mut Vec<T>) -> Result<(), AllocError> {
        self.reserve(other.0.len())?;
        self.0.append(&mut other.0);
        Ok(())
    }

    /// Inserts an item at an index, which must be at most the length.
    pub(crate) fn insert(&mut self, place: usize, item: T) -> Result<(), AllocFailed<T>> {
        if self.reserve(1).is_err() {
            return Err(AllocFailed { value: item });
        }
        self.0.insert(place, item);
        Ok(())
    }

    pub(crate) fn remove(&mut self, place: usize) -> T {
        self.0.remove(place)
    }

    /// Frees unused capacity.
    #[inline]
    pub fn shrink_to_fit(&mut self) {
        self.0.shrink_to_fit();
    }

    /// Removes the last item and returns it.
    #[inline]
    pub fn pop(&mut self) -> Option<T> {
        self.0.pop()
    }

    /// Keeps the first `count` items and removes the others.
    #[inline]
    pub fn truncate(&mut self, count: usize) {
        self.0.truncate(count);
    }

    /// Removes all items.
    #[inline]
    pub fn clear(&mut self) {
        self.0.clear();
    }

    /// Returns the items.
    #[inline]
    pub fn as_slice(&self) -> &[T] {
        &self.0
    }

    pub(crate) fn into_inner(self) -> alloc::vec::Vec<T> {
        self.0
    }
}

impl<T> Deref for Vec<T> {
    type Target = [T];

    #[inline]
    fn deref(&self) -> &[T] {
        &self.0
    }
}

impl<T> DerefMut for Vec<T> {
    #[inline]
    fn deref_mut(&mut self) -> &mut [T] {
        &mut self.0
    }
}

impl<T> IntoIterator for Vec<T> {
    type Item = T;
    type IntoIter = alloc::vec::IntoIter<T>;

    fn into_iter(self) -> alloc::vec::IntoIter<T> {
        self.0.into_iter()
    }
}

impl<T: fmt::Debug> fmt::Debug for Vec<T> {
    fn fmt(&self, f: &mut fmt::Formatter<'_>) -> fmt::Result {
        self.0.fmt(f)
    }
}

impl<T> From<alloc::vec::Vec<T>> for Vec<T> {
    fn from(items: alloc::vec::Vec<T>) -> Vec<T> {
        Vec(items)
    }
}

impl<T> From<Vec<T>> for alloc::vec::Vec<T> {
    fn from(items: Vec<T>) -> alloc::vec::Vec<T> {
        items.0
    }
}
