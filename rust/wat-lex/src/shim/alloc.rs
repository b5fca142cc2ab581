//! Allocation failures, and the handle of the allocator.
use alloc::alloc::{Layout, handle_alloc_error};
use core::fmt;

/// An allocation failure.
#[derive(Clone, Copy, Debug, PartialEq, Eq)]
pub struct AllocError;

impl fmt::Display for AllocError {
    fn fmt(&self, f: &mut fmt::Formatter<'_>) -> fmt::Result {
        f.write_str("memory allocation failed")
    }
}

impl core::error::Error for AllocError {}

/// Lets `?` work on `write!` to a string inside an implementation of `fmt`.
impl From<AllocError> for fmt::Error {
    fn from(_: AllocError) -> fmt::Error {
        fmt::Error
    }
}

/// A value that was not stored because an allocation failed.
#[derive(Clone, Copy, Debug, PartialEq, Eq)]
pub struct AllocFailed<T> {
    /// The value.
    pub value: T,
}

impl<T> From<AllocFailed<T>> for AllocError {
    fn from(_: AllocFailed<T>) -> AllocError {
        AllocError
    }
}

#[cfg(feature = "std")]
impl From<AllocError> for std::io::Error {
    fn from(_: AllocError) -> std::io::Error {
        std::io::Error::from(std::io::ErrorKind::OutOfMemory)
    }
}

#[cfg(feature = "std")]
impl<T> From<AllocFailed<T>> for std::io::Error {
    fn from(_: AllocFailed<T>) -> std::io::Error {
        std::io::Error::from(std::io::ErrorKind::OutOfMemory)
    }
}

/// The handle of Rust's global allocator.
#[derive(Clone, Copy, Debug, PartialEq, Eq)]
pub struct Global;

/// Returns the value, or aborts the program after an allocation failure as Rust's own collections do.
pub fn granted<T>(asked: Result<T, AllocError>) -> T {
    asked.unwrap_or_else(|_| handle_alloc_error(Layout::new::<u8>()))
}
