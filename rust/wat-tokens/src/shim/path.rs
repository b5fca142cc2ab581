//! UTF-8 paths, borrowed and owned.
use crate::shim::alloc::{AllocError, Global};
use crate::shim::prelude::String;

/// A borrowed UTF-8 path.
#[derive(Clone, Copy, Debug)]
pub struct Path<'a>(&'a str);

impl<'a> Path<'a> {
    /// Wraps a string as a path.
    pub fn new(text: &'a str) -> Path<'a> {
        Path(text)
    }

    /// Returns the path as a string.
    pub fn as_str(&self) -> &'a str {
        self.0
    }
}

/// An owned UTF-8 path.
#[derive(Debug, PartialEq, Eq)]
pub struct PathBuf(String);

impl PathBuf {
    /// Copies a path. Returns an error if the allocation fails.
    // It has an allocator as a parameter, so it cannot implement `FromStr`.
    #[allow(clippy::should_implement_trait)]
    pub fn from_str(alloc: Global, path: &str) -> Result<PathBuf, AllocError> {
        Ok(PathBuf(String::from_str(alloc, path)?))
    }

    /// Returns the path as a string.
    pub fn as_str(&self) -> &str {
        self.0.as_str()
    }
}
