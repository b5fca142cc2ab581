//! Strings and slices that are borrowed or owned.
use crate::shim::alloc::{AllocError, Global};
use crate::shim::string::String;
use crate::shim::vec::Vec;
use alloc::borrow::Cow;
use core::fmt;
use core::ops::Deref;

/// A string that is borrowed or owned.
pub enum CowStr<'a> {
    /// A borrowed string.
    Borrowed(&'a str),
    /// An owned string.
    Owned(String),
}

impl CowStr<'_> {
    /// Returns the string.
    #[inline]
    pub fn as_str(&self) -> &str {
        match self {
            CowStr::Borrowed(text) => text,
            CowStr::Owned(text) => text.as_str(),
        }
    }

    /// Converts to an owned string. Allocates if the string is borrowed.
    pub fn into_owned(self, alloc: Global) -> Result<String, AllocError> {
        match self {
            CowStr::Borrowed(text) => String::from_str(alloc, text),
            CowStr::Owned(text) => Ok(text),
        }
    }
}

impl<'a> From<CowStr<'a>> for Cow<'a, str> {
    fn from(text: CowStr<'a>) -> Cow<'a, str> {
        match text {
            CowStr::Borrowed(text) => Cow::Borrowed(text),
            CowStr::Owned(text) => Cow::Owned(text.into()),
        }
    }
}

impl Deref for CowStr<'_> {
    type Target = str;

    #[inline]
    fn deref(&self) -> &str {
        self.as_str()
    }
}

impl PartialEq for CowStr<'_> {
    fn eq(&self, other: &Self) -> bool {
        self.as_str() == other.as_str()
    }
}

impl Eq for CowStr<'_> {}

impl fmt::Debug for CowStr<'_> {
    fn fmt(&self, f: &mut fmt::Formatter<'_>) -> fmt::Result {
        fmt::Debug::fmt(self.as_str(), f)
    }
}

impl fmt::Display for CowStr<'_> {
    fn fmt(&self, f: &mut fmt::Formatter<'_>) -> fmt::Result {
        fmt::Display::fmt(self.as_str(), f)
    }
}

/// A slice of items that is borrowed or owned.
pub enum CowSlice<'a, T> {
    /// Borrowed items.
    Borrowed(&'a [T]),
    /// Owned items.
    Owned(Vec<T>),
}

impl<T> CowSlice<'_, T> {
    /// Returns the items.
    #[inline]
    pub fn as_slice(&self) -> &[T] {
        match self {
            CowSlice::Borrowed(items) => items,
            CowSlice::Owned(items) => items.as_slice(),
        }
    }
}

impl<'a, T: Clone> From<CowSlice<'a, T>> for Cow<'a, [T]> {
    fn from(items: CowSlice<'a, T>) -> Cow<'a, [T]> {
        match items {
            CowSlice::Borrowed(items) => Cow::Borrowed(items),
            CowSlice::Owned(items) => Cow::Owned(items.into_inner()),
        }
    }
}

impl<T> Deref for CowSlice<'_, T> {
    type Target = [T];

    #[inline]
    fn deref(&self) -> &[T] {
        self.as_slice()
    }
}

impl<T: PartialEq> PartialEq for CowSlice<'_, T> {
    fn eq(&self, other: &Self) -> bool {
        self.as_slice() == other.as_slice()
    }
}

impl<T: Eq> Eq for CowSlice<'_, T> {}

impl<T: fmt::Debug> fmt::Debug for CowSlice<'_, T> {
    fn fmt(&self, f: &mut fmt::Formatter<'_>) -> fmt::Result {
        self.as_slice().fmt(f)
    }
}
