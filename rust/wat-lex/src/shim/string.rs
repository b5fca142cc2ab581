//! Strings.
use crate::shim::alloc::{AllocError, Global};
use crate::shim::vec::Vec;
use core::borrow::Borrow;
use core::fmt;
use core::ops::Deref;

/// A string whose methods return an error if an allocation fails, and leave the string unchanged then.
#[derive(PartialEq, Eq, PartialOrd, Ord, Hash)]
pub struct String(alloc::string::String);

/// The error of bytes that are not UTF-8.
#[derive(Debug, PartialEq, Eq)]
pub struct FromUtf8Error {
    /// The bytes.
    pub bytes: Vec<u8>,
}

impl String {
    /// Creates an empty string, without an allocation.
    #[inline]
    pub const fn new(_: Global) -> String {
        String(alloc::string::String::new())
    }

    /// Creates an empty string with a capacity of `count` bytes.
    pub fn with_capacity(alloc: Global, count: usize) -> Result<String, AllocError> {
        let mut new = String::new(alloc);
        new.0.try_reserve_exact(count).map_err(|_| AllocError)?;
        Ok(new)
    }

    /// Copies a string.
    // It is fallible and has the allocator as a parameter, so it is not the function of the trait `FromStr`.
    #[allow(clippy::should_implement_trait)]
    pub fn from_str(alloc: Global, text: &str) -> Result<String, AllocError> {
        let mut new = String::with_capacity(alloc, text.len())?;
        new.0.push_str(text);
        Ok(new)
    }

    /// Converts bytes to a string if they are UTF-8, without an allocation.
    pub fn from_utf8(bytes: Vec<u8>) -> Result<String, FromUtf8Error> {
        match alloc::string::String::from_utf8(bytes.into_inner()) {
            Ok(text) => Ok(String(text)),
            Err(error) => Err(FromUtf8Error {
                bytes: error.into_bytes().into(),
            }),
        }
    }

    /// Converts the string to its bytes, without an allocation.
    pub fn into_bytes(self) -> Vec<u8> {
        self.0.into_bytes().into()
    }

    /// Copies the string.
    // It is fallible, so it is not the function of the trait `Clone`.
    #[allow(clippy::should_implement_trait)]
    pub fn clone(&self) -> Result<String, AllocError> {
        String::from_str(Global, self)
    }

    /// Appends a character.
    #[inline]
    pub fn push(&mut self, c: char) -> Result<(), AllocError> {
        self.push_str(c.encode_utf8(&mut [0; 4]))
    }

    /// Appends a string.
    #[inline]
    pub fn push_str(&mut self, text: &str) -> Result<(), AllocError> {
        self.0.try_reserve(text.len()).map_err(|_| AllocError)?;
        self.0.push_str(text);
        Ok(())
    }

    /// Appends formatted output, for `write!`. If an allocation fails, the output before it stays in the string.
    pub fn write_fmt(&mut self, printed: fmt::Arguments<'_>) -> Result<(), AllocError> {
        fmt::Write::write_fmt(self, printed).map_err(|_| AllocError)
    }

    /// Removes all characters.
    #[inline]
    pub fn clear(&mut self) {
        self.0.clear();
    }

    /// Returns the string as a `str`.
    #[inline]
    pub fn as_str(&self) -> &str {
        &self.0
    }
}

impl From<alloc::string::String> for String {
    fn from(text: alloc::string::String) -> String {
        String(text)
    }
}

impl From<String> for alloc::string::String {
    fn from(text: String) -> alloc::string::String {
        text.0
    }
}

impl Deref for String {
    type Target = str;

    #[inline]
    fn deref(&self) -> &str {
        &self.0
    }
}

impl Borrow<str> for String {
    fn borrow(&self) -> &str {
        &self.0
    }
}

impl fmt::Debug for String {
    fn fmt(&self, f: &mut fmt::Formatter<'_>) -> fmt::Result {
        fmt::Debug::fmt(self.as_str(), f)
    }
}

impl fmt::Display for String {
    fn fmt(&self, f: &mut fmt::Formatter<'_>) -> fmt::Result {
        fmt::Display::fmt(self.as_str(), f)
    }
}

impl fmt::Write for String {
    fn write_str(&mut self, text: &str) -> fmt::Result {
        self.push_str(text).map_err(fmt::Error::from)
    }
}

/// Strings that can be joined.
pub trait JoinIn {
    /// Joins the strings with `between` as the separator.
    fn join_in(&self, alloc: Global, between: &str) -> Result<String, AllocError>;
}

impl JoinIn for [&str] {
    fn join_in(&self, alloc: Global, between: &str) -> Result<String, AllocError> {
        let mut all = String::new(alloc);
        for (i, text) in self.iter().enumerate() {
            if i > 0 {
                all.push_str(between)?;
            }
            all.push_str(text)?;
        }
        Ok(all)
    }
}

/// Values that can be formatted as a string.
pub trait ToStringIn {
    /// Formats the value as a string.
    fn to_string_in(&self, alloc: Global) -> Result<String, AllocError>;
}

impl<T: fmt::Display + ?Sized> ToStringIn for T {
    fn to_string_in(&self, alloc: Global) -> Result<String, AllocError> {
        let mut text = String::new(alloc);
        text.write_fmt(format_args!("{self}"))?;
        Ok(text)
    }
}
