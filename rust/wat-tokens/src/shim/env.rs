//! Command-line arguments.
use crate::shim::io::{Error, ErrorKind, Result};
use crate::shim::prelude::{HostRuntime, String, Vec};
use std::ffi::OsString;

/// Returns the command-line arguments, starting with the program's name.
///
/// # Errors
///
/// Returns an error of the kind `InvalidData` if any argument is not UTF-8, and one of the kind `OutOfMemory` if an allocation fails.
pub fn args(rt: &HostRuntime) -> Result<std::vec::IntoIter<String>> {
    let mut words = Vec::new(rt.alloc());
    for word in std::env::args_os() {
        words.push(word_of(word)?)?;
    }
    Ok(words.into_iter())
}

/// Converts an argument to a string without copying it.
fn word_of(word: OsString) -> Result<String> {
    match word.into_string() {
        Ok(text) => Ok(String::from(text)),
        Err(_) => Err(Error::from(ErrorKind::InvalidData)),
    }
}
