//! A formatter for the WebAssembly text format.
//!
//! [`format`](format()) returns the formatted text as a `String`, and [`format_to`] writes it to a sink. Every token, comments included, is kept byte
//! for byte and in its order; only whitespace between tokens changes.
//!
//! ```
//! let formatted = wat_format::format("( module\n(func $f ;; empty\n) )")?;
//! assert_eq!(formatted, "(module\n  (func $f ;; empty\n  ))\n");
//!
//! let error = wat_format::format("(module \"").unwrap_err();
//! assert_eq!(error.to_string(), "unexpected end-of-file at byte offset 9");
//! assert_eq!(error.span().unwrap().linecol_in("(module \""), (0, 9));
//! # Ok::<(), wat_format::FormatError>(())
//! ```
//!
//! The result is verified: it has the tokens of the source text, and the whitespace between them follows the rules of the formatter. The module
//! [`proved`] has the verified functions and their contracts. The functions at the root of this crate, which take the types of the standard library,
//! are tested.
//!
//! The crate is `no_std` with `alloc`. The feature `std`, which is on by default, adds `format_to_writer`.
#![no_std]
#![warn(missing_docs)]
#![forbid(unsafe_code)]

extern crate alloc;
#[cfg(any(test, feature = "std"))]
extern crate std;

mod error;
// Generated code has labels that only proofs use, parameters and fields that only contracts use, and imports of shim names that a file may not
// use. Clippy's style lints are meant for hand-written code.
#[allow(missing_docs, unused_imports, unused_labels, unused_variables)]
#[allow(
    clippy::style,
    clippy::complexity,
    clippy::pedantic,
    clippy::manual_unwrap_or_default
)]
mod generated {
    pub mod wat_format;
    pub mod wat_tokens_io;
}
mod options;
// Names and signatures are those of Rattle's library.
#[allow(clippy::pedantic)]
pub mod shim;

use alloc::string::String;
use core::fmt;
pub use error::FormatError;
/// The verified formatter and its contracts. [`wat_lex::proved`] explains how to read a contract.
#[doc(inline)]
pub use generated::wat_format as proved;
/// The token lists of the program `wat_tokens`, and the sinks that the verified formatter writes to.
#[doc(inline)]
pub use generated::wat_tokens_io as lines;
pub use options::Options;
pub use wat_lex::{LexError, Span};

/// Returns the formatted text, with the default [`Options`].
///
/// # Errors
///
/// Returns an error if the text has a lexical error, if the text or the formatted text has more than `u32::MAX` bytes, or if an allocation fails.
pub fn format(text: &str) -> Result<String, FormatError> {
    Options::new().format(text)
}

/// Writes the formatted text to `output`, with the default [`Options`].
///
/// The text is lexed before anything is written. The formatted text is written in blocks of at least 64 KiB, except for the last. Memory is
/// allocated for one block and for the open groups, and not for the whole text.
///
/// # Errors
///
/// Returns an error if the text has a lexical error or more than `u32::MAX` bytes, before anything is written. Otherwise it returns an error if an
/// allocation or a write fails; a part of the formatted text may then be written.
///
/// ```
/// let mut output = String::new();
/// wat_format::format_to("( module )", &mut output)?;
/// assert_eq!(output, "(module)\n");
/// # Ok::<(), wat_format::FormatError>(())
/// ```
pub fn format_to(text: &str, output: &mut (impl fmt::Write + ?Sized)) -> Result<(), FormatError> {
    Options::new().format_to(text, output)
}

/// Writes the formatted text to a writer of bytes, with the default [`Options`]. It does not flush the writer.
///
/// # Errors
///
/// Like [`format_to`].
///
/// ```
/// let mut output = Vec::new();
/// wat_format::format_to_writer("( module )", &mut output)?;
/// assert_eq!(output, b"(module)\n");
/// # Ok::<(), wat_format::FormatError>(())
/// ```
#[cfg(feature = "std")]
pub fn format_to_writer(
    text: &str,
    output: &mut (impl std::io::Write + ?Sized),
) -> Result<(), FormatError> {
    Options::new().format_to_writer(text, output)
}

/// The README, whose examples are run as doc tests.
#[cfg(doctest)]
#[doc = include_str!("../README.md")]
struct Readme;
