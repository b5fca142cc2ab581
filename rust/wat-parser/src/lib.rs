//! A parser framework for formats similar to the WebAssembly text format. The public names are those of the lowest layer of the crate `wast`.
//!
//! A custom type implements [`Parse`](parser::Parse), and [`Peek`](parser::Peek) if its first token distinguishes it from other types.
//! [`parser::parse`] parses a whole text as a value of the type. Such types are built from the types of [`token`] and the macros [`custom_keyword!`],
//! [`custom_reserved!`] and [`annotation!`](macro@annotation).
//!
//! The results are verified: this crate is a thin layer over the module [`proved`], in which every function is proved to meet its contract. The layer
//! is tested but not proved. Types that implement [`proved::parser::Parse`] do not use it.
//!
//! ```
//! use wat_parser::parser::{self, Parse, ParseBuffer, Parser, Result};
//! use wat_parser::token::{Id, Index};
//! use wat_parser::{custom_keyword, kw};
//!
//! custom_keyword!(road);
//!
//! // road $name length (item $end)*
//! struct Road<'a> {
//!     name: Id<'a>,
//!     length: u32,
//!     ends: Vec<Index<'a>>,
//! }
//!
//! impl<'a> Parse<'a> for Road<'a> {
//!     fn parse(parser: Parser<'a>) -> Result<Self> {
//!         parser.parse::<road>()?;
//!         let (name, length) = (parser.parse()?, parser.parse()?);
//!         let mut ends = Vec::new();
//!         while !parser.is_empty() {
//!             ends.push(parser.parens(|end| {
//!                 end.parse::<kw::item>()?;
//!                 end.parse()
//!             })?);
//!         }
//!         Ok(Road { name, length, ends })
//!     }
//! }
//!
//! # fn main() -> Result<()> {
//! let text = "road $a1 0x1_0 (item $here) (; two ends ;) (item 7)";
//! let buffer = ParseBuffer::new(text)?;
//! let read = parser::parse::<Road>(&buffer)?;
//! assert_eq!((read.name.name(), read.length, read.ends.len()), ("a1", 16, 2));
//!
//! let buffer = ParseBuffer::new("road $a1 -1")?;
//! let error = parser::parse::<Road>(&buffer).err().unwrap();
//! assert_eq!(error.message(), "invalid u32 number: constant out of range");
//! # Ok(())
//! # }
//! ```
//!
//! An annotation, a group `(@name ..)`, is visible while its name is registered:
//!
//! ```
//! use wat_parser::annotation;
//! use wat_parser::parser::{self, Parse, ParseBuffer, Parser, Result};
//!
//! annotation!(note);
//!
//! struct Note<'a>(&'a str);
//!
//! impl<'a> Parse<'a> for Note<'a> {
//!     fn parse(parser: Parser<'a>) -> Result<Self> {
//!         let _shown = parser.register_annotation("note");
//!         parser.parens(|group| {
//!             group.parse::<note>()?;
//!             group.parse().map(Note)
//!         })
//!     }
//! }
//!
//! # fn main() -> Result<()> {
//! let buffer = ParseBuffer::new(r#"(@note "best on the next day")"#)?;
//! assert_eq!(parser::parse::<Note>(&buffer)?.0, "best on the next day");
//! # Ok(())
//! # }
//! ```
//!
//! Visibility depends on the names that are registered at the time of the peek. In `wast` a token that was visible when the parser last moved stays
//! visible; [`ParseBuffer::keep_shown`](parser::ParseBuffer::keep_shown) selects this behavior for a buffer.
//!
//! The crate is `no_std` with `alloc`. The feature `std`, which is on by default, adds the module [`gensym`] and `Error::set_path`.
#![no_std]
#![warn(missing_docs)]
#![forbid(unsafe_code)]
// Some of Clippy's pedantic lints are disabled. Functions called in a loop over tokens must be inlined into it; benchmarks show the gain.
#![allow(clippy::inline_always)]
// A text has at most `u32::MAX` bytes, two 32-bit integers form one 64-bit integer, and values are checked to be in range before they are converted.
#![allow(clippy::cast_lossless, clippy::cast_possible_truncation)]
#![allow(clippy::cast_sign_loss)]
// The signatures are those of `wast`, and some names are as similar as the things that they name.
#![allow(clippy::needless_pass_by_value, clippy::similar_names)]

extern crate alloc;
#[cfg(feature = "std")]
extern crate std;

#[macro_use]
mod macros;

pub mod annotation;
pub mod encode;
mod error;
// Proofs label loops, contracts mention parameters and fields that the code does not use, and every file imports all names of the shim. Clippy's
// style lints are meant for hand-written Rust.
#[allow(unused_imports)]
#[allow(clippy::style, clippy::complexity, clippy::pedantic)]
mod generated {
    pub mod wat_floats;
    // Types of keywords have the keywords' names.
    #[allow(dead_code, non_camel_case_types)]
    #[allow(unused_labels, unused_variables)]
    #[allow(clippy::manual_unwrap_or_default)]
    pub mod wat_lexer_parser;
    pub mod wat_words;
}
#[cfg(feature = "std")]
pub mod gensym;
pub mod kw;
pub mod lexer;
pub mod parser;
pub mod token;

pub use error::Error;
/// Conversion of floating-point literals to bits, verified like [`proved`].
#[doc(inline)]
pub use generated::wat_floats as floats;
/// The verified code, with its contracts.
///
/// The code is generated from a program in Rattle, which is Rust with contracts. Ghost code is erased, and the contract of each function is kept in a
/// section *Proved* of its documentation. [`wat_lex::proved`] explains how to read one. The terms, such as `shown`, are defined in the folder
/// `crates/wat_lexer_parser/specs` of the repository.
///
/// Its trait [`Parse`](proved::parser::Parse) accepts a parser that is not copied, and returns an error if an allocation fails. A type that
/// implements it runs verified code down to the bytes, and can itself be proved in Rattle:
///
/// ```
/// use wat_parser::proved::Error;
/// use wat_parser::proved::parser::{self, Parse, ParseBuffer, Parser};
/// use wat_parser::proved::token::{Id, Keyword, Parens, Word};
/// use wat_parser::shim::alloc::Global;
/// use wat_parser::shim::vec::Vec;
///
/// /// The keyword `road`.
/// struct RoadWord;
///
/// impl Word for RoadWord {
///     const AT: bool = false;
///
///     fn word() -> &'static str {
///         "road"
///     }
///
///     fn display() -> &'static str {
///         "`road`"
///     }
/// }
///
/// // road $name length..
/// struct Road<'a> {
///     name: Id<'a>,
///     lengths: Vec<u32>,
/// }
///
/// impl<'a> Parse<'a> for Road<'a> {
///     fn parse(parser: &mut Parser<'a>) -> Result<Self, Error> {
///         parser.parse::<Keyword<RoadWord>>()?;
///         let name = parser.parse()?;
///         let mut lengths = Vec::new(parser.alloc());
///         while !parser.is_empty() {
///             lengths.push(parser.parse()?)?;
///         }
///         Ok(Road { name, lengths })
///     }
/// }
///
/// let buffer = ParseBuffer::new(Global, "(road $a1 0x10 (; and ;) 17)")?;
/// let road = parser::parse::<Parens<Road>>(&buffer)?.inner;
/// assert_eq!(road.name.name(), "a1");
/// assert_eq!(*road.lengths, [16, 17]);
/// # Ok::<(), Error>(())
/// ```
#[doc(inline)]
pub use generated::wat_lexer_parser as proved;
#[doc(inline)]
pub use generated::wat_words as words;
#[doc(no_inline)]
pub use wat_lex::shim;

/// The examples of the README, run as doc tests.
#[cfg(doctest)]
#[doc = include_str!("../README.md")]
struct Readme;

/// A test that registering a name and dropping the guard at once causes a warning.
///
/// ```compile_fail
/// #![deny(unused_must_use)]
/// fn register(parser: wat_parser::parser::Parser<'_>) {
///     parser.register_annotation("note");
/// }
/// ```
///
/// ```
/// #![deny(unused_must_use)]
/// fn register(parser: wat_parser::parser::Parser<'_>) {
///     let _shown = parser.register_annotation("note");
/// }
/// ```
#[cfg(doctest)]
struct MustUse;
