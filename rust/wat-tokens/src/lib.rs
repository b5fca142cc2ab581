//! The program `wat_tokens` as a library. It lists the tokens of a WebAssembly text, as lines or as JSON, replays calls of a parser, blanks the
//! comments of a text, formats a text, and compiles modules.
//!
//! All modules except [`shim`] are generated from verified sources, and documented by their contracts. A function that allocates has a handle of the
//! allocator, [`Global`](shim::alloc::Global), as a parameter, and returns an error if an allocation fails.
//!
//! ```
//! use wat_lex::proved::lexer::Settings;
//! use wat_tokens::format::format::format;
//! use wat_tokens::shim::alloc::Global;
//!
//! let settings = Settings { allow: false, strict: false };
//! let laid_out = format(Global, "( module\n( func ) )", settings);
//! assert_eq!(laid_out.unwrap().as_str(), "(module\n  (func))\n");
//! ```
//!
//! This compiles a module that contains only function types:
//!
//! ```
//! use wat_tokens::shim::alloc::Global;
//! use wat_tokens::types::compile_types;
//!
//! let bytes = compile_types(Global, "(module (type (func (param i32))))").unwrap();
//! assert_eq!(bytes.as_slice(), b"\0asm\x01\0\0\0\x01\x05\x01\x60\x01\x7f\0");
//! ```
#![warn(missing_docs)]
#![forbid(unsafe_code)]

// Generated code has labels that only proofs use, parameters and fields that only contracts use, and imports of shim names that a file may not
// use. Clippy's style lints are meant for hand-written code.
#[allow(missing_docs, unused_imports, unused_labels, unused_variables)]
#[allow(
    clippy::style,
    clippy::complexity,
    clippy::pedantic,
    clippy::manual_unwrap_or_default
)]
mod generated {
    pub mod wat_tokens;
    pub mod wat_tokens_args;
    pub mod wat_tokens_output;
    pub mod wat_tokens_run;
}

// Names and signatures are those of Rattle's library, whose documentation describes their errors.
#[allow(clippy::pedantic)]
pub mod shim;

#[doc(inline)]
pub use generated::{
    wat_tokens as program, wat_tokens_args as options, wat_tokens_output as lists,
    wat_tokens_run as commands,
};
#[doc(inline)]
pub use wat_format::lines;
#[doc(inline)]
pub use wat_format::proved as format;
#[doc(inline)]
pub use wat_modules::types;

/// The README, whose examples are run as doc tests.
#[cfg(doctest)]
#[doc = include_str!("../README.md")]
struct Readme;
