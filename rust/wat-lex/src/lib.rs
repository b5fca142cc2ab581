//! A lexer for the WebAssembly text format. The public names are those of the lexer in the crate `wast`.
//!
//! A [`Lexer`] splits a source text into tokens; every byte belongs to a token, whitespace and comments included. The methods of [`Token`] decode the
//! value of a string, a name or a number from that text. An [`Error`] describes what is wrong in a text and prints the line.
//!
//! The results are verified: this crate is a thin layer over the module [`proved`], in which every function is proved to meet its contract. The layer
//! itself, and the library code in [`shim`], are tested but not proved.
//!
//! ```
//! use wat_lex::{Lexer, TokenKind};
//!
//! let text = "(module $m \"a\\62\")";
//! let lexer = Lexer::new(text);
//! let tokens: Vec<_> = lexer.iter(0).collect::<Result<_, _>>()?;
//! let kinds: Vec<_> = tokens.iter().map(|token| token.kind).collect();
//! assert_eq!(
//!     kinds,
//!     [
//!         TokenKind::LParen,
//!         TokenKind::Keyword,
//!         TokenKind::Whitespace,
//!         TokenKind::Id,
//!         TokenKind::Whitespace,
//!         TokenKind::String,
//!         TokenKind::RParen,
//!     ]
//! );
//! assert_eq!(tokens[3].id(text)?, "m");
//! assert_eq!(*tokens[5].string(text), *b"ab");
//! # Ok::<(), wat_lex::Error>(())
//! ```
#![no_std]
#![warn(missing_docs)]
#![deny(unsafe_code)]
// Two of Clippy's pedantic lints are disabled. First: functions called in a loop over tokens must be inlined into it; benchmarks show the gain.
#![allow(clippy::inline_always)]
// Second: a text has at most `u32::MAX` bytes.
#![allow(clippy::cast_possible_truncation)]

#[cfg(target_pointer_width = "16")]
compile_error!("wat-lex needs a target of 32 or 64 bits");

extern crate alloc;
#[cfg(any(test, feature = "std"))]
extern crate std;

mod document;
mod error;
mod gap;
// Proofs label loops, contracts mention parameters and fields that the code does not use, and every file imports all names of the shim. Clippy's
// style lints are meant for hand-written Rust.
#[allow(unused_imports, unused_labels, unused_variables)]
#[allow(
    clippy::style,
    clippy::complexity,
    clippy::pedantic,
    clippy::manual_unwrap_or_default,
    clippy::sliced_string_as_bytes
)]
mod generated {
    pub mod wat_lex;
}
mod lexer;
mod lines;
mod marks;
mod number;
#[cfg(feature = "parallel")]
mod parallel;
mod recover;
// Names and signatures are those of Rattle's library, which documents their errors. The code for blocks of bytes truncates integers.
#[allow(clippy::pedantic)]
pub mod shim;
mod token;
mod traits;

pub use document::{Change, Document};
pub use error::Error;
/// The verified code, with its contracts.
///
/// The code is generated from a program in Rattle, which is Rust with contracts. Ghost code is erased, and the contract of each function is kept in a
/// section *Proved* of its documentation. A function that allocates has the allocator as a parameter, and returns an error if an allocation fails.
///
/// # Reading a contract
///
/// ```text
/// requires { IsCharBoundary self.now.text pos }
/// ensures token { IfOk result (λ found. IfSome found (TokenAt self.now pos)) }
/// ensures fault { IfErr result (FaultAt self.now pos) }
/// ```
///
/// A `requires` is a precondition, here of [`Lexer::scan`](proved::lexer::Lexer::scan): `pos` must be a char boundary of the text. Rust does not
/// check it. A call that violates it may return an unrelated value or panic, but it is never undefined behavior.
///
/// Each `ensures` is a named, proved postcondition. These two mean: if the result is `Ok(Some(token))`, then `token` is the token that the grammar
/// has at `pos`; if the result is an `Err`, then it is the lexical error there. For a `&` reference, `x.now` is the referenced value. For a `&mut`,
/// `x.old` and `x.new` are the values before and after the call. A bare name is a value. `≡` is equality, `→` is implication, `×` is "and", `⊎` is
/// "or", and `λ t. ..` is a function of `t`.
///
/// The terms, such as `TokenAt`, are defined in the folder `crates/wat_lex/specs` of the repository: the grammar in `grammar`, tokens in `tokens`,
/// their values in `values`, printed errors in `errors`.
#[doc(inline)]
pub use generated::wat_lex as proved;
pub use lexer::{Lexer, Tokens};
pub use lines::LineIndex;
pub use number::Float;
#[doc(inline)]
pub use proved::lexer::{FloatKind, Integer, IntegerKind, LexError, SignToken, TokenKind};
#[doc(inline)]
pub use proved::token::Span;
pub use recover::{Fault, Piece, Pieces};
pub use token::Token;

/// The examples of the README, run as doc tests.
#[cfg(doctest)]
#[doc = include_str!("../README.md")]
struct Readme;
