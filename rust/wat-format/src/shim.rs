//! The part of Rattle's library that the verified formatter uses, implemented with Rust's standard library: the shim of [`wat_lex`], readers and
//! writers, and integers as decimal text.

#[cfg(not(feature = "std"))]
pub mod io;
pub mod itoa;

pub use core::fmt;
#[cfg(feature = "std")]
pub use std::io;
pub use wat_lex::shim::{alloc, prelude};
