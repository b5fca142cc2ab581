//! The part of Rattle's library that the commands use, implemented with Rust's standard library: the shims of the lexer and the formatter,
//! command-line arguments, files and streams.

pub mod env;
pub mod fs;
pub mod os;
pub mod path;
pub mod rt;

pub use std::{cmp, fmt, io, marker, process, str};
pub use wat_format::shim::itoa;
pub use wat_lex::shim::alloc;

/// The names that are in scope in each Rattle source without an import, and the traits whose methods are in scope.
pub mod prelude {
    pub use crate::shim::rt::HostRuntime;
    pub use core::fmt::Write as _;
    pub use std::io::Read as _;
    pub use wat_lex::shim::prelude::*;
}
