//! The functions of `include/wat.h`, for C and C++: a lexer of the WebAssembly text format, readers of the values of tokens, peeks at the tokens that
//! are visible to a parser, a compiler of modules, and a formatter.
//!
//! Both modules are generated from verified sources by `tools/erase`. The header documents the preconditions for callers in C. The `requires` clauses
//! of each function state the same preconditions for the slices that it builds from its arguments.
#![warn(missing_docs)]
#![deny(improper_ctypes_definitions, unsafe_code)]

// Generated code has labels that only proofs use, and imports of shim names that a file may not use. Clippy's style lints are meant for hand-written
// code.
#[allow(unused_imports, unused_labels)]
#[allow(clippy::style, clippy::complexity, clippy::pedantic)]
mod generated {
    // It builds slices from the pointers that C passes, and strings from bytes that must be UTF-8.
    #[allow(unsafe_code)]
    pub mod wat_c;
    pub mod wat_c_records;
}

#[doc(inline)]
pub use generated::{wat_c as proved, wat_c_records as rows};

#[cfg(test)]
mod tests;
