//! The WebAssembly module of the npm package and of the page. [`page`] has a function that lexes a text and writes a row for each of its tokens;
//! [`whole`] has functions that format a text and compile a module of function types.
//!
//! [`page`] is generated from the verified sources of `wat_wasm` by `tools/erase`. Arguments from JavaScript must follow rules 1, 5 and 6 of
//! `include/wat.h`; the text need not be UTF-8. `lexer.js` of the package arranges the memory according to these rules.
#![warn(missing_docs)]
#![deny(improper_ctypes_definitions, unsafe_code)]

// Generated code has labels that only proofs use, and imports of shim names that a file may not use. Clippy's style lints are meant for hand-written
// code.
#[allow(unused_imports, unused_labels)]
#[allow(clippy::style, clippy::complexity, clippy::pedantic)]
// It builds slices from the pointers that JavaScript passes.
#[allow(unsafe_code)]
mod generated {
    pub mod wat_wasm;
}
#[cfg(target_family = "wasm")]
mod memory;
#[cfg(test)]
mod tests;
// `no_mangle` counts as unsafe code.
#[allow(unsafe_code)]
pub mod whole;

#[doc(inline)]
pub use generated::wat_wasm as page;
