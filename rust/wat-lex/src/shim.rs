//! The part of Rattle's library that the verified code uses, implemented with Rust's standard library: collections that return an error if an
//! allocation fails, and blocks of 16 bytes.

pub mod alloc;
pub mod borrow;
pub mod boxed;
pub mod collections;
pub mod fast_float;
mod macros;
// The module calls the target's SIMD instructions. Methods without documentation are named as in the libraries of Rattle and Rust.
#[allow(missing_docs, unsafe_code)]
pub mod simd;
#[cfg(not(target_pointer_width = "16"))]
pub mod smallvec;
pub mod string;
pub mod unicode_width;
pub mod vec;

/// The names that are in scope in a Rattle source without an import.
pub mod prelude {
    pub use crate::shim::boxed::Box;
    pub use crate::shim::macros::{try_format, try_vec};
    pub use crate::shim::string::{JoinIn, String, ToStringIn};
    pub use crate::shim::vec::Vec;
    // Before Rust 1.87, `from_utf8` is not a method of the primitive type, so the module is exported.
    pub use core::str;
}
