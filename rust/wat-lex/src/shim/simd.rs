//! Blocks of 16 bytes, implemented with the vectors of x86-64, AArch64 or WebAssembly if the target has them, and in plain Rust otherwise.
//!
//! All implementations return the same results. Bytes are converted to a vector by value, so no instruction reads through a pointer. `unsafe` asserts
//! only that the target has the instruction, and that any 16 bytes are a valid vector.

// Each module is compiled only for its target. Plain Rust is also compiled for the tests, which compare it with the others.
#[cfg(all(
    target_arch = "aarch64",
    target_endian = "little",
    target_feature = "neon"
))]
mod neon;
#[cfg(any(
    test,
    not(any(
        all(target_arch = "x86_64", target_feature = "sse2"),
        all(
            target_arch = "aarch64",
            target_endian = "little",
            target_feature = "neon"
        ),
        all(target_arch = "wasm32", target_feature = "simd128")
    ))
))]
mod plain;
#[cfg(test)]
mod tests;
#[cfg(all(target_arch = "wasm32", target_feature = "simd128"))]
mod wasm;
#[cfg(all(target_arch = "x86_64", target_feature = "sse2"))]
mod x86;

/// `true` if a table lookup is a single instruction. Otherwise comparisons are faster.
pub const HAS_SHUFFLE: bool = cfg!(any(
    all(target_arch = "x86_64", target_feature = "ssse3"),
    all(
        target_arch = "aarch64",
        target_endian = "little",
        target_feature = "neon"
    ),
    all(target_arch = "wasm32", target_feature = "simd128")
));

pub mod prelude {
    #[cfg(all(
        target_arch = "aarch64",
        target_endian = "little",
        target_feature = "neon"
    ))]
    pub use super::neon::{Mask, u8x16};
    #[cfg(not(any(
        all(target_arch = "x86_64", target_feature = "sse2"),
        all(
            target_arch = "aarch64",
            target_endian = "little",
            target_feature = "neon"
        ),
        all(target_arch = "wasm32", target_feature = "simd128")
    )))]
    pub use super::plain::{Mask, u8x16};
    #[cfg(all(target_arch = "wasm32", target_feature = "simd128"))]
    pub use super::wasm::{Mask, u8x16};
    #[cfg(all(target_arch = "x86_64", target_feature = "sse2"))]
    pub use super::x86::{Mask, u8x16};
}

/// Defines the methods that all implementations share, in terms of the target's own.
macro_rules! common {
    () => {
        impl u8x16 {
            /// Returns the first 16 bytes of a slice. Panics if the slice has fewer.
            #[inline(always)]
            pub fn from_slice(bytes: &[u8]) -> u8x16 {
                match bytes.first_chunk::<16>() {
                    Some(first) => u8x16::from_array(*first),
                    None => panic!("a block of fewer than 16 bytes"),
                }
            }

            #[inline(always)]
            pub fn simd_ne(self, other: u8x16) -> Mask {
                !self.simd_eq(other)
            }

            #[inline(always)]
            pub fn simd_lt(self, other: u8x16) -> Mask {
                !self.simd_ge(other)
            }

            #[inline(always)]
            pub fn simd_le(self, other: u8x16) -> Mask {
                other.simd_ge(self)
            }

            #[inline(always)]
            pub fn simd_gt(self, other: u8x16) -> Mask {
                other.simd_lt(self)
            }
        }

        impl Mask {
            #[inline(always)]
            pub fn any(self) -> bool {
                self.to_bitmask() != 0
            }
        }
    };
}
use common;
