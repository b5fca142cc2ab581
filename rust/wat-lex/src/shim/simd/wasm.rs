//! Blocks implemented with WebAssembly's 128-bit vectors.
use core::arch::wasm32::*;
use core::ops::{BitAnd, BitOr, Not, Shr};

#[derive(Clone, Copy, Debug)]
#[allow(non_camel_case_types)]
pub struct u8x16(v128);

#[derive(Clone, Copy, Debug)]
pub struct Mask(v128);

super::common!();

impl u8x16 {
    #[inline(always)]
    pub fn from_array(bytes: [u8; 16]) -> u8x16 {
        // SAFETY: both types have 16 bytes, and any 16 bytes are a valid vector.
        u8x16(unsafe { core::mem::transmute::<[u8; 16], v128>(bytes) })
    }

    #[inline(always)]
    pub fn splat(byte: u8) -> u8x16 {
        u8x16(u8x16_splat(byte))
    }

    /// Returns a block with the byte of `self` at each index, and 0 for an index of at least 128. Other indices must be less than 16.
    #[inline(always)]
    pub fn swizzle_dyn(self, indices: u8x16) -> u8x16 {
        u8x16(u8x16_swizzle(self.0, indices.0))
    }

    #[inline(always)]
    pub fn simd_eq(self, other: u8x16) -> Mask {
        Mask(u8x16_eq(self.0, other.0))
    }

    #[inline(always)]
    pub fn simd_ge(self, other: u8x16) -> Mask {
        Mask(u8x16_ge(self.0, other.0))
    }
}

impl BitAnd for u8x16 {
    type Output = u8x16;

    #[inline(always)]
    fn bitand(self, other: u8x16) -> u8x16 {
        u8x16(v128_and(self.0, other.0))
    }
}

impl BitOr for u8x16 {
    type Output = u8x16;

    #[inline(always)]
    fn bitor(self, other: u8x16) -> u8x16 {
        u8x16(v128_or(self.0, other.0))
    }
}

/// Shifts each byte right by the count in the same lane, which must be less than 8.
// Applies the shifts by 4, 2 and 1 that the bits of each count select. If the counts are constant, the compiler reduces this to one shift.
impl Shr for u8x16 {
    type Output = u8x16;

    #[inline(always)]
    fn shr(self, bits: u8x16) -> u8x16 {
        let moved = chosen(bits, 4, u8x16_shr(self.0, 4), self.0);
        let moved = chosen(bits, 2, u8x16_shr(moved, 2), moved);
        u8x16(chosen(bits, 1, u8x16_shr(moved, 1), moved))
    }
}

/// Selects each byte from the first block if `bit` is set in the lane of `bits`, and from the second block otherwise.
#[inline(always)]
fn chosen(bits: u8x16, bit: u8, set: v128, other: v128) -> v128 {
    let bit = u8x16::splat(bit);
    v128_bitselect(set, other, (bits & bit).simd_eq(bit).0)
}

impl Mask {
    /// Returns one bit per byte, the lowest for the first byte.
    #[inline(always)]
    pub fn to_bitmask(self) -> u64 {
        u64::from(u8x16_bitmask(self.0))
    }
}

impl BitAnd for Mask {
    type Output = Mask;

    #[inline(always)]
    fn bitand(self, other: Mask) -> Mask {
        Mask(v128_and(self.0, other.0))
    }
}

impl BitOr for Mask {
    type Output = Mask;

    #[inline(always)]
    fn bitor(self, other: Mask) -> Mask {
        Mask(v128_or(self.0, other.0))
    }
}

impl Not for Mask {
    type Output = Mask;

    #[inline(always)]
    fn not(self) -> Mask {
        Mask(v128_not(self.0))
    }
}
