//! Blocks implemented in plain Rust.
use core::array::from_fn;
use core::ops::{BitAnd, BitOr, Not, Shr};

#[derive(Clone, Copy, Debug)]
#[allow(non_camel_case_types)]
pub struct u8x16([u8; 16]);

#[derive(Clone, Copy, Debug)]
pub struct Mask([bool; 16]);

super::common!();

impl u8x16 {
    #[inline(always)]
    pub fn from_array(bytes: [u8; 16]) -> u8x16 {
        u8x16(bytes)
    }

    #[inline(always)]
    pub fn splat(byte: u8) -> u8x16 {
        u8x16([byte; 16])
    }

    /// Returns a block with the byte of `self` at each index, and 0 for an index of at least 128. Other indices must be less than 16.
    #[inline(always)]
    pub fn swizzle_dyn(self, indices: u8x16) -> u8x16 {
        u8x16(from_fn(|i| match indices.0[i] {
            128.. => 0,
            index => self.0[usize::from(index & 15)],
        }))
    }

    #[inline(always)]
    pub fn simd_eq(self, other: u8x16) -> Mask {
        Mask(from_fn(|i| self.0[i] == other.0[i]))
    }

    #[inline(always)]
    pub fn simd_ge(self, other: u8x16) -> Mask {
        Mask(from_fn(|i| self.0[i] >= other.0[i]))
    }
}

impl BitAnd for u8x16 {
    type Output = u8x16;

    #[inline(always)]
    fn bitand(self, other: u8x16) -> u8x16 {
        u8x16(from_fn(|i| self.0[i] & other.0[i]))
    }
}

impl BitOr for u8x16 {
    type Output = u8x16;

    #[inline(always)]
    fn bitor(self, other: u8x16) -> u8x16 {
        u8x16(from_fn(|i| self.0[i] | other.0[i]))
    }
}

/// Shifts each byte right by the count in the same lane, which must be less than 8.
impl Shr for u8x16 {
    type Output = u8x16;

    #[inline(always)]
    fn shr(self, bits: u8x16) -> u8x16 {
        u8x16(from_fn(|i| self.0[i] >> (bits.0[i] & 7)))
    }
}

impl Mask {
    /// Returns one bit per byte, the lowest for the first byte.
    #[inline(always)]
    pub fn to_bitmask(self) -> u64 {
        (0..16).fold(0, |mask, i| mask | u64::from(self.0[i]) << i)
    }
}

impl BitAnd for Mask {
    type Output = Mask;

    #[inline(always)]
    fn bitand(self, other: Mask) -> Mask {
        Mask(from_fn(|i| self.0[i] & other.0[i]))
    }
}

impl BitOr for Mask {
    type Output = Mask;

    #[inline(always)]
    fn bitor(self, other: Mask) -> Mask {
        Mask(from_fn(|i| self.0[i] | other.0[i]))
    }
}

impl Not for Mask {
    type Output = Mask;

    #[inline(always)]
    fn not(self) -> Mask {
        Mask(self.0.map(|is_set| !is_set))
    }
}
