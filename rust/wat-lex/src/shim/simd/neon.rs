//! Blocks implemented with NEON, which every AArch64 processor has.
use core::arch::aarch64::*;
use core::ops::{BitAnd, BitOr, Not, Shr};

#[derive(Clone, Copy, Debug)]
#[allow(non_camel_case_types)]
pub struct u8x16(uint8x16_t);

#[derive(Clone, Copy, Debug)]
pub struct Mask(uint8x16_t);

super::common!();

/// Evaluates an expression of NEON instructions, none of which reads through a pointer.
macro_rules! neon {
    ($value:expr) => {
        // SAFETY: this module is compiled only for targets with NEON, which is the only precondition of these instructions.
        unsafe { $value }
    };
}

/// The bit of each byte of a half.
const BITS: u64 = 0x8040_2010_0804_0201;

impl u8x16 {
    #[inline(always)]
    pub fn from_array(bytes: [u8; 16]) -> u8x16 {
        // SAFETY: both types have 16 bytes, and any 16 bytes are a valid vector.
        u8x16(unsafe { core::mem::transmute::<[u8; 16], uint8x16_t>(bytes) })
    }

    #[inline(always)]
    pub fn splat(byte: u8) -> u8x16 {
        u8x16(neon!(vdupq_n_u8(byte)))
    }

    /// Returns a block with the byte of `self` at each index, and 0 for an index of at least 128. Other indices must be less than 16.
    #[inline(always)]
    pub fn swizzle_dyn(self, indices: u8x16) -> u8x16 {
        u8x16(neon!(vqtbl1q_u8(self.0, indices.0)))
    }

    #[inline(always)]
    pub fn simd_eq(self, other: u8x16) -> Mask {
        Mask(neon!(vceqq_u8(self.0, other.0)))
    }

    #[inline(always)]
    pub fn simd_ge(self, other: u8x16) -> Mask {
        Mask(neon!(vcgeq_u8(self.0, other.0)))
    }
}

impl BitAnd for u8x16 {
    type Output = u8x16;

    #[inline(always)]
    fn bitand(self, other: u8x16) -> u8x16 {
        u8x16(neon!(vandq_u8(self.0, other.0)))
    }
}

impl BitOr for u8x16 {
    type Output = u8x16;

    #[inline(always)]
    fn bitor(self, other: u8x16) -> u8x16 {
        u8x16(neon!(vorrq_u8(self.0, other.0)))
    }
}

/// Shifts each byte right by the count in the same lane, which must be less than 8.
impl Shr for u8x16 {
    type Output = u8x16;

    #[inline(always)]
    fn shr(self, bits: u8x16) -> u8x16 {
        // A left shift by a negative count is a right shift.
        let left = neon!(vnegq_s8(vreinterpretq_s8_u8(bits.0)));
        u8x16(neon!(vshlq_u8(self.0, left)))
    }
}

impl Mask {
    /// Returns one bit per byte, the lowest for the first byte.
    #[inline(always)]
    pub fn to_bitmask(self) -> u64 {
        let bits = neon!(vcombine_u8(vcreate_u8(BITS), vcreate_u8(BITS)));
        let set = neon!(vandq_u8(self.0, bits));
        let low = neon!(vaddv_u8(vget_low_u8(set)));
        let high = neon!(vaddv_u8(vget_high_u8(set)));
        u64::from(low) | u64::from(high) << 8
    }
}

impl BitAnd for Mask {
    type Output = Mask;

    #[inline(always)]
    fn bitand(self, other: Mask) -> Mask {
        Mask(neon!(vandq_u8(self.0, other.0)))
    }
}

impl BitOr for Mask {
    type Output = Mask;

    #[inline(always)]
    fn bitor(self, other: Mask) -> Mask {
        Mask(neon!(vorrq_u8(self.0, other.0)))
    }
}

impl Not for Mask {
    type Output = Mask;

    #[inline(always)]
    fn not(self) -> Mask {
        Mask(neon!(vmvnq_u8(self.0)))
    }
}
