//! Blocks implemented with SSE2, which every x86-64 processor has, and with SSSE3's shuffle if the target has it.
use core::arch::x86_64::*;
use core::ops::{BitAnd, BitOr, Not, Shr};

#[derive(Clone, Copy, Debug)]
#[allow(non_camel_case_types)]
pub struct u8x16(__m128i);

#[derive(Clone, Copy, Debug)]
pub struct Mask(__m128i);

super::common!();

/// Evaluates an expression of SSE2 instructions, none of which reads through a pointer.
macro_rules! sse2 {
    ($value:expr) => {
        // SAFETY: this module is compiled only for targets with SSE2, which is the only precondition of these instructions.
        unsafe { $value }
    };
}

/// Returns the byte of a table at each index, with one instruction.
///
/// # Safety
///
/// The processor must have SSSE3.
// Before Rust 1.87 the intrinsic itself is unsafe.
#[cfg(any(test, target_feature = "ssse3"))]
#[inline]
#[target_feature(enable = "ssse3")]
#[allow(unused_unsafe)]
unsafe fn shuffled(table: __m128i, indices: __m128i) -> __m128i {
    // SAFETY: the processor has SSSE3.
    unsafe { _mm_shuffle_epi8(table, indices) }
}

/// Returns the byte of a table at each index, without a shuffle: compares each index with each index of the table.
// For a constant table the compiler keeps only the comparisons for entries that are not 0.
#[cfg(any(test, not(target_feature = "ssse3")))]
#[inline(always)]
fn compared(table: __m128i, indices: __m128i) -> __m128i {
    // SAFETY: both types have 16 bytes, and any 16 bytes are valid for either.
    let table = unsafe { core::mem::transmute::<__m128i, [u8; 16]>(table) };
    let mut found = sse2!(_mm_setzero_si128());
    let mut place = 0;
    while place < 16 {
        let is_here = sse2!(_mm_cmpeq_epi8(indices, _mm_set1_epi8(place as i8)));
        let here = sse2!(_mm_and_si128(is_here, _mm_set1_epi8(table[place] as i8)));
        found = sse2!(_mm_or_si128(found, here));
        place += 1;
    }
    found
}

impl u8x16 {
    #[inline(always)]
    pub fn from_array(bytes: [u8; 16]) -> u8x16 {
        // SAFETY: both types have 16 bytes, and any 16 bytes are a valid vector.
        u8x16(unsafe { core::mem::transmute::<[u8; 16], __m128i>(bytes) })
    }

    #[inline(always)]
    pub fn splat(byte: u8) -> u8x16 {
        u8x16(sse2!(_mm_set1_epi8(byte as i8)))
    }

    /// Returns a block with the byte of `self` at each index, and 0 for an index of at least 128. Other indices must be less than 16.
    #[inline(always)]
    pub fn swizzle_dyn(self, indices: u8x16) -> u8x16 {
        #[cfg(target_feature = "ssse3")]
        // SAFETY: the target has SSSE3.
        return u8x16(unsafe { shuffled(self.0, indices.0) });
        #[cfg(not(target_feature = "ssse3"))]
        u8x16(compared(self.0, indices.0))
    }

    #[inline(always)]
    pub fn simd_eq(self, other: u8x16) -> Mask {
        Mask(sse2!(_mm_cmpeq_epi8(self.0, other.0)))
    }

    #[inline(always)]
    pub fn simd_ge(self, other: u8x16) -> Mask {
        Mask(sse2!(_mm_cmpeq_epi8(_mm_max_epu8(self.0, other.0), self.0)))
    }
}

impl BitAnd for u8x16 {
    type Output = u8x16;

    #[inline(always)]
    fn bitand(self, other: u8x16) -> u8x16 {
        u8x16(sse2!(_mm_and_si128(self.0, other.0)))
    }
}

impl BitOr for u8x16 {
    type Output = u8x16;

    #[inline(always)]
    fn bitor(self, other: u8x16) -> u8x16 {
        u8x16(sse2!(_mm_or_si128(self.0, other.0)))
    }
}

/// Shifts each byte right by the count in the same lane, which must be less than 8.
// Applies the shifts by 4, 2 and 1 that the bits of each count select. If the counts are constant, the compiler reduces this to one shift.
impl Shr for u8x16 {
    type Output = u8x16;

    #[inline(always)]
    fn shr(self, bits: u8x16) -> u8x16 {
        let by_four = sse2!(_mm_srli_epi16::<4>(self.0));
        let moved = chosen(bits, 4, u8x16(by_four) & u8x16::splat(0x0f), self);
        let by_two = sse2!(_mm_srli_epi16::<2>(moved.0));
        let moved = chosen(bits, 2, u8x16(by_two) & u8x16::splat(0x3f), moved);
        let by_one = sse2!(_mm_srli_epi16::<1>(moved.0));
        chosen(bits, 1, u8x16(by_one) & u8x16::splat(0x7f), moved)
    }
}

/// Selects each byte from the first block if `bit` is set in the lane of `bits`, and from the second block otherwise.
#[inline(always)]
fn chosen(bits: u8x16, bit: u8, set: u8x16, other: u8x16) -> u8x16 {
    let is_set = (bits & u8x16::splat(bit)).simd_eq(u8x16::splat(bit)).0;
    u8x16(sse2!(_mm_or_si128(
        _mm_and_si128(is_set, set.0),
        _mm_andnot_si128(is_set, other.0)
    )))
}

impl Mask {
    /// Returns one bit per byte, the lowest for the first byte.
    #[inline(always)]
    pub fn to_bitmask(self) -> u64 {
        u64::from(sse2!(_mm_movemask_epi8(self.0)) as u32)
    }
}

impl BitAnd for Mask {
    type Output = Mask;

    #[inline(always)]
    fn bitand(self, other: Mask) -> Mask {
        Mask(sse2!(_mm_and_si128(self.0, other.0)))
    }
}

impl BitOr for Mask {
    type Output = Mask;

    #[inline(always)]
    fn bitor(self, other: Mask) -> Mask {
        Mask(sse2!(_mm_or_si128(self.0, other.0)))
    }
}

impl Not for Mask {
    type Output = Mask;

    #[inline(always)]
    fn not(self) -> Mask {
        Mask(sse2!(_mm_xor_si128(self.0, _mm_set1_epi8(-1))))
    }
}

/// Checks that both implementations of a table lookup return the same result, regardless of which one the crate is built with.
#[cfg(test)]
#[test]
fn a_shuffle_answers_as_comparisons_do() {
    if !std::is_x86_feature_detected!("ssse3") {
        std::eprintln!("left out, as this processor has no SSSE3");
        return;
    }
    let table = u8x16::from_array(core::array::from_fn(|i| (i * 37 + 11) as u8));
    for index in (0..16).chain(128..=255u8) {
        for other in 0..16 {
            let indices =
                u8x16::from_array(core::array::from_fn(
                    |i| if i % 2 == 0 { index } else { other },
                ));
            // SAFETY: the processor has SSSE3.
            let by_shuffle = u8x16(unsafe { shuffled(table.0, indices.0) });
            let by_comparison = u8x16(compared(table.0, indices.0));
            assert!(!by_shuffle.simd_ne(by_comparison).any(), "{index} {other}");
        }
    }
}
