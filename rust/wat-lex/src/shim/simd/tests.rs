//! Compares the target's blocks with those in plain Rust, for every pair of bytes and for random blocks.
use super::plain;
use super::prelude::{Mask, u8x16};
use std::vec::Vec;

/// A pseudorandom number generator with a fixed seed.
struct Random(u64);

impl Random {
    fn next(&mut self) -> u64 {
        self.0 ^= self.0 << 13;
        self.0 ^= self.0 >> 7;
        self.0 ^= self.0 << 17;
        self.0
    }

    fn block(&mut self) -> [u8; 16] {
        core::array::from_fn(|_| (self.next() >> 32) as u8)
    }
}

/// Extracts the bytes of a block with operations that every implementation has.
macro_rules! bytes {
    ($module:ident, $block:expr) => {
        (0..=255u8).fold([0u8; 16], |mut bytes, byte| {
            let mask = $block.simd_eq($module::u8x16::splat(byte)).to_bitmask();
            for (i, found) in bytes.iter_mut().enumerate() {
                if mask >> i & 1 == 1 {
                    *found = byte;
                }
            }
            bytes
        })
    };
}

/// Collects the bit masks of all comparisons of two blocks.
macro_rules! answers {
    ($module:ident, $one:expr, $other:expr) => {{
        let (one, other) = (
            $module::u8x16::from_array($one),
            $module::u8x16::from_slice(&$other),
        );
        let (equal, more) = (one.simd_eq(other), one.simd_ge(other));
        let masks = [
            equal,
            more,
            one.simd_ne(other),
            one.simd_lt(other),
            one.simd_le(other),
            one.simd_gt(other),
            equal & more,
            equal | !more,
            !equal & !more,
        ];
        masks.map(|mask| (mask.to_bitmask(), mask.any()))
    }};
}

/// Collects the blocks that all operations on two blocks return. Indices are those that the sources use: less than 16, or at least 128. Shift counts
/// are less than 8.
macro_rules! blocks {
    ($module:ident, $one:expr, $other:expr) => {{
        let of = $module::u8x16::from_array;
        let (one, other) = (of($one), of($other));
        let indices = of($other.map(|byte| if byte < 128 { byte & 15 } else { byte }));
        let bits = of($other.map(|byte| byte & 7));
        let four = one >> $module::u8x16::splat(4);
        [
            bytes!($module, one),
            bytes!($module, (one & other)),
            bytes!($module, (one | other)),
            bytes!($module, one.swizzle_dyn(indices)),
            bytes!($module, (one >> bits)),
            bytes!($module, four),
        ]
    }};
}

/// The target's blocks, under the module path that the macros need.
mod target {
    pub(super) use crate::shim::simd::prelude::u8x16;
}

#[test]
fn plain_blocks_are_as_bytes_are() {
    let (one, other) = ([3; 16], core::array::from_fn(|i| i as u8));
    let of = plain::u8x16::from_array;
    assert_eq!(of(one).simd_eq(of(other)).to_bitmask(), 1 << 3);
    assert_eq!(of(one).simd_ge(of(other)).to_bitmask(), 0b1111);
    assert_eq!(of(one).simd_lt(of(other)).to_bitmask(), 0xfff0);
    assert_eq!(bytes!(plain, of(other)), other);
    let backwards = core::array::from_fn(|i| 15 - i as u8);
    assert_eq!(
        bytes!(plain, of(other).swizzle_dyn(of(backwards))),
        backwards
    );
    assert_eq!(bytes!(plain, of(one).swizzle_dyn(of([128; 16]))), [0; 16]);
    assert_eq!(bytes!(plain, (of([0xf1; 16]) >> of([4; 16]))), [15; 16]);
}

#[test]
fn every_pair_of_bytes() {
    for one in 0..=255u8 {
        for first in (0..=255u8).step_by(16) {
            let others: [u8; 16] = core::array::from_fn(|i| first + i as u8);
            assert_eq!(
                answers!(target, [one; 16], others),
                answers!(plain, [one; 16], others)
            );
        }
    }
}

#[test]
fn every_table_and_index() {
    let mut random = Random(7);
    for index in (0..16).chain(128..=255u8) {
        let table = random.block();
        let looked_up = |place: usize| {
            let mut indices = [0; 16];
            indices[place] = index;
            indices
        };
        for indices in (0..16).map(looked_up) {
            assert_eq!(
                blocks!(target, table, indices)[3],
                blocks!(plain, table, indices)[3]
            );
        }
    }
}

#[test]
fn blocks_at_random() {
    let mut random = Random(1);
    for _ in 0..2_000 {
        let (one, other) = (random.block(), random.block());
        assert_eq!(answers!(target, one, other), answers!(plain, one, other));
        assert_eq!(blocks!(target, one, other), blocks!(plain, one, other));
    }
}

#[test]
fn a_block_is_the_first_sixteen_bytes() {
    let bytes: Vec<u8> = (0..40).collect();
    let block = u8x16::from_slice(&bytes[3..]);
    assert_eq!(bytes!(target, block).as_slice(), &bytes[3..19]);
    let mask: Mask = block.simd_eq(u8x16::splat(3));
    assert_eq!(mask.to_bitmask(), 1);
    assert!(mask.any() && !block.simd_eq(u8x16::splat(40)).any());
}

#[test]
#[should_panic(expected = "fewer than 16 bytes")]
fn fewer_bytes_are_no_block() {
    u8x16::from_slice(&[0; 15]);
}
