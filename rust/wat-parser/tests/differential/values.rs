//! Encodings, identifiers and indices.

// A number of one size is converted to the other sizes.
#![allow(clippy::cast_possible_truncation, clippy::cast_possible_wrap)]

use crate::texts::{Random, rounds};
use std::hash::{BuildHasher, RandomState};
use wat_parser::encode::Encode;
use wat_parser::gensym;
use wat_parser::proved::encode as proved;
use wat_parser::proved::gensym::Gensym;
use wat_parser::proved::token as proved_token;
use wat_parser::shim;
use wat_parser::shim::alloc::Global;
use wat_parser::token::{Id, Index, Span};

fn encoded(value: &(impl Encode + ?Sized)) -> Vec<u8> {
    // Encoders append to what is there.
    let mut bytes = vec![1, 2];
    value.encode(&mut bytes);
    bytes
}

fn proved_encoded(
    encode: impl FnOnce(&mut shim::vec::Vec<u8>) -> Result<(), proved::EncodeError>,
) -> Vec<u8> {
    let mut bytes = shim::vec::Vec::from(vec![1, 2]);
    encode(&mut bytes).unwrap();
    bytes.to_vec()
}

/// Compares the encodings of values of each type.
macro_rules! compare {
    ($($value:expr),*) => {
        $(
            assert_eq!(encoded(&$value), proved_encoded(|bytes| proved::Encode::encode(&$value, bytes)));
            assert_eq!(encoded(&&$value), encoded(&$value));
            assert_eq!(encoded(&Box::new($value)), encoded(&$value));
        )*
    };
}

#[test]
fn numbers_and_tuples_have_the_same_encoding() {
    let mut random = Random(7);
    for _ in 0..rounds(20_000) {
        let high = (random.below(1 << 31) as u64) << 33 | random.below(1 << 31) as u64;
        let n = high >> random.below(64);
        let (m, small) = (n as u32, n as u8);
        compare!(
            n,
            m,
            small,
            n as i64,
            (n as i64).wrapping_neg(),
            m as i32,
            m as i32 >> 3,
            m as usize
        );
        compare!(
            (small, n),
            (m, n as i64),
            (small, m, n),
            (m as i32, small, (m, n))
        );
    }
}

#[test]
fn lists_have_the_same_encoding() {
    for count in (0..300).chain([0x3fff, 0x4000, 0x4001]) {
        let text = "a".repeat(count);
        let wanted = proved_encoded(|bytes| proved::encode_str(&text, bytes));
        assert_eq!(encoded(text.as_str()), wanted, "{count}");
        let numbers: Vec<u32> = (0..count as u32).map(|n| n * 77).collect();
        let wanted = proved_encoded(|bytes| proved::encode_slice(&numbers, bytes));
        assert_eq!(encoded(numbers.as_slice()), wanted, "{count}");
        assert_eq!(encoded(&numbers), wanted, "{count}");
    }
}

#[test]
fn identifiers_are_generated_in_the_same_order() {
    let (mut random, mut proved) = (Random(8), Gensym::new());
    gensym::reset();
    let (mut slot, mut proved_slot) = (None, None);
    for _ in 0..rounds(1_000) {
        let span = Span::from_offset(random.below(9));
        match random.below(8) {
            0 => {
                gensym::reset();
                proved.reset();
            }
            1 => (slot, proved_slot) = (None, None),
            2..=4 => {
                let (ours, theirs) = (gensym::generate(span), proved.generate(span).unwrap());
                assert_eq!(format!("{ours:?}"), format!("{theirs:?}"));
                assert_eq!((ours.name(), ours.span()), (theirs.name(), theirs.span()));
                assert!(ours.is_gensym());
            }
            _ => {
                let ours = gensym::fill(span, &mut slot);
                let theirs = proved.fill(Global, span, &mut proved_slot).unwrap();
                assert_eq!(format!("{ours:?}"), format!("{theirs:?}"));
                assert_eq!(ours.span(), theirs.span());
            }
        }
    }
}

/// Checks that an identifier is generated even after more than 16 bits count.
#[test]
fn many_identifiers_are_generated() {
    gensym::reset();
    let (at, mut proved) = (Span::from_offset(0), Gensym::new());
    for _ in 0..70_000 {
        let (ours, theirs) = (gensym::generate(at), proved.generate(at).unwrap());
        assert!(ours.is_gensym() && theirs != proved_token::Id::new("gensym", at));
        assert_ne!(ours, Id::new("gensym", at));
    }
    assert_eq!(
        format!("{:?}", gensym::generate(at)),
        format!("{:?}", proved.generate(at).unwrap())
    );
}

/// Returns an index, and the same one of the verified code.
fn index(
    random: &mut Random,
    proved: &mut Gensym,
) -> (Index<'static>, proved_token::Index<'static>) {
    let span = Span::from_offset(random.below(2));
    match random.below(4) {
        0 | 1 => {
            let number = random.below(3) as u32;
            (
                Index::Num(number, span),
                proved_token::Index::Num(number, span),
            )
        }
        2 => {
            let name = random.pick(&["a", "b", "gensym"]);
            let theirs = proved_token::Id::new(name, span);
            (Id::new(name, span).into(), theirs.into())
        }
        _ => {
            let theirs = proved.generate(span).unwrap();
            (gensym::generate(span).into(), theirs.into())
        }
    }
}

#[test]
fn indices_are_equal_in_the_same_cases() {
    let (mut random, mut proved, hashes) = (Random(9), Gensym::new(), RandomState::new());
    gensym::reset();
    for _ in 0..rounds(20_000) {
        if random.once_in(8) {
            gensym::reset();
            proved.reset();
        }
        let (first, proved_first) = index(&mut random, &mut proved);
        let (second, proved_second) = index(&mut random, &mut proved);
        let is_equal = proved_first == proved_second;
        assert_eq!(first == second, is_equal, "{first:?} {second:?}");
        assert_eq!(hashes.hash_one(first) == hashes.hash_one(second), is_equal);
        assert_eq!(format!("{first:?}"), format!("{proved_first:?}"));
        assert_eq!(first.span(), proved_first.span());
        let is_number = matches!(proved_first, proved_token::Index::Num(..));
        assert_eq!(first.is_resolved(), is_number, "{first:?}");
        if let (Index::Id(id), proved_token::Index::Id(proved_id)) = (first, proved_first) {
            assert_eq!((id.name(), id.span()), (proved_id.name(), proved_id.span()));
        }
    }
}
