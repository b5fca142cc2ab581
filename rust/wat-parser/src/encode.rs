//! Encoding of values in the binary format.

use crate::proved::encode::{self as proved, EncodeError};
use alloc::boxed::Box;
use alloc::vec::Vec;
use core::mem;
use wat_lex::shim;
use wat_lex::shim::alloc::{AllocError, granted};

/// A value that has an encoding in the binary format.
pub trait Encode {
    /// Appends the encoding of the value.
    fn encode(&self, bytes: &mut Vec<u8>);
}

/// Appends the output of a verified encoder. Aborts the program if an allocation fails.
///
/// # Panics
///
/// Panics if a length is greater than `u32::MAX`.
fn append(
    bytes: &mut Vec<u8>,
    encode: impl FnOnce(&mut shim::vec::Vec<u8>) -> Result<(), EncodeError>,
) {
    let mut all = shim::vec::Vec::from(mem::take(bytes));
    let encoded = encode(&mut all);
    *bytes = all.into();
    match encoded {
        Ok(()) => {}
        Err(EncodeError::Memory) => granted(Err(AllocError)),
        Err(EncodeError::TooLong) => panic!("a length of more than u32::MAX"),
    }
}

macro_rules! numbers {
    ($($(#[$doc:meta])* $number:ident)*) => {
        $(
            $(#[$doc])*
            impl Encode for $number {
                fn encode(&self, bytes: &mut Vec<u8>) {
                    append(bytes, |all| proved::Encode::encode(self, all));
                }
            }
        )*
    };
}

numbers! {
    u8
    u32
    u64
    i32
    i64
    /// Encodes a length or an index, which has 32 bits in the format.
    ///
    /// # Panics
    ///
    /// Panics if the value is greater than `u32::MAX`.
    usize
}

/// Encodes the number of bytes, followed by the bytes.
impl Encode for str {
    fn encode(&self, bytes: &mut Vec<u8>) {
        append(bytes, |all| proved::encode_str(self, all));
    }
}

/// Encodes the number of items, followed by the items.
impl<T: Encode> Encode for [T] {
    fn encode(&self, bytes: &mut Vec<u8>) {
        self.len().encode(bytes);
        for item in self {
            item.encode(bytes);
        }
    }
}

impl<T: Encode> Encode for Vec<T> {
    fn encode(&self, bytes: &mut Vec<u8>) {
        self.as_slice().encode(bytes);
    }
}

impl<T: Encode + ?Sized> Encode for &T {
    fn encode(&self, bytes: &mut Vec<u8>) {
        (**self).encode(bytes);
    }
}

impl<T: Encode + ?Sized> Encode for Box<T> {
    fn encode(&self, bytes: &mut Vec<u8>) {
        (**self).encode(bytes);
    }
}

impl<A: Encode, B: Encode> Encode for (A, B) {
    fn encode(&self, bytes: &mut Vec<u8>) {
        self.0.encode(bytes);
        self.1.encode(bytes);
    }
}

impl<A: Encode, B: Encode, C: Encode> Encode for (A, B, C) {
    fn encode(&self, bytes: &mut Vec<u8>) {
        self.0.encode(bytes);
        self.1.encode(bytes);
        self.2.encode(bytes);
    }
}
