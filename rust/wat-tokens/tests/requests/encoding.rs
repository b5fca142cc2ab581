//! Test cases of encoding values to bytes.

use crate::refusing::ended;
use crate::row::{Ending, Row};
use wat_lex::proved::encode::{Encode, EncodeError, encode_slice, encode_str};
use wat_lex::proved::error::Error;
use wat_lex::shim::alloc::Global;
use wat_lex::shim::boxed::Box;
use wat_lex::shim::string::String as Text;
use wat_lex::shim::vec::Vec;

type Written = Result<(), EncodeError>;

/// Encodes to a buffer of one byte that is full. The byte must stay, and if an allocation fails, no other byte may be written.
fn written(row: &Row, write: impl FnOnce(&mut Vec<u8>) -> Written) -> Result<Ending, Error> {
    let mut buffer = Vec::with_capacity(Global, 1)?;
    buffer.push(0xff)?;
    let result = ended(write(&mut buffer));
    assert_eq!(buffer[0], 0xff, "{}", row.name);
    let bytes = &buffer[1..];
    match result {
        Ok(()) => Ok(row.ending(&Ok(bytes))),
        Err(EncodeError::Memory) => {
            assert!(bytes.is_empty(), "{}", row.name);
            Ok(Ending::Memory)
        }
        Err(EncodeError::TooLong) => panic!("{}: too long", row.name),
    }
}

fn value<T: Encode>(row: &Row, value: T) -> Result<Ending, Error> {
    written(row, |buffer| value.encode(buffer))
}

fn numbers() -> Result<Vec<u32>, Error> {
    let mut numbers = Vec::with_capacity(Global, 2)?;
    numbers.extend_from_slice(&[1, 300])?;
    Ok(numbers)
}

pub fn ending(row: &Row) -> Result<Ending, Error> {
    match row.of {
        "u8" => value(row, 7u8),
        "u32" => value(row, 128u32),
        "i32" => value(row, 64i32),
        "u64" => value(row, u64::MAX),
        "i64" => value(row, -1i64),
        "usize" => value(row, 300usize),
        "reference" => value::<&u32>(row, &300),
        "pair" => value(row, (5u8, -64i32)),
        "triple" => value(row, (1u8, -1i64, 128usize)),
        "vec" => value(row, numbers()?),
        "box" => value(row, Box::new(Global, 300u32)?),
        "string" => value(row, Text::from_str(Global, "ab")?),
        "slice" => written(row, |buffer| encode_slice(&[1u32, 300], buffer)),
        // More bytes than the capacity of the buffer after it first grows.
        "long-slice" => written(row, |buffer| encode_slice(&[7u8; 40], buffer)),
        "str" => written(row, |buffer| encode_str("ab", buffer)),
        of => panic!("{}: no {of}", row.name),
    }
}
