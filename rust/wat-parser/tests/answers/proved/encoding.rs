//! Encodings of integers.

use crate::row::Row;
use std::str::FromStr;
use wat_lex::proved::encode::{Encode, EncodeError};
use wat_lex::proved::error::Error;
use wat_lex::shim::alloc::Global;
use wat_lex::shim::vec::Vec;

fn bytes<T: Encode + FromStr>(number: &str) -> Result<String, Error> {
    let mut bytes = Vec::new(Global);
    let Ok(number) = number.parse::<T>() else {
        return Ok("no number".to_owned());
    };
    match number.encode(&mut bytes) {
        Ok(()) => Ok(format!("{bytes:?}")),
        Err(EncodeError::TooLong) => Ok("too long".to_owned()),
        Err(EncodeError::Memory) => Err(Error::out_of_memory()),
    }
}

pub fn answer(row: &Row) -> Option<Result<String, Error>> {
    let text = &row.text;
    Some(match row.call {
        "encode-u32" => bytes::<u32>(text),
        "encode-u64" => bytes::<u64>(text),
        "encode-usize" => bytes::<usize>(text),
        "encode-i32" => bytes::<i32>(text),
        "encode-i64" => bytes::<i64>(text),
        _ => return None,
    })
}
