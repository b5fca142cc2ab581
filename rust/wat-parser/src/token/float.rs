use crate::floats::{f32_bits, f64_bits};
use crate::parser::{Parse, Parser, Result, unless_refused};
use wat_lex::shim::alloc::{AllocError, Global};

/// The bits of a 32-bit floating-point number. Two values are equal if all bits are equal.
#[derive(Clone, Copy, Debug, PartialEq, Eq, Hash)]
pub struct F32 {
    /// Sign, exponent and significand in the format of IEEE 754.
    pub bits: u32,
}

/// The bits of a 64-bit floating-point number. Two values are equal if all bits are equal.
#[derive(Clone, Copy, Debug, PartialEq, Eq, Hash)]
pub struct F64 {
    /// Sign, exponent and significand in the format of IEEE 754.
    pub bits: u64,
}

/// Parses a literal and rounds it to the nearest value, with ties to even. Returns an error if the literal rounds to infinity, or if the payload of a
/// NaN is 0 or does not fit.
impl<'a> Parse<'a> for F32 {
    fn parse(parser: Parser<'a>) -> Result<Self> {
        let bits = number(parser, |word| f32_bits(Global, word))?;
        Ok(F32 { bits })
    }
}

/// Parses a literal and rounds it to the nearest value, with ties to even. Returns an error if the literal rounds to infinity, or if the payload of a
/// NaN is 0 or does not fit.
impl<'a> Parse<'a> for F64 {
    fn parse(parser: Parser<'a>) -> Result<Self> {
        let bits = number(parser, |word| f64_bits(Global, word))?;
        Ok(F64 { bits })
    }
}

/// Consumes a float or an integer and returns its bits.
fn number<'a, B>(
    parser: Parser<'a>,
    bits: impl FnOnce(&'a str) -> Result<Option<B>, AllocError>,
) -> Result<B> {
    parser.step(|cursor| {
        let Some((word, rest)) = cursor.number()? else {
            return Err(cursor.error("expected a float"));
        };
        match unless_refused(bits(word))? {
            Some(bits) => Ok((bits, rest)),
            None => Err(cursor.error("invalid float value: constant out of range")),
        }
    })
}
