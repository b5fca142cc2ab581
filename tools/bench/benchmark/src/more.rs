//! A loop over the crate `wast` with one step for each token, for versions that have `Cursor::oracle_any`. callgrind finds it by its unmangled name.

use crate::theirs::weight;
use wast::parser::{self, Parse, ParseBuffer, Parser, Result};

struct Each(u64);

impl<'a> Parse<'a> for Each {
    fn parse(parser: Parser<'a>) -> Result<Self> {
        let mut sum = 0u64;
        loop {
            let taken = parser.step(|cursor| match cursor.oracle_any()? {
                Some((token, next)) => Ok((weight(token.kind), next)),
                None => Ok((0, cursor)),
            });
            match taken {
                Ok(0) | Err(_) => return Ok(Each(sum)),
                Ok(weight) => sum = sum.wrapping_add(weight),
            }
        }
    }
}

/// Sums the weights of all visible tokens; returns 0 if the text is rejected.
#[inline(never)]
#[unsafe(no_mangle)]
pub fn theirs_any(text: &str) -> u64 {
    let Ok(buffer) = ParseBuffer::new(text) else {
        return 0;
    };
    parser::parse::<Each>(&buffer).map_or(0, |each| each.0)
}
