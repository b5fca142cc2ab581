//! Benchmark loops over the proved modules alone.

use crate::ours::weight;
use wat_lex::shim::alloc::Global;
use wat_parser::proved::Error;
use wat_parser::proved::lexer::{Lexer, Token};
use wat_parser::proved::parser::{Parse, ParseBuffer, Parser, parse};
use wat_parser::proved::token::Keyword;
use wat_parser::words::Word;

fn whole(token: &Token) -> u64 {
    weight(token.kind) + token.offset as u64 + u64::from(token.len)
}

#[inline(never)]
#[unsafe(no_mangle)]
pub fn proved_scan(text: &str) -> u64 {
    let lexer = Lexer::new(text);
    let (mut pos, mut sum) = (0, 0u64);
    while let Ok(Some(token)) = lexer.scan(pos) {
        pos += token.len as usize;
        sum = sum.wrapping_add(weight(token.kind));
    }
    sum
}

#[inline(never)]
#[unsafe(no_mangle)]
pub fn proved_scan_whole(text: &str) -> u64 {
    let lexer = Lexer::new(text);
    let (mut pos, mut sum) = (0, 0u64);
    while let Ok(Some(token)) = lexer.scan(pos) {
        pos += token.len as usize;
        sum = sum.wrapping_add(whole(&token));
    }
    sum
}

/// Parses a whole text as `T`, and returns its sum; 0 if the text is rejected.
fn read<T: for<'a> Parse<'a> + Into<u64>>(text: &str) -> u64 {
    let Ok(buffer) = ParseBuffer::new(Global, text) else {
        return 0;
    };
    parse::<T>(&buffer).map_or(0, T::into)
}

struct Numbers(u64);

impl From<Numbers> for u64 {
    fn from(numbers: Numbers) -> u64 {
        numbers.0
    }
}

impl<'a> Parse<'a> for Numbers {
    fn parse(parser: &mut Parser<'a>) -> Result<Self, Error> {
        let mut sum = 0u64;
        while !parser.is_empty() {
            sum = sum.wrapping_add(u64::from(parser.parse::<u32>()?));
        }
        Ok(Numbers(sum))
    }
}

#[inline(never)]
#[unsafe(no_mangle)]
pub fn proved_u32s(text: &str) -> u64 {
    read::<Numbers>(text)
}

macro_rules! word {
    ($name:ident $word:literal) => {
        struct $name;

        impl Word for $name {
            const AT: bool = false;

            fn word() -> &'static str {
                $word
            }

            fn display() -> &'static str {
                concat!("`", $word, "`")
            }
        }
    };
}

word!(A "a");
word!(B "b");
word!(C "c");

struct Groups(u64);

impl From<Groups> for u64 {
    fn from(groups: Groups) -> u64 {
        groups.0
    }
}

impl<'a> Parse<'a> for Groups {
    fn parse(parser: &mut Parser<'a>) -> Result<Self, Error> {
        let mut sum = 0u64;
        while !parser.is_empty() {
            sum = sum.wrapping_add(parser.parens(group)?);
        }
        Ok(Groups(sum))
    }
}

fn group(parser: &mut Parser<'_>) -> Result<u64, Error> {
    parser.parse::<Keyword<A>>()?;
    Ok(parser.parens(part)? + parser.parens(part)?)
}

fn part(parser: &mut Parser<'_>) -> Result<u64, Error> {
    let mut look = parser.lookahead1();
    if look.peek::<Keyword<B>>()? {
        drop(look);
        parser.parse::<Keyword<B>>()?;
        return Ok(u64::from(parser.parse::<u32>()?));
    }
    if look.peek::<Keyword<C>>()? {
        drop(look);
        parser.parse::<Keyword<C>>()?;
        return Ok(u64::from(parser.parse::<u32>()?) + u64::from(parser.parse::<u32>()?));
    }
    Err(look.error())
}

#[inline(never)]
#[unsafe(no_mangle)]
pub fn proved_groups(text: &str) -> u64 {
    read::<Groups>(text)
}
