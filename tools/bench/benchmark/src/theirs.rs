//! The first loop of `tools/bench/benchmark/rattle`, over the crate `wast`. callgrind finds it by its unmangled name.

use wast::lexer::{Lexer, TokenKind};

/// Returns a distinct weight for each kind.
pub fn weight(kind: TokenKind) -> u64 {
    match kind {
        TokenKind::LineComment => 1,
        TokenKind::BlockComment => 2,
        TokenKind::Whitespace => 3,
        TokenKind::LParen => 5,
        TokenKind::RParen => 7,
        TokenKind::String => 11,
        TokenKind::Id => 13,
        TokenKind::Keyword => 17,
        TokenKind::Annotation => 19,
        TokenKind::Reserved => 23,
        TokenKind::Integer(_) => 29,
        TokenKind::Float(_) => 31,
    }
}

#[inline(never)]
#[unsafe(no_mangle)]
pub fn theirs_parse(text: &str) -> u64 {
    let lexer = Lexer::new(text);
    let (mut pos, mut sum) = (0, 0u64);
    while let Ok(Some(token)) = lexer.parse(&mut pos) {
        sum = sum.wrapping_add(weight(token.kind));
    }
    sum
}
