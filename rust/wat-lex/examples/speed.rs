//! Benchmarks `iter`, `parse` and `tokens_into`, and with the feature `parallel` `par_tokens_into` with a thread for each processor, on the text of
//! standard input, and prints the best of several passes.
//!
//! usage: speed [PASSES]

use std::hint::black_box;
use std::io::{self, Read};
use std::time::{Duration, Instant};
use wat_lex::{Lexer, TokenKind};

/// Returns a weight for each kind, so that a pass cannot skip the kinds.
fn weight(kind: TokenKind) -> u64 {
    match kind {
        TokenKind::LineComment => 1,
        TokenKind::BlockComment => 2,
        TokenKind::Whitespace => 3,
        TokenKind::LParen => 5,
        TokenKind::RParen => 7,
        TokenKind::String => 11,
        TokenKind::Id => 13,
        TokenKind::Keyword => 17,
        TokenKind::Annotation => 19,
        TokenKind::Reserved => 23,
        TokenKind::Integer(_) => 29,
        TokenKind::Float(_) => 31,
    }
}

#[inline(never)]
fn by_iter(text: &str) -> u64 {
    let lexer = Lexer::new(text);
    lexer
        .iter(0)
        .map_while(Result::ok)
        .map(|token| weight(token.kind))
        .sum()
}

#[inline(never)]
fn by_parse(text: &str) -> u64 {
    let (lexer, mut pos, mut sum) = (Lexer::new(text), 0, 0);
    while let Ok(Some(token)) = lexer.parse(&mut pos) {
        sum += weight(token.kind);
    }
    sum
}

#[inline(never)]
fn into_vec(text: &str) -> u64 {
    let mut tokens = Vec::new();
    let _ = Lexer::new(text).tokens_into(0, &mut tokens);
    tokens.len() as u64
}

#[cfg(feature = "parallel")]
fn by_threads(text: &str) -> u64 {
    let mut lists = Vec::new();
    if let Ok(threads) = std::thread::available_parallelism() {
        let _ = Lexer::new(text).par_tokens_into(0, threads, &mut lists);
    }
    lists.iter().map(|list| list.len() as u64).sum()
}

/// A function that lexes a text, and returns a sum over its tokens.
type Pass = fn(&str) -> u64;

/// The benchmarked functions.
const PASSES: &[(&str, Pass)] = &[
    ("iter", by_iter),
    ("parse", by_parse),
    ("tokens_into", into_vec),
    #[cfg(feature = "parallel")]
    ("par_tokens_into", by_threads),
];

fn main() -> io::Result<()> {
    let passes = std::env::args()
        .nth(1)
        .and_then(|word| word.parse().ok())
        .unwrap_or(5);
    let mut text = String::new();
    io::stdin().read_to_string(&mut text)?;
    for (name, pass) in PASSES {
        let (mut best, mut sum) = (Duration::MAX, 0);
        for _ in 0..passes {
            let start = Instant::now();
            sum = black_box(pass(black_box(&text)));
            best = best.min(start.elapsed());
        }
        #[allow(clippy::cast_precision_loss)]
        let speed = text.len() as f64 / best.as_secs_f64() / 1e6;
        println!(
            "{name:15} {speed:7.1} MB/s: {sum} from {} bytes",
            text.len()
        );
    }
    Ok(())
}
