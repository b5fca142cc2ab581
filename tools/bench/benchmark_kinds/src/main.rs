//! Benchmarks calls of the Rust crates and of the crate `wast` on texts of one kind each, for tools/bench/benchmark_kinds.py. The loops over whole
//! texts are those of tools/bench/benchmark_rust.
//!
//! usage: benchmark_kinds PASSES kinds TEXT..     see tools/bench/benchmark_rust

mod calls;
#[path = "../../benchmark_rust/src/layer.rs"]
mod layer;
#[allow(unused_macros)]
#[path = "../../benchmark/src/measure.rs"]
mod measure;

use calls::calls;
use layer::layer;
use measure::{Pair, pair, run_words};
use std::process::ExitCode;

/// The number of buffers in a pass: one alone is too short for the clock.
const BUFFERS: u64 = 1000;

/// Returns the number of rejections in a pass: fewer if the first line is long, as an error has a copy of its line.
fn rejections(text: &str) -> u64 {
    let line = text.find('\n').unwrap_or(text.len());
    (100_000 / line.max(1)).clamp(5, 100) as u64
}

layer!(
    wast, theirs: theirs_parse, theirs_parse_whole, theirs_iter, theirs_iter_whole, theirs_counting, theirs_values, theirs_comments,
    theirs_each, theirs_annotated, theirs_cursors, theirs_peeks, theirs_u32s, theirs_ids, theirs_strings, theirs_floats, theirs_groups, theirs_refused, theirs_linecol, theirs_error
);
layer!(
    wat_parser, ours: ours_parse, ours_parse_whole, ours_iter, ours_iter_whole, ours_counting, ours_values, ours_comments,
    ours_each, ours_annotated, ours_cursors, ours_peeks, ours_u32s, ours_ids, ours_strings, ours_floats, ours_groups, ours_refused, ours_linecol, ours_error
);
calls!(wast, theirs_calls: theirs_collect, theirs_buffer, theirs_rejected);
calls!(wat_parser, ours_calls: ours_collect, ours_buffer, ours_rejected);

/// Declares a pair of the loops of ours and of the crate's with these names.
macro_rules! both {
    ($what:literal, $our_module:ident::$ours:ident, $their_module:ident::$theirs:ident) => {
        pair(
            $what,
            (stringify!($ours), $our_module::$ours),
            Some((stringify!($theirs), $their_module::$theirs)),
        )
    };
}

const KINDS: &[Pair] = &[
    both!("Lexer::parse", ours::ours_parse, theirs::theirs_parse),
    both!(
        "Lexer::iter, collected",
        ours_calls::ours_collect,
        theirs_calls::theirs_collect
    ),
    both!(
        "Token::string and so on",
        ours::ours_values,
        theirs::theirs_values
    ),
    both!(
        "Parser::peek, peek2, peek3",
        ours::ours_peeks,
        theirs::theirs_peeks
    ),
    both!(
        "ParseBuffer::new",
        ours_calls::ours_buffer,
        theirs_calls::theirs_buffer
    ),
    both!(
        "parser::parse, rejected",
        ours_calls::ours_rejected,
        theirs_calls::theirs_rejected
    ),
];

fn main() -> ExitCode {
    run_words(&[("kinds", KINDS)])
}
