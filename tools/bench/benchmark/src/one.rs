//! The suites `lexing` and `library` of `benchmark`, in a program in which the crate's `parse` has only one caller and is inlined there.

mod library;
mod measure;
mod ours;
mod theirs;

use library::of_tokens;
use measure::{Loop, Suite, pair, run_words};
use std::process::ExitCode;

const PARSE: Option<Loop> = Some(("theirs_parse", theirs::theirs_parse));

const SUITES: &[Suite] = &[
    (
        "lexing, one caller",
        &[
            pair("Lexer::scan", ("measure_scan", ours::scan), PARSE),
            pair("Lexer::parse", ("measure_parse", ours::parse), PARSE),
            pair("Lexer::iter", ("measure_iter", ours::iter), PARSE),
        ],
    ),
    ("library, one caller", &of_tokens(PARSE)),
];

fn main() -> ExitCode {
    run_words(SUITES)
}
