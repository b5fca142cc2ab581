//! Benchmarks this project's calls against those of the crate `wast`, in one process. Each pass runs every contender once, and each pass starts with
//! the next one. A time is the thread's processor time. A ratio is the crate's median divided by ours: above 1, ours is faster. Ours and the crate's
//! must return the same sum, which must not be 0, the sum of a rejected text.
//!
//! usage: benchmark PASSES SUITE TEXT..             a row for each call: suite, text, call, milliseconds of ours and of the crate's, ratio
//!        benchmark functions SUITE                 the functions of a suite: ours, and the crate's or -, and the call
//!        benchmark once FUNCTION TEXT [BYTES]      one call on the text, or on its front: the sum, by how many bytes the process grew, the
//!                                                text's bytes, the milliseconds
//!
//! If TEXT is a folder, each pass reads its files one after another. In `errors`, the lexical error is at the text's last byte. Each contender's
//! minimum, lower quartile, median and upper quartile go to standard error.

#[path = "../../benchmark_rust/src/layer.rs"]
mod layer;
mod library;
mod measure;
#[cfg(feature = "any")]
mod more;
mod ours;

use layer::layer;
use library::{of_rows, of_tokens};
use measure::{Loop, Pair, Suite, pair, run_words};
use std::process::ExitCode;

layer!(
    wast, theirs: theirs_parse, theirs_parse_whole, theirs_iter, theirs_iter_whole, theirs_counting, theirs_values, theirs_comments,
    theirs_each, theirs_annotated, theirs_cursors, theirs_peeks, theirs_u32s, theirs_ids, theirs_strings, theirs_floats, theirs_groups, theirs_refused, theirs_linecol, theirs_error
);

const PARSE: Option<Loop> = Some(("theirs_parse", theirs::theirs_parse));
const WHOLE: Option<Loop> = Some(("theirs_parse_whole", theirs::theirs_parse_whole));
const COUNTING: Option<Loop> = Some(("theirs_counting", theirs::theirs_counting));
const VALUES: Option<Loop> = Some(("theirs_values", theirs::theirs_values));
const COMMENTS: Option<Loop> = Some(("theirs_comments", theirs::theirs_comments));
const KINDS: Option<Loop> = Some(("theirs_each", theirs::theirs_each));
const U32S: Option<Loop> = Some(("theirs_u32s", theirs::theirs_u32s));
const GROUPS: Option<Loop> = Some(("theirs_groups", theirs::theirs_groups));
const REFUSED: Option<Loop> = Some(("theirs_refused", theirs::theirs_refused));
const LINECOL: Option<Loop> = Some(("theirs_linecol", theirs::theirs_linecol));
const ERROR: Option<Loop> = Some(("theirs_error", theirs::theirs_error));

#[cfg(feature = "any")]
const EACH: Option<Loop> = Some(("theirs_any", more::theirs_any));
#[cfg(not(feature = "any"))]
const EACH: Option<Loop> = None;

const LEXING: &[Pair] = &[
    pair("Lexer::scan", ("measure_scan", ours::scan), PARSE),
    pair("Lexer::parse", ("measure_parse", ours::parse), PARSE),
    pair("Lexer::iter", ("measure_iter", ours::iter), PARSE),
    pair(
        "Lexer::scan, whole",
        ("measure_scan_whole", ours::scan_whole),
        WHOLE,
    ),
    pair(
        "Lexer::parse, whole",
        ("measure_parse_whole", ours::parse_whole),
        WHOLE,
    ),
    pair(
        "Lexer::iter, whole",
        ("measure_iter_whole", ours::iter_whole),
        WHOLE,
    ),
];

// Each suite of a parser has a loop for each of the parser's sources, paired with the crate's loop.
const PARSER: &[Pair] = &[
    pair("ParseBuffer::new", ("measure_buffer", ours::buffer), None),
    pair("Parser::step", ("measure_each", ours::each), EACH),
    pair(
        "LazyBuffer, Parser::step",
        ("measure_lazy_each", ours::lazy_each),
        EACH,
    ),
];

const CURSORS: &[Pair] = &[
    pair(
        "Cursor::keyword and so on",
        ("measure_kinds", ours::kinds),
        KINDS,
    ),
    pair(
        "LazyBuffer, Cursor::keyword and so on",
        ("measure_lazy_kinds", ours::lazy_kinds),
        KINDS,
    ),
];

const SUITES: &[Suite] = &[
    ("lexing", LEXING),
    ("library", &of_tokens(PARSE)),
    ("rows", &of_rows(COUNTING)),
    (
        "readers",
        &[
            pair(
                "Token::string and so on",
                ("measure_values", ours::values),
                VALUES,
            ),
            pair("wat_word, wat_string_of and so on", library::VALUES, VALUES),
            pair("wat_string and so on", library::VALUES_AT, VALUES),
        ],
    ),
    (
        "comments",
        &[
            pair(
                "Token::src of comments",
                ("measure_comments", ours::comments),
                COMMENTS,
            ),
            pair("wat_comment", library::COMMENTS, COMMENTS),
        ],
    ),
    ("parser", PARSER),
    ("kinds", CURSORS),
    (
        "numbers",
        &[
            pair("Parser::parse::<u32>", ("measure_u32s", ours::u32s), U32S),
            pair(
                "LazyBuffer, Parser::parse::<u32>",
                ("measure_lazy_u32s", ours::lazy_u32s),
                U32S,
            ),
            pair("wat_integer_of", library::U32S, U32S),
        ],
    ),
    (
        "groups",
        &[
            pair(
                "LazyBuffer, Parser::parens",
                ("measure_lazy_groups", ours::lazy_groups),
                GROUPS,
            ),
            pair("Parser::parens", ("measure_groups", ours::groups), GROUPS),
        ],
    ),
    (
        "refused",
        &[
            pair(
                "LazyBuffer, parser::parse, refused",
                ("measure_lazy_refused", ours::lazy_refused),
                REFUSED,
            ),
            pair(
                "parser::parse, refused",
                ("measure_refused", ours::refused),
                REFUSED,
            ),
        ],
    ),
    (
        "places",
        &[
            pair(
                "Span::linecol_in",
                ("measure_linecol", ours::linecol),
                LINECOL,
            ),
            pair("wat_line_column", library::LINECOL, LINECOL),
        ],
    ),
    (
        "errors",
        &[
            pair("Error, printed", ("measure_error", ours::error), ERROR),
            pair("wat_fault", library::ERROR, ERROR),
        ],
    ),
];

fn main() -> ExitCode {
    run_words(SUITES)
}
