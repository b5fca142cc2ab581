//! Benchmarks the Rust crates against the crate `wast`, in one process, like tools/bench/benchmark: `wat-lex` and `wat-parser`, which have the names
//! of `wast` and share its loops, and the proved modules below them.
//!
//! usage: benchmark_rust PASSES SUITE TEXT..         a row for each call: suite, text, call, milliseconds of ours and of the crate's, ratio
//!        benchmark_rust functions SUITE             the functions of a suite: ours, and the crate's or -, and the call
//!        benchmark_rust once FUNCTION TEXT [BYTES]  one call on the text, or on its front

mod layer;
#[path = "../../benchmark/src/library.rs"]
mod library;
#[path = "../../benchmark/src/measure.rs"]
mod measure;
mod proved;

use layer::layer;
use library::{of_rows, of_tokens};
use measure::{Loop, Pair, Suite, pair, run_words};
use std::process::ExitCode;

layer!(
    wast, theirs: theirs_parse, theirs_parse_whole, theirs_iter, theirs_iter_whole, theirs_counting, theirs_values, theirs_comments,
    theirs_each, theirs_annotated, theirs_cursors, theirs_peeks, theirs_u32s, theirs_ids, theirs_strings, theirs_floats, theirs_groups, theirs_refused, theirs_linecol, theirs_error
);
layer!(
    wat_parser, ours: rust_parse, rust_parse_whole, rust_iter, rust_iter_whole, rust_counting, rust_values, rust_comments,
    rust_each, rust_annotated, rust_cursors, rust_peeks, rust_u32s, rust_ids, rust_strings, rust_floats, rust_groups, rust_refused, rust_linecol, rust_error
);

const PARSE: Option<Loop> = Some(("theirs_parse", theirs::theirs_parse));
const WHOLE: Option<Loop> = Some(("theirs_parse_whole", theirs::theirs_parse_whole));
const COUNTING: Option<Loop> = Some(("theirs_counting", theirs::theirs_counting));
const VALUES: Option<Loop> = Some(("theirs_values", theirs::theirs_values));
const EACH: Option<Loop> = Some(("theirs_each", theirs::theirs_each));
const COMMENTS: Option<Loop> = Some(("theirs_comments", theirs::theirs_comments));
const U32S: Option<Loop> = Some(("theirs_u32s", theirs::theirs_u32s));
const ANNOTATED: Option<Loop> = Some(("theirs_annotated", theirs::theirs_annotated));
const CURSORS: Option<Loop> = Some(("theirs_cursors", theirs::theirs_cursors));
const PEEKS: Option<Loop> = Some(("theirs_peeks", theirs::theirs_peeks));
const IDS: Option<Loop> = Some(("theirs_ids", theirs::theirs_ids));
const STRINGS: Option<Loop> = Some(("theirs_strings", theirs::theirs_strings));
const FLOATS: Option<Loop> = Some(("theirs_floats", theirs::theirs_floats));
const GROUPS: Option<Loop> = Some(("theirs_groups", theirs::theirs_groups));
const REFUSED: Option<Loop> = Some(("theirs_refused", theirs::theirs_refused));
const LINECOL: Option<Loop> = Some(("theirs_linecol", theirs::theirs_linecol));
const ERROR: Option<Loop> = Some(("theirs_error", theirs::theirs_error));

// Each call has two callers, like in a program that lexes in two functions: a call with only one caller would be inlined.
const LEXING: &[Pair] = &[
    pair(
        "proved Lexer::scan",
        ("proved_scan", proved::proved_scan),
        PARSE,
    ),
    pair("Lexer::parse", ("rust_parse", ours::rust_parse), PARSE),
    pair("Lexer::iter", ("rust_iter", ours::rust_iter), PARSE),
    pair(
        "proved Lexer::scan, whole",
        ("proved_scan_whole", proved::proved_scan_whole),
        WHOLE,
    ),
    pair(
        "Lexer::parse, whole",
        ("rust_parse_whole", ours::rust_parse_whole),
        WHOLE,
    ),
    pair(
        "Lexer::iter, whole",
        ("rust_iter_whole", ours::rust_iter_whole),
        WHOLE,
    ),
];

// Each suite of a parser pairs its loops with the crate's loop.
const SUITES: &[Suite] = &[
    ("lexing", LEXING),
    ("library", &of_tokens(PARSE)),
    ("rows", &of_rows(COUNTING)),
    (
        "readers",
        &[
            pair(
                "Token::string and so on",
                ("rust_values", ours::rust_values),
                VALUES,
            ),
            pair("wat_word, wat_string_of and so on", library::VALUES, VALUES),
            pair("wat_string and so on", library::VALUES_AT, VALUES),
            pair("wat_word, wat_float_parts and so on", library::PARTS, VALUES),
        ],
    ),
    (
        "comments",
        &[
            pair(
                "Token::src of comments",
                ("rust_comments", ours::rust_comments),
                COMMENTS,
            ),
            pair("wat_comment", library::COMMENTS, COMMENTS),
        ],
    ),
    (
        "parser",
        &[pair("Parser::step", ("rust_each", ours::rust_each), EACH)],
    ),
    (
        "annotations",
        &[pair(
            "Cursor::annotation",
            ("rust_annotated", ours::rust_annotated),
            ANNOTATED,
        )],
    ),
    (
        "cursors",
        &[pair(
            "Cursor::comment",
            ("rust_cursors", ours::rust_cursors),
            CURSORS,
        )],
    ),
    (
        "peeks",
        &[pair(
            "Parser::peek, peek2, peek3",
            ("rust_peeks", ours::rust_peeks),
            PEEKS,
        )],
    ),
    (
        "numbers",
        &[
            pair("Parser::parse::<u32>", ("rust_u32s", ours::rust_u32s), U32S),
            pair(
                "proved Parser::parse::<u32>",
                ("proved_u32s", proved::proved_u32s),
                U32S,
            ),
            pair("wat_integer_of", library::U32S, U32S),
        ],
    ),
    (
        "ids",
        &[pair(
            "Parser::parse::<Id>",
            ("rust_ids", ours::rust_ids),
            IDS,
        )],
    ),
    (
        "strings",
        &[pair(
            "Parser::parse::<&[u8]>",
            ("rust_strings", ours::rust_strings),
            STRINGS,
        )],
    ),
    (
        "floats",
        &[
            pair(
                "Parser::parse::<F64>",
                ("rust_floats", ours::rust_floats),
                FLOATS,
            ),
            pair("wat_f64_of", library::F64S, FLOATS),
        ],
    ),
    (
        "groups",
        &[
            pair("Parser::parens", ("rust_groups", ours::rust_groups), GROUPS),
            pair(
                "proved Parser::parens",
                ("proved_groups", proved::proved_groups),
                GROUPS,
            ),
        ],
    ),
    (
        "refused",
        &[pair(
            "parser::parse, refused",
            ("rust_refused", ours::rust_refused),
            REFUSED,
        )],
    ),
    (
        "places",
        &[
            pair(
                "Span::linecol_in",
                ("rust_linecol", ours::rust_linecol),
                LINECOL,
            ),
            pair("wat_line_column", library::LINECOL, LINECOL),
        ],
    ),
    (
        "errors",
        &[
            pair("Error, printed", ("rust_error", ours::rust_error), ERROR),
            pair("wat_fault", library::ERROR, ERROR),
        ],
    ),
];

fn main() -> ExitCode {
    run_words(SUITES)
}
