//! The loops of `library.c` over the C library.

use crate::measure::{Loop, Pair, loops, pair};

loops! {
    fill library_fill,
    token_at library_token_at,
    token_at_inline library_token_at_inline,
    scan library_scan,
    rows library_rows,
    values library_values,
    values_at library_values_at,
    parts library_parts,
    comments library_comments,
    u32s library_u32s,
    f64s library_f64s,
    is_text library_is_text,
    linecol library_linecol,
    error library_error,
}

/// Returns the loops over every token, each paired with a loop of the crate.
pub const fn of_tokens(theirs: Option<Loop>) -> [Pair; 4] {
    [
        pair("wat_fill", ("library_fill", fill), theirs),
        pair("wat_token_at", ("library_token_at", token_at), theirs),
        pair(
            "wat_token_at_inline",
            ("library_token_at_inline", token_at_inline),
            theirs,
        ),
        pair("wat_scan", ("library_scan", scan), theirs),
    ]
}

/// Returns the loop over rows, paired with the crate's loop over the significant tokens, and the loop that validates a text, for which the crate has
/// no counterpart.
#[allow(dead_code)]
pub const fn of_rows(theirs: Option<Loop>) -> [Pair; 2] {
    [
        pair("wat_rows", ("library_rows", rows), theirs),
        pair("wat_is_text", ("library_is_text", is_text), None),
    ]
}

pub const VALUES: Loop = ("library_values", values);
pub const VALUES_AT: Loop = ("library_values_at", values_at);
#[allow(dead_code)]
pub const PARTS: Loop = ("library_parts", parts);
pub const COMMENTS: Loop = ("library_comments", comments);
pub const U32S: Loop = ("library_u32s", u32s);
#[allow(dead_code)]
pub const F64S: Loop = ("library_f64s", f64s);
pub const LINECOL: Loop = ("library_linecol", linecol);
pub const ERROR: Loop = ("library_error", error);
