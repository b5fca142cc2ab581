//! The errors of a document.

use crate::document::OpenDocument;
use serde_json::{Value, json};
use std::ops::Range;
use wat_lex::{Document, Fault};

/// Maximum number of lexical errors that the server sends for a document: the first ones.
pub const MOST_DIAGNOSTICS: usize = 1000;

/// Maximum length in bytes of a text that is compiled after each change, and whose definitions are found. A longer one has lexical errors, semantic
/// tokens, folding ranges and formatting only.
pub const LONGEST_ANALYZED: usize = 1 << 23;

/// Returns the first lexical errors, at most [`MOST_DIAGNOSTICS`]. If there are none, returns the error of the compiler, or that of validation if the
/// text is a module, unless the document is a script or has more than [`LONGEST_ANALYZED`] bytes.
pub fn diagnostics(open: &OpenDocument) -> Value {
    let document = open.document();
    let faults = document.faults().take(MOST_DIAGNOSTICS);
    let lexical = |fault: Fault| diagnostic(open, fault.range(), &fault.to_string());
    let found: Vec<_> = faults.map(lexical).collect();
    if !found.is_empty() || !open.is_compiled() {
        return found.into();
    }
    let error = wat_modules::parse_valid_str(document.text()).err();
    let error = error.map(|error| {
        let range = token_range(document, error.span().offset());
        diagnostic(open, range, &error.message())
    });
    error.into_iter().collect()
}

fn diagnostic(open: &OpenDocument, range: Range<usize>, message: &str) -> Value {
    json!({
        "range": open.range(range),
        "severity": 1,
        "source": "wat",
        "message": message,
    })
}

/// Returns the byte range of the token at an offset. At the end of the text it is the last significant token.
fn token_range(document: &Document, offset: usize) -> Range<usize> {
    if let Some(piece) = document.piece(document.piece_at(offset)) {
        return piece.range();
    }
    let mut tokens = document.tokens().rev();
    let last = tokens.find(|token| !token.kind.is_blank());
    last.map_or(offset..offset, |token| token.range())
}
