//! Semantic tokens, for colours, and folding ranges.

use crate::document::OpenDocument;
use serde_json::{Value, json};
use wat_lex::{Span, Token, TokenKind};

/// Returns the tokens that have a type.
pub fn semantic_tokens(open: &OpenDocument, _: &Value) -> Value {
    let document = open.document();
    let mut tokens = SemanticTokens::default();
    for piece in document.pieces() {
        let text = &document.text()[piece.range()];
        tokens.add(text, piece.token().and_then(type_of));
    }
    json!({ "data": tokens.data })
}

/// Returns the groups and block comments that span several lines.
pub fn folding_ranges(open: &OpenDocument, _: &Value) -> Value {
    let document = open.document();
    let line = |offset| document.linecol(Span::from_offset(offset)).0;
    let (mut groups, mut ranges) = (Vec::new(), Vec::new());
    for token in document.tokens() {
        let from = match token.kind {
            TokenKind::LParen => {
                groups.push(token.offset);
                continue;
            }
            TokenKind::RParen => groups.pop(),
            TokenKind::BlockComment => Some(token.offset),
            _ => continue,
        };
        let (from, to) = (from.map_or(usize::MAX, line), line(token.end()));
        if from < to {
            ranges.push(json!({ "startLine": from, "endLine": to }));
        }
    }
    ranges.into()
}

/// The types of semantic tokens, in the order of their indices.
pub const TOKEN_TYPES: [&str; 7] = [
    "comment",
    "string",
    "keyword",
    "number",
    "variable",
    "decorator",
    "operator",
];

/// Returns the index of a token's type in [`TOKEN_TYPES`], or `None` for whitespace and parentheses.
fn type_of(token: Token) -> Option<usize> {
    match token.kind {
        TokenKind::LineComment | TokenKind::BlockComment => Some(0),
        TokenKind::String => Some(1),
        TokenKind::Keyword => Some(2),
        TokenKind::Integer(_) | TokenKind::Float(_) => Some(3),
        TokenKind::Id => Some(4),
        TokenKind::Annotation => Some(5),
        TokenKind::Reserved => Some(6),
        TokenKind::Whitespace | TokenKind::LParen | TokenKind::RParen => None,
    }
}

/// The encoding of semantic tokens: five integers for each. A token of several lines is encoded as one per line.
#[derive(Default)]
struct SemanticTokens {
    data: Vec<usize>,
    /// Line and column of the current position in the text.
    at: (usize, usize),
    /// Line and column of the last encoded token, to which the next one is relative.
    last: (usize, usize),
}

impl SemanticTokens {
    /// Advances past a text, and encodes it if it has a type.
    fn add(&mut self, text: &str, type_index: Option<usize>) {
        for (i, line) in text.split('\n').enumerate() {
            self.at = if i > 0 { (self.at.0 + 1, 0) } else { self.at };
            let units = line.encode_utf16().count();
            if let Some(index) = type_index.filter(|_| units > 0) {
                let lines = self.at.0 - self.last.0;
                let column = self.at.1 - if lines > 0 { 0 } else { self.last.1 };
                self.data.extend([lines, column, units, index, 0]);
                self.last = self.at;
            }
            self.at.1 += units;
        }
    }
}
