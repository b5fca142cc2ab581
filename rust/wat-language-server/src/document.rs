//! An open document: its changes, and the results of requests about it.

use crate::analysis::Analysis;
use crate::diagnostics::LONGEST_ANALYZED;
use serde_json::{Value, json};
use std::ops::Range;
use wat_lex::{Document, Span};

/// Replaces a lone surrogate, which UTF-8 cannot represent. Both are one UTF-16 code unit, so columns stay the same.
const REPLACEMENT: &str = "\u{fffd}";

/// A document that a client has opened.
pub struct OpenDocument {
    document: Document,
    /// `false` if the client's text may differ: if it has lone surrogates, or after a change that was not applied.
    is_exact: bool,
    /// `true` for a script of modules and assertions.
    is_script: bool,
}

/// A position in a document.
#[derive(Clone, Copy, PartialEq, Eq, PartialOrd, Ord)]
struct Position {
    /// Byte offset of a character, or of the end of the text.
    offset: usize,
    /// `true` between the two UTF-16 code units of that character.
    splits_pair: bool,
}

impl OpenDocument {
    /// Opens a document, which is a script or a module. `is_lossy` is `true` if U+FFFD has replaced lone surrogates in the text.
    ///
    /// # Errors
    ///
    /// Returns a message if the text is too long.
    pub fn new(text: &str, is_script: bool, is_lossy: bool) -> Result<OpenDocument, String> {
        let document = Document::new(text).map_err(|error| error.to_string())?;
        Ok(OpenDocument {
            document,
            is_exact: !is_lossy,
            is_script,
        })
    }

    /// Returns the text with its tokens.
    pub fn document(&self) -> &Document {
        &self.document
    }

    /// Returns `true` if the text is compiled: if it is not a script, and has at most [`LONGEST_ANALYZED`] bytes.
    pub fn is_compiled(&self) -> bool {
        !self.is_script && self.document.text().len() <= LONGEST_ANALYZED
    }

    /// Returns the definitions of the text, or `None` if it has more than [`LONGEST_ANALYZED`] bytes.
    pub fn analysis(&self) -> Option<Analysis<'_>> {
        let is_short = self.document.text().len() <= LONGEST_ANALYZED;
        is_short.then(|| Analysis::new(&self.document))
    }

    /// Returns the byte offset of the position in the parameters of a request, or `None` if they have none.
    pub fn offset(&self, params: &Value) -> Option<usize> {
        Some(self.position(&params["position"])?.offset)
    }

    /// Applies the changes of a notification, in order. `is_lossy` is `true` if U+FFFD has replaced lone surrogates in them.
    ///
    /// # Errors
    ///
    /// Returns a message at the first change that is malformed or makes the text too long. The changes before it are applied.
    pub fn apply(&mut self, changes: &[Value], is_lossy: bool) -> Result<(), String> {
        let result = changes.iter().try_for_each(|change| self.change(change));
        self.is_exact &= result.is_ok() && !is_lossy;
        result
    }

    /// Records that a change of the client's text may be missing. The document is not formatted until a change replaces the whole text.
    pub fn lose_change(&mut self) {
        self.is_exact = false;
    }

    /// Applies a change: to its range, or to the whole text if it has no range.
    fn change(&mut self, change: &Value) -> Result<(), String> {
        let text = change["text"].as_str().ok_or("a change without a text")?;
        if !change["range"].is_null() {
            return self.replace(&change["range"], text);
        }
        let all = 0..self.document.text().len();
        let changed = self.document.replace(all, text);
        self.is_exact |= changed.is_ok();
        changed.map(drop).map_err(|error| error.to_string())
    }

    /// Replaces a range of the text, whose positions can be in any order. One half of a surrogate pair stays if the range begins or ends within it.
    fn replace(&mut self, range: &Value, text: &str) -> Result<(), String> {
        let positions = [&range["start"], &range["end"]].map(|it| self.position(it));
        let [Some(one), Some(other)] = positions else {
            return Err("a position that is not two nonnegative integers".to_owned());
        };
        let (start, end) = (one.min(other), one.max(other));
        let half = |splits_pair| if splits_pair { REPLACEMENT } else { "" };
        let text = format!("{}{text}{}", half(start.splits_pair), half(end.splits_pair));
        self.is_exact &= !start.splits_pair && !end.splits_pair;
        let pair = if end.splits_pair {
            '\u{10000}'.len_utf8()
        } else {
            0
        };
        let changed = self
            .document
            .replace(start.offset..end.offset + pair, &text);
        changed.map(drop).map_err(|error| error.to_string())
    }

    /// Returns a position. A column or line past the end becomes the end of the line or of the text. Returns `None` for any other JSON.
    fn position(&self, position: &Value) -> Option<Position> {
        let number = |key: &str| {
            let number = position[key].as_u64()?;
            Some(usize::try_from(number).unwrap_or(usize::MAX))
        };
        let (line, column) = (number("line")?, number("character")?);
        let span = self.document.utf16_place(line, column);
        let next = self.document.text()[span.offset()..].chars().next();
        let is_pair = next.is_some_and(|c| c.len_utf16() == 2);
        Some(Position {
            offset: span.offset(),
            splits_pair: is_pair && self.document.utf16_linecol(span).1 < column,
        })
    }

    /// Returns the range of bytes as the protocol has it.
    pub fn range(&self, bytes: Range<usize>) -> Value {
        let position = |offset| {
            let (line, column) = self.document.utf16_linecol(Span::from_offset(offset));
            json!({ "line": line, "character": column })
        };
        json!({ "start": position(bytes.start), "end": position(bytes.end) })
    }

    /// Returns the edit that formats the document, or `null` if the formatter returns an error or the client's text may differ.
    pub fn formatting(&self, _: &Value) -> Value {
        if !self.is_exact {
            return Value::Null;
        }
        let text = self.document.text();
        wat_format::format(text).map_or(
            Value::Null,
            |formatted| json!([{ "range": self.range(0..text.len()), "newText": formatted }]),
        )
    }
}
