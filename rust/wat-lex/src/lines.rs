use crate::Span;
use crate::proved;
use crate::shim::alloc::{Global, granted};
use core::fmt;

/// An index of the lines of a text, for converting many offsets. Each conversion is a binary search, while [`Span::linecol_in`] reads the text up to
/// the offset. The index stores a `usize` per line, and one per 64 KiB of the text if a line is longer than 64 KiB. `wast` has no such type.
///
/// Lines and columns count from 0, and a line ends at a line feed. Past the end of the text the line is the number of lines, and the column is 0.
///
/// ```
/// use wat_lex::{LineIndex, Span};
///
/// let text = "(a\n  \u{1f600} \u{e9} b)";
/// let lines = LineIndex::new(text);
/// let place = Span::from_offset(text.find('b').unwrap());
/// assert_eq!(lines.linecol(place), (1, 10));
/// assert_eq!(lines.utf16_linecol(place), (1, 7));
/// assert_eq!(lines.char_linecol(place), (1, 6));
/// ```
pub struct LineIndex<'a> {
    text: &'a str,
    proved: proved::token::LineIndex<'a>,
}

impl<'a> LineIndex<'a> {
    /// Builds the index of a text.
    #[must_use]
    pub fn new(text: &'a str) -> LineIndex<'a> {
        LineIndex {
            text,
            proved: granted(proved::token::LineIndex::new(Global, text)),
        }
    }

    /// Returns the line and the column of an offset, the column in bytes. The result equals that of [`Span::linecol_in`].
    #[must_use]
    pub fn linecol(&self, span: Span) -> (usize, usize) {
        self.proved.linecol(span)
    }

    /// Returns the line and the column of an offset, the column in UTF-16 code units, as in editors and the language server protocol. The column
    /// counts the characters of the line that begin before the offset. Reads at most 128 KiB of the text.
    #[must_use]
    pub fn utf16_linecol(&self, span: Span) -> (usize, usize) {
        self.proved.utf16_linecol(span)
    }

    /// Returns the line and the column of an offset, the column in characters, as in the language server protocol with UTF-32. The column counts the
    /// characters of the line that begin before the offset. Reads the line up to the offset.
    #[must_use]
    pub fn char_linecol(&self, span: Span) -> (usize, usize) {
        let (line, column) = self.linecol(span);
        let before = span.offset() - column..span.offset();
        (line, self.text.as_bytes().get(before).map_or(0, chars))
    }
}

/// Returns the number of characters that begin in a part of a text.
pub(crate) fn chars(bytes: &[u8]) -> usize {
    let begins = |byte: &&u8| **byte & 0b1100_0000 != 0b1000_0000;
    bytes.iter().filter(begins).count()
}

impl fmt::Debug for LineIndex<'_> {
    fn fmt(&self, f: &mut fmt::Formatter<'_>) -> fmt::Result {
        f.debug_struct("LineIndex")
            .field("text", &self.text)
            .finish_non_exhaustive()
    }
}
