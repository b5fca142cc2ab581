use crate::error::Error;
use crate::gap::Gap;
use crate::lexer::{is_too_long, too_long};
use crate::marks::{Mark, Marks, STEP, boundary};
use crate::proved::lexer::{Lexer as ProvedLexer, Settings};
use crate::recover::{Pieces, unclosed_comments};
use crate::{Fault, Lexer, Piece, Span, Token};
use alloc::string::String;
use alloc::vec::Vec;
use core::fmt;
use core::ops::Range;
use memchr::memchr_iter;

/// An editable source text with its tokens, lexical errors and lines. After each edit they equal those of lexing the whole text, but only the part
/// around the edit is lexed again.
///
/// ```
/// use wat_lex::{Document, Span};
///
/// let mut document = Document::new("(func $f)\n(func $g)")?;
/// document.replace(6..8, "$\"first\"")?;
/// assert_eq!(document.text(), "(func $\"first\")\n(func $g)");
/// assert_eq!(document.tokens().filter(|token| !token.kind.is_blank()).count(), 8);
/// assert_eq!(document.linecol(Span::from_offset(22)), (1, 6));
///
/// // An open quote covers the rest of its line only.
/// document.replace(13..14, "")?;
/// let fault = document.faults().next().unwrap();
/// assert_eq!(&document.text()[fault.range()], "$\"first)");
/// assert_eq!(document.tokens().last().unwrap().src(document.text()), ")");
/// # Ok::<(), wat_lex::Error>(())
/// ```
///
/// A token depends only on its own characters and on the one after it. So do the bytes that a lexical error covers, except for an unclosed block
/// comment. Therefore the pieces (tokens and errors) that end before an edit are kept. Lexing stops at the first offset after the edit at which an
/// old piece begins, and the pieces from there on are kept with shifted offsets. If a block comment before the edit is unclosed, the rest of the text
/// is searched for its end.
///
/// An edit moves the text after it, and the pieces between it and the previous edit. The type is tested against lexing the whole text; it is not
/// proved.
#[derive(Clone, Default)]
pub struct Document {
    text: String,
    settings: Settings,
    reading: Reading,
    /// Byte offsets of the line feeds.
    feeds: Gap<usize>,
    marks: Marks,
}

/// The range of pieces that an edit replaced. All other pieces are unchanged, except that those after the edit have shifted offsets.
#[derive(Clone, Copy, Debug, PartialEq, Eq, Hash)]
pub struct Change {
    /// Number of pieces before the edit that were kept, which is the index of the first new piece.
    pub first: usize,
    /// Number of pieces that were removed from index `first` on.
    pub removed: usize,
    /// Number of pieces that were inserted at index `first`. Some may be equal to removed ones.
    pub added: usize,
}

impl Document {
    /// Lexes a text, with both of the lexer's settings off.
    ///
    /// # Errors
    ///
    /// Returns an error if the text has more than `u32::MAX` bytes.
    pub fn new(text: &str) -> Result<Document, Error> {
        Document::with_settings(text, Settings::default())
    }

    /// Lexes the text of a lexer with the lexer's settings. The document keeps the settings.
    ///
    /// # Errors
    ///
    /// Returns an error if the text has more than `u32::MAX` bytes.
    pub fn with_lexer(lexer: &Lexer<'_>) -> Result<Document, Error> {
        Document::with_settings(lexer.input(), lexer.proved()?.settings())
    }

    fn with_settings(text: &str, settings: Settings) -> Result<Document, Error> {
        let mut document = Document {
            settings,
            ..Document::default()
        };
        document.replace(0..0, text)?;
        Ok(document)
    }

    /// Returns the text.
    #[must_use]
    pub fn text(&self) -> &str {
        &self.text
    }

    /// Returns the text and drops the pieces.
    #[must_use]
    pub fn into_text(self) -> String {
        self.text
    }

    /// Returns a lexer over the text, with the settings of the document.
    #[must_use]
    pub fn lexer(&self) -> Lexer<'_> {
        let mut lexer = Lexer::new(&self.text);
        lexer.allow_confusing_unicode(self.settings.allow);
        lexer.strict_underscores(self.settings.strict);
        lexer
    }

    /// Replaces a range of bytes of the text, and updates the pieces.
    ///
    /// # Errors
    ///
    /// Returns an error if the new text would have more than `u32::MAX` bytes. The document is unchanged then.
    ///
    /// # Panics
    ///
    /// Panics if the range ends before its start or past the end of the text, or if one of its ends is not a char boundary.
    pub fn replace(&mut self, range: Range<usize>, with: &str) -> Result<Change, Error> {
        assert!(
            self.text.get(range.clone()).is_some(),
            "no characters begin and end there"
        );
        if is_too_long(self.text.len() - range.len() + with.len()) {
            return Err(too_long());
        }
        let before = self.reading.pieces.len();
        self.open(&range);
        self.text.replace_range(range.clone(), with);
        let feeds = memchr_iter(b'\n', with.as_bytes());
        feeds.for_each(|feed| self.feeds.push(range.start + feed));
        self.marks.insert(&self.text, with);
        let first = self.read_on();
        let (after, now) = (self.reading.kept, self.reading.pieces.len());
        Ok(Change {
            first,
            removed: before - first - after,
            added: now - first - after,
        })
    }

    /// Moves the gaps to the edit, and removes the pieces that a change of these bytes may affect and the line feeds and marks among the bytes.
    fn open(&mut self, range: &Range<usize>) {
        let len = self.text.len();
        let is_before = |piece: Piece| piece.end() < range.start;
        self.reading.pieces.move_to(len, is_before);
        self.reading.drop_up_to(range.end, len);
        self.feeds.move_to(len, |feed| feed < range.start);
        self.feeds.drop_while(len, |feed| feed < range.end);
        self.marks.remove(&self.text, range);
    }

    /// Lexes from the gap up to the start of a kept piece, and returns the number of pieces before the gap that were kept.
    fn read_on(&mut self) -> usize {
        let first = self.reading.first_unclosed();
        let unclosed = first.map_or(Vec::new(), |at| unclosed_comments(&self.text, at));
        self.reading.drop_closed(&unclosed);
        let kept = self.reading.pieces.before();
        let (count, end) = (kept.len(), kept.last().map_or(0, Piece::end));
        let lexer = ProvedLexer::with_settings(&self.text, self.settings);
        let rest = Pieces::new(lexer, end, unclosed);
        self.reading.read_on(rest, self.text.len());
        count
    }

    /// Returns the number of pieces.
    #[must_use]
    pub fn piece_count(&self) -> usize {
        self.reading.pieces.len()
    }

    /// Returns the piece at an index, or `None` if there are fewer pieces.
    #[must_use]
    pub fn piece(&self, index: usize) -> Option<Piece> {
        self.reading.pieces.get(index, self.text.len())
    }

    /// Returns the index of the piece that contains the byte at `offset`: the number of pieces that end at or before it. It is the number of all
    /// pieces if `offset` is not inside the text.
    #[must_use]
    pub fn piece_at(&self, offset: usize) -> usize {
        let ends = |piece: Piece| piece.end() <= offset;
        self.reading.pieces.count_first(self.text.len(), ends)
    }

    /// Returns the tokens, and the lexical errors with the bytes that they cover, in source order. Each byte of the text is part of one of them.
    #[must_use]
    pub fn pieces(&self) -> impl DoubleEndedIterator<Item = Piece> + Clone + '_ {
        self.reading.pieces.iter(self.text.len())
    }

    /// Returns the tokens, including whitespace and comments.
    pub fn tokens(&self) -> impl DoubleEndedIterator<Item = Token> + Clone + '_ {
        self.pieces().filter_map(Piece::token)
    }

    /// Returns the lexical errors. The first is the one that [`Lexer::iter`] reports; those after it are found by error recovery.
    pub fn faults(&self) -> impl DoubleEndedIterator<Item = Fault> + Clone + '_ {
        self.pieces().filter_map(Piece::fault)
    }

    /// Returns the number of lines as an editor counts them: the number of line feeds plus 1.
    #[must_use]
    pub fn line_count(&self) -> usize {
        self.feeds.len() + 1
    }

    /// Returns the byte range of a line, counted from 0, without its line feed. Returns `None` if the text has fewer lines.
    #[must_use]
    pub fn line(&self, line: usize) -> Option<Range<usize>> {
        let len = self.text.len();
        let start = match line.checked_sub(1) {
            None => 0,
            Some(before) => self.feeds.get(before, len)? + 1,
        };
        Some(start..self.feeds.get(line, len).unwrap_or(len))
    }

    /// Returns the line and the column of an offset, both from 0, the column in bytes. The result equals that of
    /// [`LineIndex::linecol`](crate::LineIndex::linecol).
    #[must_use]
    pub fn linecol(&self, span: Span) -> (usize, usize) {
        let (offset, len) = (span.offset(), self.text.len());
        if offset > len {
            let is_ended = self.text.is_empty() || self.text.ends_with('\n');
            return (self.feeds.len() + usize::from(!is_ended), 0);
        }
        let line = self.feeds.count_first(len, |feed| feed < offset);
        let start = self.line(line).map_or(0, |line| line.start);
        (line, offset - start)
    }

    /// Returns the line and the column of an offset, both from 0, the column in UTF-16 code units. The result equals that of
    /// [`LineIndex::utf16_linecol`](crate::LineIndex::utf16_linecol). Reads at most 4 KiB of the text.
    #[must_use]
    pub fn utf16_linecol(&self, span: Span) -> (usize, usize) {
        self.linecol_in(span, |mark| mark.units)
    }

    /// Returns the line and the column of an offset, both from 0, the column in characters. The result equals that of
    /// [`LineIndex::char_linecol`](crate::LineIndex::char_linecol). Reads at most 4 KiB of the text.
    #[must_use]
    pub fn char_linecol(&self, span: Span) -> (usize, usize) {
        self.linecol_in(span, |mark| mark.chars)
    }

    fn linecol_in(&self, span: Span, count: impl Fn(Mark) -> usize) -> (usize, usize) {
        let (line, column) = self.linecol(span);
        if column == 0 {
            return (line, 0);
        }
        let offset = span.offset();
        let start = offset - column;
        if column <= STEP {
            let bytes = &self.text.as_bytes()[start..offset];
            return (line, count(Mark::of(bytes)));
        }
        let before = |offset| count(self.marks.at(&self.text, offset));
        (line, before(offset) - before(start))
    }

    /// Returns the offset of a line and a column in bytes, both from 0. A column inside a character is rounded down to its start; a column or line
    /// past the end becomes the end of the line or of the text.
    #[must_use]
    pub fn place(&self, line: usize, column: usize) -> Span {
        let Some(Range { start, end }) = self.line(line) else {
            return Span::from_offset(self.text.len());
        };
        let at = end.min(start.saturating_add(column));
        Span::from_offset(boundary(&self.text, at))
    }

    /// Returns the offset of a line and a column in UTF-16 code units, both from 0, as the language server protocol has them. A column inside a
    /// character is rounded down to its start; a column or line past the end becomes the end of the line or of the text. Reads at most 4 KiB of the
    /// text.
    #[must_use]
    pub fn utf16_place(&self, line: usize, column: usize) -> Span {
        let Some(Range { start, end }) = self.line(line) else {
            return Span::from_offset(self.text.len());
        };
        let first = self.marks.at(&self.text, start);
        let wanted = first.units.saturating_add(column);
        let near = self.marks.last(|mark| mark.units <= wanted);
        let Mark { offset, units, .. } = if near.offset < start { first } else { near };
        let (mut at, mut left) = (offset.min(end), wanted - units);
        for c in self.text[at..end].chars() {
            let Some(rest) = left.checked_sub(c.len_utf16()) else {
                break;
            };
            (at, left) = (at + c.len_utf8(), rest);
        }
        Span::from_offset(at)
    }
}

impl fmt::Debug for Document {
    fn fmt(&self, f: &mut fmt::Formatter<'_>) -> fmt::Result {
        f.debug_struct("Document")
            .field("text", &self.text)
            .field("settings", &self.settings)
            .finish_non_exhaustive()
    }
}

/// The pieces of a text, in a gap buffer whose gap is at the last edit.
#[derive(Clone, Default)]
struct Reading {
    pieces: Gap<Piece>,
    /// Number of pieces that are unclosed block comments.
    unclosed: usize,
    /// Number of pieces after the gap that the last edit kept.
    kept: usize,
}

impl Reading {
    /// Removes the pieces after the gap that begin before byte offset `place`.
    fn drop_up_to(&mut self, place: usize, text_len: usize) {
        while let Some(piece) = self.pieces.first_after(text_len) {
            if piece.offset() >= place {
                return;
            }
            self.unclosed -= usize::from(piece.is_unclosed());
            self.pieces.drop_after();
        }
    }

    /// Returns the offset of the first unclosed block comment before the gap.
    fn first_unclosed(&self) -> Option<usize> {
        if self.unclosed == 0 {
            return None;
        }
        let mut before = self.pieces.before().iter();
        before.find(|piece| piece.is_unclosed()).map(Piece::offset)
    }

    /// Removes pieces before the gap, from the first block comment that was unclosed and is closed now. `unclosed` holds the sorted offsets of the
    /// comments that are unclosed now.
    fn drop_closed(&mut self, unclosed: &[usize]) {
        if self.unclosed == 0 {
            return;
        }
        let before = self.pieces.before();
        let is_closed =
            |piece: &Piece| piece.is_unclosed() && unclosed.binary_search(&piece.offset()).is_err();
        if let Some(count) = before.iter().position(is_closed) {
            let dropped = before[count..].iter();
            self.unclosed -= dropped.filter(|piece| piece.is_unclosed()).count();
            self.pieces.truncate(count);
        }
    }

    /// Appends pieces of `rest` before the gap, until the next one would begin at the offset of the first piece after the gap.
    fn read_on(&mut self, mut rest: Pieces<'_>, text_len: usize) {
        let begins = |next: Option<Piece>, at| next.is_some_and(|next| next.offset() == at);
        loop {
            self.drop_up_to(rest.offset(), text_len);
            self.kept = self.pieces.after_len();
            if begins(self.pieces.first_after(text_len), rest.offset()) {
                return;
            }
            let Some(piece) = rest.next() else { return };
            self.unclosed += usize::from(piece.is_unclosed());
            self.pieces.push(piece);
        }
    }
}
