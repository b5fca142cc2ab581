use super::Result;
use super::annotations::Registry;
use super::strings::Strings;
use crate::Error;
use crate::lexer::Lexer;
use crate::proved;
use crate::proved::lexer::Token;
use crate::proved::parser::fault::Fault;
use crate::proved::parser::source_ref::SourceRef;
use crate::proved::parser::text_ref::{Row, TextRef};
use crate::token::Span;
use alloc::collections::BTreeMap;
use alloc::vec::Vec;
use core::cell::{Cell, OnceCell, RefCell};
use core::{fmt, slice};
use wat_lex::TokenKind;
use wat_lex::shim::alloc::Global;

/// A source text for one parser, which lexes it on demand, some tokens at a time. Creating it does not allocate.
pub struct ParseBuffer<'a> {
    pub(super) lexer: proved::lexer::Lexer<'a>,
    pub(super) track: bool,
    // The rest of the verified parser's state is in cells, so that all copies of a `Parser` share it.
    pub(super) position: Cell<Position>,
    pub(super) depth: Cell<usize>,
    /// The registered names, which are initialized by the first peek that needs them.
    names: OnceCell<Registry>,
    /// Rows by slot. They are initialized when the second token is read, so that little is done for a text that is rejected at its first one.
    rows: OnceCell<[Cell<Row>; ROWS]>,
    /// The row of slot 0 before that.
    first: Cell<Row>,
    /// Offset at which the last fill stopped, where no row is.
    bare: Cell<usize>,
    last: Cell<Option<Peeked>>,
    kept: RefCell<Option<Kept>>,
    keep_shown: bool,
    pub(super) strings: Strings,
}

/// Number of rows in a buffer. The rows just before a position are kept, for parsers that go back.
const ROWS: usize = 64;

/// Maximum number of rows that are filled at a time.
const FILLED: usize = 32;

/// Returns a row that matches no position in its slot. A position in slot 0 is at byte 0 or at least `ROWS` bytes further, as each move advances by
/// at least one byte. A position in another slot is never at byte 0.
// A kept token is not at byte 1 either while row 0 is unchanged: the `(` of an annotation would precede it, and the annotation's name has a row.
// The bits of most rows are zero, so that they are initialized faster.
const fn no_row(slot: usize) -> Row {
    Row {
        offset: 0,
        len: 0,
        kind: TokenKind::LineComment,
        from: (slot == 0) as u32,
    }
}

/// The result of a peek at an offset that has no row: before an annotation, at the end of the text, or at an error. It is valid for the names that
/// were registered at the time of the peek.
#[derive(Clone, Copy)]
struct Peeked {
    byte: usize,
    found: Result<Option<Token>, Fault>,
}

/// A position of a parser or a cursor, packed into 64 bits. The low half is the end offset of the preceding token. The high half is the slot of its
/// row, or `KEPT` plus the index of the kept token.
// It is one integer, as a processor cannot load 64 bits at once that were just stored as two halves.
#[derive(Clone, Copy)]
pub(super) struct Position(u64);

/// The bit that marks a position with a kept token.
const KEPT: usize = 0x8000_0000;

impl Position {
    #[inline(always)]
    fn new(byte: usize, slot: usize) -> Position {
        Position(byte as u64 | (slot as u64) << 32)
    }

    #[inline(always)]
    pub(super) fn byte(self) -> usize {
        self.0 as u32 as usize
    }

    #[inline(always)]
    fn slot(self) -> usize {
        (self.0 >> 32) as usize % ROWS
    }

    /// Returns the index of the kept token, if the position has one.
    fn kept(self) -> Option<usize> {
        ((self.0 >> 32) as usize).checked_sub(KEPT)
    }

    /// Returns the position after a move that ends at offset `byte`.
    #[inline(always)]
    pub(super) fn next(self, byte: usize) -> Position {
        Position::new(byte, (self.slot() + 1) % ROWS)
    }
}

impl<'a> ParseBuffer<'a> {
    /// Creates a buffer for a source text. A lexical error is not reported here, but when a peek reaches it.
    ///
    /// # Errors
    ///
    /// Returns an error if the text has more than `u32::MAX` bytes.
    #[inline]
    pub fn new(input: &'a str) -> Result<ParseBuffer<'a>> {
        ParseBuffer::new_with_lexer(Lexer::new(input))
    }

    /// Creates a buffer for the text of a lexer, with the lexer's settings.
    ///
    /// # Errors
    ///
    /// Returns an error if the text has more than `u32::MAX` bytes.
    #[inline]
    pub fn new_with_lexer(lexer: Lexer<'a>) -> Result<ParseBuffer<'a>> {
        Ok(ParseBuffer {
            lexer: lexer.proved()?.clone(),
            track: false,
            position: Cell::new(Position::new(0, 0)),
            rows: OnceCell::new(),
            first: Cell::new(no_row(0)),
            bare: Cell::new(usize::MAX),
            last: Cell::new(None),
            kept: RefCell::default(),
            depth: Cell::new(0),
            names: OnceCell::new(),
            keep_shown: false,
            strings: Strings::default(),
        })
    }

    /// Sets the value that [`Parser::track_instr_spans`](super::Parser::track_instr_spans) returns. Types that record offsets of instructions only on
    /// request check it.
    pub fn track_instr_spans(&mut self, track: bool) -> &mut Self {
        self.track = track;
        self
    }

    /// Sets whether a token that was visible when the parser last moved stays visible, even if names are registered or unregistered after the move.
    /// This is the behavior of `wast`. If it is off, which is the default, visibility depends on the names that are registered at the time of the
    /// peek.
    ///
    /// The verified buffer has no such setting. Turn it on if every result must be the same as that of `wast`.
    pub fn keep_shown(&mut self, keep: bool) -> &mut Self {
        self.keep_shown = keep;
        self
    }

    /// Returns the row in the slot of a position, and `true` if it belongs to the position. Its token is then visible there under every set of names.
    // A row depends only on its byte offset, so it is valid regardless of when it was written. It is not an `Option`, as that would be one more case
    // to test.
    #[inline(always)]
    pub(super) fn row_at(&self, position: Position) -> (Row, bool) {
        let Some(rows) = self.rows.get() else {
            return (no_row(0), false);
        };
        let row = rows[position.slot()].get();
        (row, row.from as usize == position.byte())
    }

    /// Returns the cells of the rows from a position on.
    fn cells_from(&self, position: Position) -> &[Cell<Row>] {
        if position.byte() == 0 && self.rows.get().is_none() {
            return slice::from_ref(&self.first);
        }
        let rows = self.rows.get_or_init(|| {
            let rows = [const { Cell::new(no_row(1)) }; ROWS];
            rows[0].set(self.first.get());
            rows
        });
        &rows[position.slot()..]
    }

    /// Fills rows from a position on, and returns the token of the position, or `None` if it has no row.
    #[inline(never)]
    fn filled_at(&self, position: Position) -> Option<Token> {
        let byte = position.byte();
        if byte == self.bare.get() {
            return None;
        }
        match self.cells_from(position) {
            one @ [_] => self.fill::<1>(byte, one),
            cells => self.fill::<FILLED>(byte, cells),
        }
    }

    /// Fills up to `N` of the cells with the rows from an offset on, and returns the first token.
    #[inline(always)]
    fn fill<const N: usize>(&self, byte: usize, cells: &[Cell<Row>]) -> Option<Token> {
        let mut rows = [no_row(1); N];
        let room = N.min(cells.len());
        let filled = self.text_from(byte).fill(0, 0, &mut rows[..room]);
        let rows = &mut rows[..filled];
        move_rows(rows, byte as u32);
        if filled < room {
            let end = |row: &Row| (row.offset + row.len) as usize;
            self.bare.set(rows.last().map_or(byte, end));
        }
        for (cell, row) in cells.iter().zip(&*rows) {
            cell.set(*row);
        }
        (filled > 0).then(|| token_of(cells[0].get()))
    }

    /// Returns the token that is visible at a position without a row under the registered names.
    pub(super) fn shown_at(&self, position: Position) -> Result<Option<Token>, Fault> {
        let byte = position.byte();
        if byte == 0 && self.first.get().from == 0 {
            return Ok(Some(token_of(self.first.get())));
        }
        self.unregister_pending();
        match self.last.get() {
            Some(last) if last.byte == byte => return last.found,
            _ => {}
        }
        if let Some(shown) = self.filled_at(position) {
            return Ok(Some(shown));
        }
        let found = self.peeked_at(byte);
        self.last.set(Some(Peeked { byte, found }));
        found
    }

    /// Returns the token that is visible at an offset under the registered names.
    fn peeked_at(&self, byte: usize) -> Result<Option<Token>, Fault> {
        let names = self.registry().names();
        moved(byte, self.text_from(byte).look(0, 0, &names))
    }

    /// Unregisters the name whose unregistration is pending.
    #[inline(always)]
    fn unregister_pending(&self) {
        if let Some(names) = self.names.get().filter(|names| names.is_pending()) {
            names.unregister_pending();
            self.note_change(true);
        }
    }

    /// Drops the result of the last peek if the registered names were changed, as it may be another one under the new names.
    pub(super) fn note_change(&self, is_changed: bool) {
        if is_changed {
            self.last.set(None);
        }
    }

    /// Returns the registered names.
    pub(super) fn registry(&self) -> &Registry {
        self.names.get_or_init(Registry::default)
    }

    /// Returns the comment at a byte offset, or after whitespace there.
    pub(super) fn comment_at(&self, byte: usize) -> Result<Option<Token>, Fault> {
        moved(byte, self.text_from(byte).comment_at(0, 0))
    }

    /// Returns the position after a move that ends at offset `byte`, and keeps the token that is visible there if `keep_shown` is on.
    #[inline(always)]
    pub(super) fn position_after(&self, position: Position, byte: usize) -> Position {
        let position = position.next(byte);
        if self.keep_shown {
            return self.keeping(position);
        }
        position
    }

    /// Returns the position, and keeps the token that is visible there under the registered names. No token is kept if a row has it.
    #[cold]
    #[inline(never)]
    fn keeping(&self, position: Position) -> Position {
        if self.row_at(position).1 {
            return position;
        }
        match self.shown_at(position) {
            Ok(Some(shown)) if !self.row_at(position).1 => {
                let index = self.kept.borrow_mut().get_or_insert_default().index(shown);
                Position::new(position.byte(), KEPT + index)
            }
            _ => position,
        }
    }

    /// Returns the kept token of a position, if it has one.
    pub(super) fn kept_at(&self, position: Position) -> Option<Token> {
        let index = position.kept()?;
        let kept = self.kept.borrow();
        Some(kept.as_ref()?.tokens[index])
    }

    /// Returns the text from the end of a token, or from the start. A theorem (`Cuts`) states that this suffix has the same tokens as the whole text,
    /// so a parser need not count tokens.
    #[inline(always)]
    pub(super) fn text_from(&self, byte: usize) -> TextRef<'a> {
        let text = &self.lexer.input()[byte..];
        TextRef::new(text, self.lexer.settings(), false, Global)
    }

    /// Converts a lexical error to an [`Error`].
    #[cold]
    pub(super) fn error_of(&self, fault: Fault) -> Error {
        SourceRef::of_text(self.text_from(0)).error_of(fault).into()
    }

    /// Creates an error at an offset.
    #[cold]
    pub(super) fn error_at(&self, span: Span, message: &'static str) -> Error {
        Error::in_text(span, self.lexer.input(), message)
    }
}

/// Kept tokens, which stay visible regardless of the registered names. Each is stored once, however often a cursor reaches it.
#[derive(Default)]
struct Kept {
    tokens: Vec<Token>,
    /// Index of each token, by its offset.
    indices: BTreeMap<usize, usize>,
}

impl Kept {
    /// Returns the index of a token, which is stored if it is not yet.
    fn index(&mut self, token: Token) -> usize {
        let Kept { tokens, indices } = self;
        *indices.entry(token.offset).or_insert_with(|| {
            tokens.push(token);
            tokens.len() - 1
        })
    }
}

/// Converts offsets in the text from offset `byte` on to offsets in the whole text.
// A loop of its own, so that the rows are then copied as a whole.
fn move_rows(rows: &mut [Row], byte: u32) {
    for row in rows {
        row.offset += byte;
        row.from += byte;
    }
}

/// Returns the token of a row.
#[inline(always)]
pub(super) fn token_of(row: Row) -> Token {
    Token {
        offset: row.offset as usize,
        len: row.len,
        kind: row.kind,
    }
}

/// Converts the result of a peek in the text from offset `byte` on to offsets in the whole text.
fn moved(
    byte: usize,
    found: Result<Option<(Token, usize)>, Fault>,
) -> Result<Option<Token>, Fault> {
    let offset = |offset| offset + byte;
    let fault = |fault: Fault| Fault {
        offset: offset(fault.offset),
        ..fault
    };
    let token = |(token, _): (Token, usize)| Token {
        offset: offset(token.offset),
        ..token
    };
    found.map(|found| found.map(token)).map_err(fault)
}

impl fmt::Debug for ParseBuffer<'_> {
    fn fmt(&self, f: &mut fmt::Formatter<'_>) -> fmt::Result {
        f.debug_struct("ParseBuffer").finish_non_exhaustive()
    }
}
