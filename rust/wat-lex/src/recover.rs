use crate::gap::Placed;
use crate::proved::lexer::{LexFault, Lexer};
use crate::{LexError, Span, Token};
use alloc::vec::Vec;
use core::fmt;
use core::iter::FusedIterator;
use core::ops::Range;

/// A lexical error with the bytes that it covers. Error recovery skips these bytes and continues lexing after them.
///
/// | error | covered bytes |
/// |---|---|
/// | a character that begins no token | that character |
/// | an unclosed block comment | its `(;` only |
/// | a confusing character in a comment | the comment |
/// | an error in a string | the run that contains the string, up to the string's end |
///
/// The string's end is after the next quote in the line that is not escaped by a backslash. Without such a quote it is the end of the line, excluding
/// the line feed. A backslash escapes a quote or a backslash directly after it. This rule is specific to this crate; neither the standard nor `wast`
/// has error recovery. The end of the covered bytes is proved, at [`proved::lexer::Lexer::resume`](crate::proved::lexer::Lexer::resume).
///
/// ```
/// use wat_lex::{LexError, Lexer};
///
/// let lexer = Lexer::new("(data \"a\\q\" $b)");
/// let fault = lexer.fault_at(6).unwrap();
/// assert_eq!(fault.error, LexError::InvalidStringEscape('q'));
/// assert_eq!(fault.span().offset(), 9);
/// assert_eq!(fault.range(), 6..11);
/// ```
#[derive(Clone, Copy, Debug, PartialEq, Eq, Hash)]
pub struct Fault {
    /// Kind of the error.
    pub error: LexError,
    /// Byte offset of the first covered byte, at which a token would begin.
    pub offset: usize,
    /// Number of covered bytes, at least 1.
    pub len: u32,
    /// Distance in bytes from `offset` to the offset at which the error is reported, at most `len`.
    reported: u32,
}

impl Fault {
    /// Creates the error that the lexer reports at an offset at which no token begins.
    // The casts do not truncate: the lexer's text has at most `u32::MAX` bytes.
    fn new(lexer: &Lexer<'_>, offset: usize, fault: LexFault) -> Fault {
        Fault {
            error: fault.error,
            offset,
            len: (lexer.resume(offset, fault) - offset) as u32,
            reported: (fault.offset - offset) as u32,
        }
    }

    /// Creates the error of an unclosed block comment at an offset.
    fn unclosed(offset: usize) -> Fault {
        Fault {
            error: LexError::DanglingBlockComment,
            offset,
            len: 2,
            reported: 0,
        }
    }

    /// Returns the offset at which the error is reported: that of its [`Error`](crate::Error). It is inside the covered bytes, or at their end.
    #[must_use]
    pub fn span(&self) -> Span {
        Span::from_offset(self.offset + self.reported as usize)
    }

    /// Returns the byte offset of the end of the covered bytes.
    #[must_use]
    pub fn end(&self) -> usize {
        self.offset + self.len as usize
    }

    /// Returns the range of the covered bytes in the text.
    #[must_use]
    pub fn range(&self) -> Range<usize> {
        self.offset..self.end()
    }
}

/// Writes the message of the error.
impl fmt::Display for Fault {
    fn fmt(&self, f: &mut fmt::Formatter<'_>) -> fmt::Result {
        self.error.fmt(f)
    }
}

impl core::error::Error for Fault {
    fn source(&self) -> Option<&(dyn core::error::Error + 'static)> {
        Some(&self.error)
    }
}

/// A part of a text: a token, or the bytes that a lexical error covers.
#[derive(Clone, Copy, Debug, PartialEq, Eq, Hash)]
pub enum Piece {
    /// A token; whitespace and comments are tokens too.
    Token(Token),
    /// A lexical error with the bytes that it covers.
    Fault(Fault),
}

impl Piece {
    /// Returns the byte offset of the piece.
    #[must_use]
    pub fn offset(&self) -> usize {
        match self {
            Piece::Token(token) => token.offset,
            Piece::Fault(fault) => fault.offset,
        }
    }

    /// Returns the byte offset of the piece's end.
    #[must_use]
    pub fn end(&self) -> usize {
        match self {
            Piece::Token(token) => token.end(),
            Piece::Fault(fault) => fault.end(),
        }
    }

    /// Returns the byte range of the piece in the text.
    #[must_use]
    pub fn range(&self) -> Range<usize> {
        self.offset()..self.end()
    }

    /// Returns the token, or `None` for a lexical error.
    #[must_use]
    pub fn token(self) -> Option<Token> {
        match self {
            Piece::Token(token) => Some(token),
            Piece::Fault(_) => None,
        }
    }

    /// Returns the lexical error, or `None` for a token.
    #[must_use]
    pub fn fault(self) -> Option<Fault> {
        match self {
            Piece::Token(_) => None,
            Piece::Fault(fault) => Some(fault),
        }
    }

    /// Returns `true` if the piece is the `(;` of an unclosed block comment.
    pub(crate) fn is_unclosed(&self) -> bool {
        matches!(self, Piece::Fault(fault) if fault.error == LexError::DanglingBlockComment)
    }
}

impl Placed for Piece {
    type Length = usize;

    fn mirrored(self, length: usize) -> Piece {
        let offset = length - self.offset();
        match self {
            Piece::Token(token) => Piece::Token(Token { offset, ..token }),
            Piece::Fault(fault) => Piece::Fault(Fault { offset, ..fault }),
        }
    }
}

/// An iterator over the tokens of a text and its lexical errors, with error recovery. Each byte from the start offset on is part of one item.
///
/// Created by [`Lexer::pieces`](crate::Lexer::pieces).
#[must_use = "pieces are read as they are asked for"]
#[derive(Clone)]
pub struct Pieces<'a> {
    lexer: Lexer<'a>,
    pos: usize,
    /// Sorted offsets of the unclosed block comments, from the first that was found. They are collected once, because the lexer would search for the
    /// end of each up to the end of the text.
    unclosed: Vec<usize>,
    /// Number of these offsets that are before `pos`.
    passed: usize,
}

impl<'a> Pieces<'a> {
    /// Creates an iterator from byte offset `pos`, which must be a char boundary of the text. `unclosed` holds the offsets of the block comments that
    /// are known to be unclosed.
    pub(crate) fn new(lexer: Lexer<'a>, pos: usize, unclosed: Vec<usize>) -> Pieces<'a> {
        Pieces {
            lexer,
            pos,
            unclosed,
            passed: 0,
        }
    }

    /// Returns the byte offset of the next piece, or of the end of the text.
    #[must_use]
    pub fn offset(&self) -> usize {
        self.pos
    }

    /// Returns `true` if the next piece is a block comment that is known to be unclosed.
    fn is_unclosed(&mut self) -> bool {
        let is_passed = |at: &usize| *at < self.pos;
        while self.unclosed.get(self.passed).is_some_and(is_passed) {
            self.passed += 1;
        }
        self.unclosed.get(self.passed) == Some(&self.pos)
    }

    #[inline]
    fn piece(&mut self) -> Option<Piece> {
        if self.is_unclosed() {
            return Some(Piece::Fault(Fault::unclosed(self.pos)));
        }
        let piece = piece_at(&self.lexer, self.pos)?;
        if piece.is_unclosed() {
            self.unclosed = unclosed_comments(self.lexer.input(), self.pos);
            self.passed = 0;
        }
        Some(piece)
    }
}

impl Iterator for Pieces<'_> {
    type Item = Piece;

    #[inline]
    fn next(&mut self) -> Option<Piece> {
        let piece = self.piece()?;
        self.pos = piece.end();
        Some(piece)
    }
}

impl FusedIterator for Pieces<'_> {}

impl fmt::Debug for Pieces<'_> {
    fn fmt(&self, f: &mut fmt::Formatter<'_>) -> fmt::Result {
        f.debug_struct("Pieces")
            .field("offset", &self.pos)
            .finish_non_exhaustive()
    }
}

/// Returns the token or lexical error at a char boundary, or `None` at the end of the text.
pub(crate) fn piece_at(lexer: &Lexer<'_>, pos: usize) -> Option<Piece> {
    match lexer.scan(pos) {
        Ok(token) => Some(Piece::Token(token?.into())),
        Err(fault) => Some(Piece::Fault(Fault::new(lexer, pos, fault))),
    }
}

/// Returns the offsets of the unclosed block comments among the `(;` at or after `from`. A `(;` inside a string or a line comment counts too.
// Which `;)` closes a `(;` depends only on the bytes between them, so the result does not depend on how lexing reached `from`.
pub(crate) fn unclosed_comments(text: &str, from: usize) -> Vec<usize> {
    let bytes = text.as_bytes();
    let (mut open, mut at) = (Vec::new(), from);
    while let Some(pair) = bytes.get(at..at + 2) {
        match pair {
            b"(;" => open.push(at),
            b";)" => drop(open.pop()),
            _ => at -= 1,
        }
        at += 2;
    }
    open
}
