use super::buffer::{Position, token_of};
use super::{Parser, Result, unless_refused};
use crate::Error;
use crate::lexer::{Float, Integer};
use crate::proved::lexer::Token;
use crate::token::Span;
use core::fmt;
use wat_lex::shim::alloc::Global;
use wat_lex::shim::borrow::{CowSlice, CowStr};
use wat_lex::{IntegerKind, TokenKind};

/// A position in the tokens of a parser, independent of the parser's own. [`Parser::step`] passes a cursor to a function, and advances the parser to
/// the cursor that the function returns.
///
/// A method that consumes a token returns it with the cursor after it, or `None` if the next token is of another kind or the text ends. The next
/// token is the first visible one: whitespace, comments, and groups of unregistered annotations are skipped.
#[derive(Clone, Copy)]
pub struct Cursor<'a> {
    pub(super) parser: Parser<'a>,
    pub(super) position: Position,
}

impl fmt::Debug for Cursor<'_> {
    fn fmt(&self, f: &mut fmt::Formatter<'_>) -> fmt::Result {
        f.debug_struct("Cursor")
            .field("offset", &self.position.byte())
            .finish_non_exhaustive()
    }
}

impl<'a> Cursor<'a> {
    #[inline(always)]
    pub(crate) fn text(&self) -> &'a str {
        self.parser.buffer.lexer.input()
    }

    /// Applies a function to the next token. Returns `none` at the end of the text.
    #[inline(always)]
    pub(super) fn with_next<T>(self, none: T, of: impl Fn(Token) -> T) -> Result<T> {
        let (row, known) = self.parser.buffer.row_at(self.position);
        if known {
            return Ok(of(token_of(row)));
        }
        Ok(self.look()?.map_or(none, of))
    }

    /// Returns the next token, or `None` at the end of the text.
    #[cold]
    #[inline(never)]
    pub(super) fn look(self) -> Result<Option<Token>> {
        let (buffer, position) = (self.parser.buffer, self.position);
        if let Some(kept) = buffer.kept_at(position) {
            return Ok(Some(kept));
        }
        let shown = buffer.shown_at(position);
        shown.map_err(|fault| buffer.error_of(fault))
    }

    /// Consumes the next token if its kind satisfies the predicate.
    #[inline(always)]
    fn take(self, is: impl Fn(TokenKind) -> bool) -> Result<Option<(Token, Self)>> {
        self.take_as(|token| is(token.kind).then_some(token))
    }

    /// Consumes the next token if `of` returns a value for it.
    // Precondition of the verified accessors: the token is part of the text, and `of` checks its kind.
    #[inline(always)]
    fn take_as<T>(self, of: impl Fn(Token) -> Option<T>) -> Result<Option<(T, Self)>> {
        let (row, known) = self.parser.buffer.row_at(self.position);
        if known {
            let token = token_of(row);
            return Ok(of(token).map(|taken| (taken, self.moved(token))));
        }
        let Some(token) = self.look()? else {
            return Ok(None);
        };
        Ok(of(token).map(|taken| (taken, self.moved(token))))
    }

    /// Returns the cursor after a token.
    #[inline(always)]
    fn moved(self, token: Token) -> Self {
        let end = token.offset + token.len as usize;
        let position = self.parser.buffer.position_after(self.position, end);
        Cursor { position, ..self }
    }

    /// Consumes the next token, whatever its kind.
    #[inline]
    pub(super) fn past_any(self) -> Result<Option<Self>> {
        self.with_next(None, |token| Some(self.moved(token)))
    }

    /// Consumes an integer and returns its token.
    // Precondition of the verified accessors: the token is part of the text, and `kind` is its kind.
    #[inline(always)]
    pub(crate) fn integer_token(self) -> Result<Option<((Token, IntegerKind), Self)>> {
        self.take_as(|token| match token.kind {
            TokenKind::Integer(kind) => Some((token, kind)),
            _ => None,
        })
    }

    /// Consumes a float or an integer and returns its lexeme.
    #[inline(always)]
    pub(crate) fn number(self) -> Result<Option<(&'a str, Self)>> {
        let number = |kind| matches!(kind, TokenKind::Float(_) | TokenKind::Integer(_));
        let taken = self.take(number)?;
        Ok(taken.map(|(token, rest)| (token.src(self.text()), rest)))
    }

    /// Returns `true` if the next token is this keyword.
    #[doc(hidden)]
    #[inline(always)]
    pub fn is_keyword(self, word: &str) -> Result<bool> {
        let text = self.text();
        self.with_next(false, |token| is_keyword(text, token, word))
    }

    /// Returns `true` if the next token is this reserved token.
    #[doc(hidden)]
    pub fn is_reserved(self, word: &str) -> Result<bool> {
        Ok(self.reserved()?.is_some_and(|(shown, _)| shown == word))
    }

    /// Returns `true` if the next token is an annotation with this name.
    #[doc(hidden)]
    #[inline(always)]
    pub fn is_annotation(self, name: &str) -> Result<bool> {
        self.with_next(Ok(false), |token| match token.kind {
            TokenKind::Annotation => self.has_name(token, name),
            _ => Ok(false),
        })?
    }

    // `inline(never)`, on this function and on `name`, keeps the common path of `is_annotation` small.
    #[inline(never)]
    fn has_name(self, token: Token, name: &str) -> Result<bool> {
        if token.name_fault(self.text()).is_some() {
            self.name(token)?;
        }
        Ok(token.has_name(self.text(), name))
    }

    /// Returns the offset of the next token, or of the end of the text if no token is left. If lexing the next token fails, returns the end offset of
    /// the preceding token.
    #[must_use]
    #[inline]
    pub fn cur_span(&self) -> Span {
        let offset = self.with_next(self.text().len(), |token| token.offset);
        Span::from_offset(offset.unwrap_or(self.position.byte()))
    }

    /// Creates an error at the next token.
    #[must_use]
    #[cold]
    pub fn error(&self, message: impl fmt::Display) -> Error {
        self.parser.error_at(self.cur_span(), message)
    }

    /// Returns `true` if the next token is a `(`.
    ///
    /// # Errors
    ///
    /// Returns an error if lexing the next token fails.
    #[inline]
    pub fn peek_lparen(self) -> Result<bool> {
        self.with_next(false, |token| matches!(token.kind, TokenKind::LParen))
    }

    /// Returns `true` if the next token is a `)`.
    ///
    /// # Errors
    ///
    /// Returns an error if lexing the next token fails.
    #[inline]
    pub fn peek_rparen(self) -> Result<bool> {
        self.with_next(false, |token| matches!(token.kind, TokenKind::RParen))
    }

    /// Returns `true` if the next token is an identifier, even if its name is empty or not UTF-8.
    ///
    /// # Errors
    ///
    /// Returns an error if lexing the next token fails.
    #[inline]
    pub fn peek_id(self) -> Result<bool> {
        self.with_next(false, |token| matches!(token.kind, TokenKind::Id))
    }

    /// Returns `true` if the next token is a reserved token.
    ///
    /// # Errors
    ///
    /// Returns an error if lexing the next token fails.
    #[inline]
    pub fn peek_reserved(self) -> Result<bool> {
        self.with_next(false, |token| matches!(token.kind, TokenKind::Reserved))
    }

    /// Returns `true` if the next token is a keyword.
    ///
    /// # Errors
    ///
    /// Returns an error if lexing the next token fails.
    #[inline]
    pub fn peek_keyword(self) -> Result<bool> {
        self.with_next(false, |token| matches!(token.kind, TokenKind::Keyword))
    }

    /// Returns `true` if the next token is an integer.
    ///
    /// # Errors
    ///
    /// Returns an error if lexing the next token fails.
    #[inline]
    pub fn peek_integer(self) -> Result<bool> {
        self.with_next(false, |token| matches!(token.kind, TokenKind::Integer(_)))
    }

    /// Returns `true` if the next token is a floating-point number. An integer is not a floating-point number.
    ///
    /// # Errors
    ///
    /// Returns an error if lexing the next token fails.
    #[inline]
    pub fn peek_float(self) -> Result<bool> {
        self.with_next(false, |token| matches!(token.kind, TokenKind::Float(_)))
    }

    /// Returns `true` if the next token is a string.
    ///
    /// # Errors
    ///
    /// Returns an error if lexing the next token fails.
    #[inline]
    pub fn peek_string(self) -> Result<bool> {
        self.with_next(false, |token| matches!(token.kind, TokenKind::String))
    }

    /// Consumes a `(`.
    ///
    /// # Errors
    ///
    /// Returns an error if lexing the next token fails.
    #[inline]
    pub fn lparen(self) -> Result<Option<Self>> {
        let taken = self.take(|kind| matches!(kind, TokenKind::LParen))?;
        Ok(taken.map(|(_, rest)| rest))
    }

    /// Consumes a `)`.
    ///
    /// # Errors
    ///
    /// Returns an error if lexing the next token fails.
    #[inline]
    pub fn rparen(self) -> Result<Option<Self>> {
        let taken = self.take(|kind| matches!(kind, TokenKind::RParen))?;
        Ok(taken.map(|(_, rest)| rest))
    }

    /// Consumes an identifier and returns its name, without the `$`.
    ///
    /// # Errors
    ///
    /// Returns an error if lexing the next token fails, if the name is empty or not UTF-8, or if an allocation fails.
    #[inline]
    pub fn id(self) -> Result<Option<(&'a str, Self)>> {
        self.take_name(|kind| matches!(kind, TokenKind::Id))
    }

    /// Consumes a keyword and returns its lexeme.
    ///
    /// # Errors
    ///
    /// Returns an error if lexing the next token fails.
    #[inline(always)]
    pub fn keyword(self) -> Result<Option<(&'a str, Self)>> {
        let text = self.text();
        self.take_as(|token| matches!(token.kind, TokenKind::Keyword).then(|| token.keyword(text)))
    }

    /// Consumes an annotation and returns its name, without the `@`.
    ///
    /// # Errors
    ///
    /// Returns an error if lexing the next token fails, if the name is empty or not UTF-8, or if an allocation fails.
    #[inline]
    pub fn annotation(self) -> Result<Option<(&'a str, Self)>> {
        self.take_name(|kind| matches!(kind, TokenKind::Annotation))
    }

    #[inline(always)]
    fn take_name(self, is: impl Fn(TokenKind) -> bool) -> Result<Option<(&'a str, Self)>> {
        match self.take(is)? {
            Some((token, rest)) => Ok(Some((self.name(token)?, rest))),
            None => Ok(None),
        }
    }

    /// Returns the name of an identifier or an annotation. If it is not a slice of the text, it is stored for the lifetime of the buffer.
    #[inline(never)]
    fn name(&self, token: Token) -> Result<&'a str> {
        let name = match token.kind {
            TokenKind::Id => token.id(Global, self.text())?,
            _ => token.annotation(Global, self.text())?,
        };
        match name {
            CowStr::Borrowed(name) => Ok(name),
            CowStr::Owned(name) => unless_refused(self.parser.buffer.strings.keep_text(&name)),
        }
    }

    /// Consumes a reserved token and returns its lexeme.
    ///
    /// # Errors
    ///
    /// Returns an error if lexing the next token fails.
    pub fn reserved(self) -> Result<Option<(&'a str, Self)>> {
        let text = self.text();
        self.take_as(|token| {
            matches!(token.kind, TokenKind::Reserved).then(|| token.reserved(text))
        })
    }

    /// Consumes an integer and returns its sign and digits.
    ///
    /// # Errors
    ///
    /// Returns an error if lexing the next token fails, or if an allocation fails.
    pub fn integer(self) -> Result<Option<(Integer<'a>, Self)>> {
        let Some(((token, kind), rest)) = self.integer_token()? else {
            return Ok(None);
        };
        let integer = unless_refused(token.integer(Global, self.text(), kind))?;
        Ok(Some((integer, rest)))
    }

    /// Consumes a floating-point number and returns its parts.
    ///
    /// # Errors
    ///
    /// Returns an error if lexing the next token fails, or if an allocation fails.
    pub fn float(self) -> Result<Option<(Float<'a>, Self)>> {
        let float = self.take_as(|token| match token.kind {
            TokenKind::Float(kind) => Some((token, kind)),
            _ => None,
        });
        let Some(((token, kind), rest)) = float? else {
            return Ok(None);
        };
        let float = unless_refused(token.float(Global, self.text(), kind))?;
        Ok(Some((float.into(), rest)))
    }

    /// Consumes a string and returns its value.
    ///
    /// # Errors
    ///
    /// Returns an error if lexing the next token fails, or if an allocation fails.
    pub fn string(self) -> Result<Option<(&'a [u8], Self)>> {
        let Some((token, rest)) = self.take(|kind| matches!(kind, TokenKind::String))? else {
            return Ok(None);
        };
        let bytes = match unless_refused(token.string(Global, self.text()))? {
            CowSlice::Borrowed(bytes) => bytes,
            CowSlice::Owned(bytes) => unless_refused(self.parser.buffer.strings.keep(&bytes))?,
        };
        Ok(Some((bytes, rest)))
    }

    /// Consumes a comment and returns its text. Only whitespace may be between this position and the comment.
    ///
    /// # Errors
    ///
    /// Returns an error if there is a lexical error at the comment.
    pub fn comment(self) -> Result<Option<(&'a str, Self)>> {
        let buffer = self.parser.buffer;
        let found = buffer.comment_at(self.position.byte());
        let Some(token) = found.map_err(|fault| buffer.error_of(fault))? else {
            return Ok(None);
        };
        // A token after a comment is not kept.
        let position = self.position.next(token.offset + token.len as usize);
        Ok(Some((token.src(self.text()), Cursor { position, ..self })))
    }
}

/// Returns `true` if a token is this keyword.
#[inline(always)]
fn is_keyword(text: &str, token: Token, word: &str) -> bool {
    matches!(token.kind, TokenKind::Keyword)
        && token.len as usize == word.len()
        && token.keyword(text) == word
}
