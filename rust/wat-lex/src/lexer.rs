use crate::Span;
use crate::error::Error;
use crate::proved;
use crate::recover::{Fault, Piece, Pieces, piece_at};
use crate::shim::alloc::Global;
use crate::token::Token;
use alloc::format;
use alloc::vec::Vec;
use core::fmt;
use core::iter::FusedIterator;

/// A lexer over a source text. It splits the text into tokens, whitespace and comments, so that every byte is part of one of them.
#[derive(Clone)]
pub struct Lexer<'a> {
    input: &'a str,
    /// The verified lexer over `input`. If `input` has more than `u32::MAX` bytes, which a precondition of `proved::lexer::Lexer::new` excludes, its
    /// text is empty.
    proved: proved::lexer::Lexer<'a>,
}

impl<'a> Lexer<'a> {
    /// Creates a lexer over a source text, with both settings off. Lexing a text of more than `u32::MAX` bytes returns an error, or panics in a
    /// method that does not return a `Result`.
    #[must_use]
    #[inline]
    pub fn new(input: &'a str) -> Lexer<'a> {
        let taken = if is_too_long(input.len()) { "" } else { input };
        Lexer {
            input,
            proved: proved::lexer::Lexer::new(taken),
        }
    }

    /// Returns the source text.
    #[must_use]
    pub fn input(&self) -> &'a str {
        self.input
    }

    /// Returns the underlying verified lexer, over the same text and with the same settings.
    ///
    /// # Errors
    ///
    /// Returns an error if the text has more than `u32::MAX` bytes.
    #[inline]
    pub fn proved(&self) -> Result<&proved::lexer::Lexer<'a>, Error> {
        if is_too_long(self.input.len()) {
            return Err(too_long());
        }
        Ok(&self.proved)
    }

    /// Sets whether comments and strings may contain the 9 confusing characters, which control text direction or shaping and so can hide what a text
    /// contains: U+202A, U+202B, U+202D, U+202E, U+2066 to U+2069, and U+206C.
    pub fn allow_confusing_unicode(&mut self, allow: bool) -> &mut Self {
        self.proved.allow_confusing_unicode(allow);
        self
    }

    /// Sets whether two consecutive underscores inside `\u{..}` are a lexical error.
    pub fn strict_underscores(&mut self, strict: bool) -> &mut Self {
        self.proved.strict_underscores(strict);
        self
    }

    /// Lexes the token at byte offset `pos` and advances `pos` to its end. Returns `None` at the end of the text.
    ///
    /// ```
    /// use wat_lex::{Lexer, TokenKind};
    ///
    /// let (lexer, mut pos) = (Lexer::new("(;one;)$x"), 0);
    /// let comment = lexer.parse(&mut pos)?.unwrap();
    /// assert_eq!((comment.kind, pos), (TokenKind::BlockComment, 7));
    /// let name = lexer.parse(&mut pos)?.unwrap();
    /// assert_eq!((name.kind, pos), (TokenKind::Id, 9));
    /// assert_eq!(lexer.parse(&mut pos)?, None);
    /// # Ok::<(), wat_lex::Error>(())
    /// ```
    ///
    /// # Errors
    ///
    /// Returns the lexical error at `pos`, or an error if the text has more than `u32::MAX` bytes. `pos` is not changed then.
    ///
    /// # Panics
    ///
    /// Panics if `pos` is not a char boundary of the text.
    // Without `inline(always)` a program with two loops over tokens calls this function, which executes more instructions for each token.
    #[inline(always)]
    pub fn parse(&self, pos: &mut usize) -> Result<Option<Token>, Error> {
        // Precondition of `proved::lexer::Lexer::scan`. For a text that is too long the verified text is empty, so only offset 0 passes, and no token
        // is there.
        if self.proved.input().is_char_boundary(*pos) {
            if let Ok(Some(token)) = self.proved.scan(*pos) {
                *pos += token.len as usize;
                return Ok(Some(token.into()));
            }
        }
        self.ending(*pos).map(|()| None)
    }

    /// Returns an iterator over the tokens from byte offset `pos` up to the end of the text or the first lexical error. If the text has more than
    /// `u32::MAX` bytes, the iterator yields that error.
    ///
    /// # Panics
    ///
    /// The iterator panics if `pos` is not a char boundary of the text.
    pub fn iter(&self, pos: usize) -> Tokens<'_, 'a> {
        Tokens {
            lexer: Some(self),
            pos,
        }
    }

    /// Appends the tokens from byte offset `pos` to `tokens`, up to the end of the text or the first lexical error.
    ///
    /// ```
    /// use wat_lex::Lexer;
    ///
    /// let mut tokens = Vec::new();
    /// Lexer::new("(a)").tokens_into(0, &mut tokens)?;
    /// assert_eq!(tokens.len(), 3);
    ///
    /// tokens.clear();
    /// let error = Lexer::new("(a) \"").tokens_into(0, &mut tokens).unwrap_err();
    /// assert_eq!((tokens.len(), error.span().offset()), (4, 5));
    /// # Ok::<(), wat_lex::Error>(())
    /// ```
    ///
    /// # Errors
    ///
    /// Returns the lexical error, or an error if the text has more than `u32::MAX` bytes. The tokens before a lexical error are in `tokens` then.
    ///
    /// # Panics
    ///
    /// Panics if `pos` is not a char boundary of the text.
    pub fn tokens_into(&self, pos: usize, tokens: &mut Vec<Token>) -> Result<(), Error> {
        for token in self.iter(pos) {
            tokens.push(token?);
        }
        Ok(())
    }

    /// Returns an iterator over the tokens from byte offset `pos` up to the end of the text, with error recovery: each lexical error covers the bytes
    /// that the table of [`Fault`] gives, and lexing continues after them.
    ///
    /// Up to the first lexical error these are the tokens of [`iter`](Lexer::iter).
    ///
    /// ```
    /// use wat_lex::{Lexer, Piece};
    ///
    /// let text = "(data \"open)\n(func $f)";
    /// let pieces = Lexer::new(text).pieces(0)?;
    /// let parts: Vec<_> = pieces.map(|piece| &text[piece.range()]).collect();
    /// assert_eq!(parts, ["(", "data", " ", "\"open)", "\n", "(", "func", " ", "$f", ")"]);
    /// # Ok::<(), wat_lex::Error>(())
    /// ```
    ///
    /// # Errors
    ///
    /// Returns an error if the text has more than `u32::MAX` bytes.
    ///
    /// # Panics
    ///
    /// Panics if `pos` is not a char boundary of the text.
    pub fn pieces(&self, pos: usize) -> Result<Pieces<'a>, Error> {
        Ok(Pieces::new(self.proved_at(pos)?.clone(), pos, Vec::new()))
    }

    /// Returns the lexical error at byte offset `pos`, with the bytes that it covers. Returns `None` if a token begins there or the text ends.
    ///
    /// ```
    /// use wat_lex::Lexer;
    ///
    /// let lexer = Lexer::new("(a \"b\n)");
    /// assert_eq!(lexer.fault_at(0), None);
    /// assert_eq!(lexer.fault_at(3).unwrap().range(), 3..5);
    /// ```
    ///
    /// # Panics
    ///
    /// Panics if `pos` is not a char boundary of the text, or if the text has more than `u32::MAX` bytes.
    #[must_use]
    pub fn fault_at(&self, pos: usize) -> Option<Fault> {
        self.piece_at(pos)?.fault()
    }

    /// Returns the byte offset at which lexing continues after `pos`: the end of the token there, or of the bytes that the lexical error there
    /// covers. It is greater than `pos`, except at the end of the text.
    ///
    /// ```
    /// use wat_lex::Lexer;
    ///
    /// let lexer = Lexer::new("(; open (func)");
    /// assert_eq!(lexer.resume(0), 2);
    /// assert_eq!(lexer.resume(2), 3);
    /// assert_eq!(lexer.resume(14), 14);
    /// ```
    ///
    /// # Panics
    ///
    /// Panics if `pos` is not a char boundary of the text, or if the text has more than `u32::MAX` bytes.
    #[must_use]
    pub fn resume(&self, pos: usize) -> usize {
        self.piece_at(pos).map_or(pos, |piece| piece.end())
    }

    fn piece_at(&self, pos: usize) -> Option<Piece> {
        match self.proved_at(pos) {
            Ok(lexer) => piece_at(lexer, pos),
            Err(error) => panic!("{error}"),
        }
    }

    /// Returns the verified lexer, after an assertion that `pos` is a char boundary of the text, which is a precondition of its methods.
    pub(crate) fn proved_at(&self, pos: usize) -> Result<&proved::lexer::Lexer<'a>, Error> {
        let lexer = self.proved()?;
        assert!(
            self.input.is_char_boundary(pos),
            "no character begins at the byte"
        );
        Ok(lexer)
    }

    /// Returns the error at an offset at which no token begins, or `Ok` at the end of the text.
    #[cold]
    #[inline(never)]
    fn ending(&self, mut pos: usize) -> Result<(), Error> {
        self.proved_at(pos)?.parse(Global, &mut pos)?;
        Ok(())
    }

    /// Lexes the annotation token at `pos`, which may be any offset. Returns `None` if the byte there is not `@`, or if a token of another kind
    /// begins there.
    ///
    /// # Errors
    ///
    /// If the byte is `@`, returns the lexical error there, or an error if the text has more than `u32::MAX` bytes.
    #[inline]
    pub fn annotation(&self, pos: usize) -> Result<Option<Token>, Error> {
        match self.input.as_bytes().get(pos) {
            Some(b'@') => self.annotation_at(pos),
            _ => Ok(None),
        }
    }

    fn annotation_at(&self, pos: usize) -> Result<Option<Token>, Error> {
        let token = self.proved()?.annotation(Global, pos)?;
        Ok(token.map(Token::from))
    }
}

impl fmt::Debug for Lexer<'_> {
    fn fmt(&self, f: &mut fmt::Formatter<'_>) -> fmt::Result {
        f.debug_struct("Lexer")
            .field("input", &self.input)
            .field("settings", &self.proved.settings())
            .finish()
    }
}

#[inline]
pub(crate) fn is_too_long(len: usize) -> bool {
    u32::try_from(len).is_err()
}

#[cold]
pub(crate) fn too_long() -> Error {
    let message = format!("the text has more than {} bytes", u32::MAX);
    Error::new(Span::from_offset(0), message)
}

/// An iterator over the tokens of a text. It is fused: after the first error, or at the end of the text, it yields `None` forever.
#[must_use = "tokens are read as they are asked for"]
#[derive(Clone, Debug)]
pub struct Tokens<'l, 'a> {
    /// The lexer, or `None` after an error.
    lexer: Option<&'l Lexer<'a>>,
    pos: usize,
}

impl Iterator for Tokens<'_, '_> {
    type Item = Result<Token, Error>;

    #[inline(always)]
    fn next(&mut self) -> Option<Result<Token, Error>> {
        let token = self.lexer?.parse(&mut self.pos);
        if token.is_err() {
            self.lexer = None;
        }
        token.transpose()
    }
}

impl FusedIterator for Tokens<'_, '_> {}
