use crate::proved;
use crate::proved::error::Message;
use crate::proved::error::pieces::{Piece, print, write_chunks};
use crate::proved::lexer::first_confusing;
use crate::shim::alloc::{Global, granted};
use crate::shim::boxed::Box;
use crate::{LexError, Span};
use alloc::format;
use alloc::string::{String, ToString};
use core::fmt::{self, Write as _};
use core::str;
use memchr::{memchr, memchr2};
#[cfg(feature = "std")]
use std::path::{Path, PathBuf};

/// A lexical or other error in a source text with its offset, or an allocation failure.
///
/// An error prints its message. Once it has the text, it also prints the file, the line and the column, both from 1, and the line with a marker below
/// the column. That column counts terminal columns: a character has a width of 0, 1 or 2. [`linecol_in`](Span::linecol_in) of the error's span counts
/// bytes.
///
/// ```
/// use wat_lex::{Error, Span};
///
/// let mut error = Error::new(Span::from_offset(6), "a name is missing".to_string());
/// assert_eq!(error.to_string(), "a name is missing at byte offset 6");
/// error.set_text("(one)\n(two)");
/// assert_eq!(
///     error.to_string(),
///     "a name is missing\n     --> <anon>:2:1\n      |\n    2 | (two)\n      | ^"
/// );
/// ```
///
/// Two errors are equal if they have the same offset and the same lexical error and print the same text.
// An error is one pointer wide, which keeps the results of `parse` and `iter` small. `None` is the out-of-memory error, so creating one never
// allocates.
#[derive(Debug)]
pub struct Error(Option<Box<Located>>);

#[derive(Debug)]
struct Located {
    error: proved::error::Error,
    /// The message, if it is static. The verified error has an empty message then. Otherwise empty.
    message: &'static str,
    #[cfg(feature = "std")]
    path: Option<PathBuf>,
}

const OUT_OF_MEMORY: &str = "out of memory";
/// Placeholder that is printed if the file name is not known.
const NO_NAME: &str = "<anon>";

impl Error {
    /// Creates an error with a message at an offset. It prints only these two until [`set_text`](Error::set_text) is called.
    #[must_use]
    pub fn new(span: Span, message: String) -> Error {
        proved::error::Error::new(span, message.into()).into()
    }

    /// Creates an error with a static message at an offset of a text. Becomes an out-of-memory error if an allocation fails.
    #[doc(hidden)]
    #[must_use]
    #[cold]
    pub fn in_text(span: Span, text: &str, message: &'static str) -> Error {
        let none = crate::shim::string::String::new(Global);
        let error = proved::error::Error::parse(Global, span, text, none);
        Error::located(error, message)
    }

    /// Boxes an error. Becomes an out-of-memory error if the box cannot be allocated.
    fn located(error: proved::error::Error, message: &'static str) -> Error {
        if error.is_out_of_memory() {
            return Error(None);
        }
        let located = Located {
            error,
            message,
            #[cfg(feature = "std")]
            path: None,
        };
        Error(Box::new(Global, located).ok())
    }

    /// Returns the offset of the error, or 0 for an out-of-memory error.
    #[must_use]
    pub fn span(&self) -> Span {
        match &self.0 {
            Some(located) => located.error.span(),
            None => Span::from_offset(0),
        }
    }

    /// Returns the lexical error, if the lexer reported this error.
    #[must_use]
    pub fn lex_error(&self) -> Option<&LexError> {
        self.0.as_ref()?.error.lex_error()
    }

    /// Returns `true` if the error is an allocation failure.
    #[must_use]
    pub fn is_out_of_memory(&self) -> bool {
        self.0.is_none()
    }

    /// Returns the message, without the offset.
    #[must_use]
    pub fn message(&self) -> String {
        match &self.0 {
            Some(located) => located.message(),
            None => OUT_OF_MEMORY.to_string(),
        }
    }

    /// Attaches the source text, so that the error prints the line. Has no effect if the error already has a text, as an error of the lexer does.
    pub fn set_text(&mut self, contents: &str) {
        if let Some(located) = &mut self.0 {
            granted(located.error.set_text(Global, contents));
        }
    }

    /// Attaches the path of the source file. Has no effect if the error already has a path. A path that is not UTF-8 is not printed.
    #[cfg(feature = "std")]
    pub fn set_path(&mut self, path: &Path) {
        if let Some(located) = &mut self.0 {
            located.path.get_or_insert_with(|| path.to_path_buf());
        }
    }
}

impl Located {
    fn message(&self) -> String {
        match self.message {
            "" => granted(self.error.message(Global)).into(),
            message => message.to_string(),
        }
    }

    /// Returns the file name, if it is known and is UTF-8.
    fn file(&self) -> Option<&str> {
        #[cfg(feature = "std")]
        return self.path.as_deref()?.to_str();
        #[cfg(not(feature = "std"))]
        None
    }
}

/// Becomes an out-of-memory error if the box cannot be allocated.
impl From<proved::error::Error> for Error {
    #[cold]
    fn from(error: proved::error::Error) -> Error {
        Error::located(error, "")
    }
}

impl fmt::Display for Error {
    fn fmt(&self, f: &mut fmt::Formatter<'_>) -> fmt::Result {
        match &self.0 {
            Some(located) => located.fmt(f),
            None => f.write_str(OUT_OF_MEMORY),
        }
    }
}

/// The output of an error, up to a maximum length.
struct Printed {
    bytes: [u8; MAX_PRINTED],
    len: usize,
}

/// Maximum length of an output that is written at once, in bytes. Its line is at most half of it.
const MAX_PRINTED: usize = 256;

/// The digits, each padded to the width of a line number. As a text, a digit is written faster than as a number.
const DIGITS: [&str; 10] = [
    "   0", "   1", "   2", "   3", "   4", "   5", "   6", "   7", "   8", "   9",
];

/// A marker in the last column of 64. As a text, it is written faster than space by space.
const MARKER: &str = "                                                               ^";

impl fmt::Write for Printed {
    fn write_str(&mut self, text: &str) -> fmt::Result {
        self.write_pieces(&[Piece::Text(text)]);
        Ok(())
    }
}

impl Printed {
    fn write_pieces(&mut self, pieces: &[Piece<'_>]) {
        self.len = write_chunks(pieces, &mut self.bytes, self.len);
    }

    /// Returns the output of an error with these chunks after its message, or `None` if it is long.
    fn of(&mut self, located: &Located, pieces: &[Piece<'_>]) -> Option<&str> {
        match (located.error.lex_error(), located.message) {
            (Some(error), _) => self.write_pieces(&error.pieces()),
            (None, "") => write!(self, "{}", Message(&located.error)).ok()?,
            (None, message) => self.write_str(message).ok()?,
        }
        self.write_pieces(pieces);
        // Whole blocks of 16 bytes are validated faster than the bytes of a part of one. The bytes after the output are 0.
        let text = str::from_utf8(&self.bytes[..self.len.next_multiple_of(16)]).ok()?;
        // If the buffer is full, the output may be longer.
        (self.len < MAX_PRINTED).then(|| &text[..self.len])
    }
}

/// Replaces a chunk by one with the same output that is written faster, except a short line.
fn quicken(piece: &mut Piece<'_>) {
    let text = match *piece {
        Piece::Decimal(digit @ 0..10) => &DIGITS[digit][3..],
        Piece::LineNumber(digit @ 0..10) => DIGITS[digit],
        Piece::Marker(column @ 1..=64) => &MARKER[64 - column..],
        Piece::Line(line) if is_long(line.0) && is_displayed_unchanged(line.0) => line.0,
        _ => return,
    };
    *piece = Piece::Text(text);
}

fn is_long(line: &str) -> bool {
    line.len() > MAX_PRINTED / 2
}

/// Returns `true` if a line has neither a TAB nor a confusing character, each of which begins with the byte 0xE2.
fn is_displayed_unchanged(line: &str) -> bool {
    let bytes = line.as_bytes();
    match memchr2(b'\t', 0xe2, bytes) {
        None => true,
        Some(at) => memchr(b'\t', &bytes[at..]).is_none() && first_confusing(line).is_none(),
    }
}

impl Located {
    fn print(&self, f: &mut fmt::Formatter<'_>) -> fmt::Result {
        let Some(excerpt) = self.error.excerpt() else {
            return write!(f, "{}{}", self.message, self.error);
        };
        let mut pieces = excerpt.pieces();
        let is_short = !matches!(pieces[7], Piece::Line(line) if is_long(line.0));
        // The others are texts.
        for index in [1, 3, 5, 7, 9] {
            quicken(&mut pieces[index]);
        }
        if is_short {
            let mut printed = Printed {
                bytes: [0; MAX_PRINTED],
                len: 0,
            };
            // One write takes less time than a write of each part.
            if let Some(text) = printed.of(self, &pieces) {
                return f.write_str(text);
            }
        }
        write!(f, "{}{}", self.message, Message(&self.error))?;
        print(&pieces, f)
    }
}

impl fmt::Display for Located {
    fn fmt(&self, f: &mut fmt::Formatter<'_>) -> fmt::Result {
        let Some(file) = self.file() else {
            return self.print(f);
        };
        let message = self.message();
        let printed = format!("{}{}", self.message, self.error);
        // The first `<anon>` after the message is the file name, if one is printed.
        let place = printed[message.len()..].replacen(NO_NAME, file, 1);
        write!(f, "{message}{place}")
    }
}

// The box is dropped by value in a separate function. If `drop` passed its address, a loop over tokens would keep the whole result of `parse` in
// memory.
impl Drop for Error {
    #[inline]
    fn drop(&mut self) {
        if let Some(located) = self.0.take() {
            drop_located(located);
        }
    }
}

#[cold]
#[inline(never)]
fn drop_located(_: Box<Located>) {}

impl PartialEq for Error {
    fn eq(&self, other: &Error) -> bool {
        self.span() == other.span()
            && self.lex_error() == other.lex_error()
            && self.to_string() == other.to_string()
    }
}

impl Eq for Error {}

/// The source is the [`LexError`], if the lexer reported the error.
impl core::error::Error for Error {
    fn source(&self) -> Option<&(dyn core::error::Error + 'static)> {
        self.lex_error().map(|error| error as _)
    }
}

impl core::error::Error for LexError {}

/// The source is the [`LexError`], if the lexer reported the error.
impl core::error::Error for proved::error::Error {
    fn source(&self) -> Option<&(dyn core::error::Error + 'static)> {
        self.lex_error().map(|error| error as _)
    }
}
