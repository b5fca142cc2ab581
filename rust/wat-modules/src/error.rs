use alloc::string::{String, ToString};
use core::fmt;
use wat_lex::{LexError, Span};
#[cfg(feature = "std")]
use {
    alloc::format,
    std::io,
    std::path::{Path, PathBuf},
};

/// An error in a text with its offset, a file that cannot be read, or an allocation failure.
///
/// An error in a text prints its message, the path of the file if it is known, the line and the column, and the line of the text with a marker.
///
/// ```
/// let mut error = wat_modules::parse_str("(module (func frob))").unwrap_err();
/// # #[cfg(feature = "std")]
/// error.set_path("a.wat");
/// # #[cfg(feature = "std")]
/// assert_eq!(
///     error.to_string(),
///     "unknown instruction `frob`\n     --> a.wat:1:15\n      |\n    1 | (module (func frob))\n      |               ^"
/// );
/// ```
#[derive(Debug)]
pub struct Error(Cause);

/// The cause of an error.
#[derive(Debug)]
enum Cause {
    /// An error in a text, or an allocation failure.
    Text(wat_lex::Error),
    /// A file that cannot be read.
    #[cfg(feature = "std")]
    File { path: PathBuf, error: io::Error },
}

impl Error {
    /// Creates the error for bytes that are UTF-8 only up to the end of `start`.
    pub(crate) fn not_utf8(start: &str) -> Error {
        let span = Span::from_offset(start.len());
        let mut error = wat_lex::Error::new(span, "the text is not UTF-8".to_string());
        error.set_text(start);
        error.into()
    }

    /// Creates the error for a file that cannot be read.
    #[cfg(feature = "std")]
    pub(crate) fn unreadable(path: &Path, error: io::Error) -> Error {
        let path = path.to_path_buf();
        Error(Cause::File { path, error })
    }

    /// Returns the offset of the error in the text. It is 0 for a file that cannot be read, and for an allocation failure.
    #[must_use]
    pub fn span(&self) -> Span {
        match &self.0 {
            Cause::Text(error) => error.span(),
            #[cfg(feature = "std")]
            Cause::File { .. } => Span::from_offset(0),
        }
    }

    /// Returns the message, without the location and the line.
    #[must_use]
    pub fn message(&self) -> String {
        match &self.0 {
            Cause::Text(error) => error.message(),
            #[cfg(feature = "std")]
            Cause::File { .. } => self.to_string(),
        }
    }

    /// Returns the lexical error, if the text has one.
    #[must_use]
    pub fn lex_error(&self) -> Option<&LexError> {
        match &self.0 {
            Cause::Text(error) => error.lex_error(),
            #[cfg(feature = "std")]
            Cause::File { .. } => None,
        }
    }

    /// Returns `true` if the error is an allocation failure.
    #[must_use]
    pub fn is_out_of_memory(&self) -> bool {
        match &self.0 {
            Cause::Text(error) => error.is_out_of_memory(),
            #[cfg(feature = "std")]
            Cause::File { error, .. } => error.kind() == io::ErrorKind::OutOfMemory,
        }
    }

    /// Attaches the path of the source file. Has no effect if the error already has a path. A path that is not UTF-8 is not printed.
    #[cfg(feature = "std")]
    pub fn set_path(&mut self, path: impl AsRef<Path>) {
        match &mut self.0 {
            Cause::Text(error) => error.set_path(path.as_ref()),
            Cause::File { .. } => {}
        }
    }
}

impl From<wat_lex::Error> for Error {
    fn from(error: wat_lex::Error) -> Error {
        Error(Cause::Text(error))
    }
}

/// Converts an error, so that `?` returns it from a parser. A file that cannot be read becomes a message at offset 0.
impl From<Error> for wat_lex::Error {
    fn from(error: Error) -> wat_lex::Error {
        match error.0 {
            Cause::Text(error) => error,
            #[cfg(feature = "std")]
            Cause::File {
                error: ref cause, ..
            } => wat_lex::Error::new(Span::from_offset(0), format!("{error}: {cause}")),
        }
    }
}

impl fmt::Display for Error {
    fn fmt(&self, f: &mut fmt::Formatter<'_>) -> fmt::Result {
        match &self.0 {
            Cause::Text(error) => error.fmt(f),
            #[cfg(feature = "std")]
            Cause::File { path, .. } => write!(f, "failed to read from `{}`", path.display()),
        }
    }
}

/// The source is the [`io::Error`](https://doc.rust-lang.org/std/io/struct.Error.html) of a file that cannot be read.
impl core::error::Error for Error {
    fn source(&self) -> Option<&(dyn core::error::Error + 'static)> {
        match &self.0 {
            Cause::Text(_) => None,
            #[cfg(feature = "std")]
            Cause::File { error, .. } => Some(error),
        }
    }
}

#[cfg(feature = "std")]
#[cfg(test)]
mod tests {
    use super::Error;
    use std::io;
    use std::path::Path;

    #[test]
    fn a_file_may_take_too_much_memory() {
        let of = |kind: io::ErrorKind| Error::unreadable(Path::new("a.wat"), kind.into());
        assert!(of(io::ErrorKind::OutOfMemory).is_out_of_memory());
        assert!(!of(io::ErrorKind::NotFound).is_out_of_memory());
    }
}
