use crate::proved::error::Error as ProvedError;
use core::error::Error;
use core::fmt;
use wat_lex::proved::lexer::LexFault;
use wat_lex::{LexError, Span};

/// An error of the formatter.
#[derive(Debug)]
#[non_exhaustive]
pub enum FormatError {
    /// The text has a lexical error.
    Lexical {
        /// The kind of the error.
        error: LexError,
        /// The byte offset of the error in the text.
        span: Span,
    },
    /// The text, or the formatted text that [`format`](crate::format()) returns, has more than `u32::MAX` bytes.
    TooLong,
    /// An allocation failed.
    OutOfMemory,
    /// A write of [`format_to`](crate::format_to) failed.
    Write(fmt::Error),
    /// A write of [`format_to_writer`](crate::format_to_writer) failed.
    #[cfg(feature = "std")]
    Io(std::io::Error),
}

impl FormatError {
    /// Returns the byte offset of a lexical error in the text as a span, or `None` for any other error.
    #[must_use]
    pub fn span(&self) -> Option<Span> {
        match self {
            FormatError::Lexical { span, .. } => Some(*span),
            _ => None,
        }
    }
}

impl fmt::Display for FormatError {
    fn fmt(&self, f: &mut fmt::Formatter<'_>) -> fmt::Result {
        match self {
            FormatError::Lexical { error, span } => {
                write!(f, "{error} at byte offset {}", span.offset())
            }
            FormatError::TooLong => write!(f, "the text has more than {} bytes", u32::MAX),
            FormatError::OutOfMemory => f.write_str("out of memory"),
            FormatError::Write(_) => f.write_str("write failed"),
            #[cfg(feature = "std")]
            FormatError::Io(_) => f.write_str("write failed"),
        }
    }
}

impl Error for FormatError {
    fn source(&self) -> Option<&(dyn Error + 'static)> {
        match self {
            FormatError::Write(error) => Some(error),
            #[cfg(feature = "std")]
            FormatError::Io(error) => Some(error),
            _ => None,
        }
    }
}

impl From<LexFault> for FormatError {
    fn from(fault: LexFault) -> FormatError {
        FormatError::Lexical {
            error: fault.error,
            span: Span::from_offset(fault.offset),
        }
    }
}

impl From<ProvedError> for FormatError {
    fn from(error: ProvedError) -> FormatError {
        match error {
            ProvedError::Memory(_) => FormatError::OutOfMemory,
            ProvedError::Fault(fault) => fault.into(),
            ProvedError::TooLong => FormatError::TooLong,
        }
    }
}

impl From<fmt::Error> for FormatError {
    fn from(error: fmt::Error) -> FormatError {
        FormatError::Write(error)
    }
}

#[cfg(feature = "std")]
impl From<std::io::Error> for FormatError {
    fn from(error: std::io::Error) -> FormatError {
        FormatError::Io(error)
    }
}
