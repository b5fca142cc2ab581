use crate::FormatError;
use crate::lines::ends::{Failed, Sink};
use crate::lines::failed::taken;
use crate::proved;
use crate::proved::stream::WriteError;
use crate::shim::alloc::Global;
use alloc::string::String;
use core::fmt;
use wat_lex::proved::lexer::Settings;

/// Settings of the formatter: which texts it accepts. They do not change how a text is formatted.
///
/// ```
/// use wat_format::Options;
///
/// let text = ";; \u{202e}";
/// assert!(wat_format::format(text).is_err());
/// let options = Options::new().allow_confusing_unicode(true);
/// assert_eq!(options.format(text)?, ";; \u{202e}\n");
/// # Ok::<(), wat_format::FormatError>(())
/// ```
#[derive(Clone, Copy, Debug, Default, PartialEq, Eq)]
#[must_use]
pub struct Options {
    allow_confusing_unicode: bool,
    strict_underscores: bool,
}

impl Options {
    /// Returns the default settings, with both off.
    pub const fn new() -> Options {
        Options {
            allow_confusing_unicode: false,
            strict_underscores: false,
        }
    }

    /// Sets whether comments and strings may contain the nine Unicode characters that change how the text around them is displayed: U+202A, U+202B,
    /// U+202D, U+202E, U+2066 to U+2069, and U+206C. Otherwise each is a lexical error.
    pub const fn allow_confusing_unicode(mut self, allow: bool) -> Options {
        self.allow_confusing_unicode = allow;
        self
    }

    /// Sets whether two underscores in a row are a lexical error in the escape `\u{..}`.
    pub const fn strict_underscores(mut self, strict: bool) -> Options {
        self.strict_underscores = strict;
        self
    }

    /// Returns the formatted text.
    ///
    /// # Errors
    ///
    /// Like [`format`](crate::format()).
    pub fn format(self, text: &str) -> Result<String, FormatError> {
        check_length(text)?;
        let formatted = proved::format::format(Global, text, self.settings())?;
        Ok(formatted.into())
    }

    /// Writes the formatted text to `output`.
    ///
    /// # Errors
    ///
    /// Like [`format_to`](crate::format_to).
    pub fn format_to(
        self,
        text: &str,
        output: &mut (impl fmt::Write + ?Sized),
    ) -> Result<(), FormatError> {
        self.write_blocks(text, |block| {
            // A block consists of whole tokens, so it is UTF-8.
            let block = core::str::from_utf8(block).map_err(|_| fmt::Error)?;
            Ok(output.write_str(block)?)
        })
    }

    /// Writes the formatted text to a writer of bytes. It does not flush the writer.
    ///
    /// # Errors
    ///
    /// Like [`format_to`](crate::format_to).
    #[cfg(feature = "std")]
    pub fn format_to_writer(
        self,
        text: &str,
        output: &mut (impl std::io::Write + ?Sized),
    ) -> Result<(), FormatError> {
        self.write_blocks(text, |block| Ok(output.write_all(block)?))
    }

    fn write_blocks(
        self,
        text: &str,
        write: impl FnMut(&[u8]) -> Result<(), FormatError>,
    ) -> Result<(), FormatError> {
        check_length(text)?;
        let mut blocks = Blocks { write, error: None };
        let written = proved::stream::format_to(Global, text, self.settings(), &mut blocks);
        match written {
            Ok(()) => Ok(()),
            Err(WriteError::Memory(_)) => Err(FormatError::OutOfMemory),
            Err(WriteError::Fault(fault)) => Err(fault.into()),
            Err(WriteError::Failed(_)) => {
                Err(blocks.error.unwrap_or(FormatError::Write(fmt::Error)))
            }
        }
    }

    fn settings(self) -> Settings {
        Settings {
            allow: self.allow_confusing_unicode,
            strict: self.strict_underscores,
        }
    }
}

/// Returns an error if a text is too long: the precondition of both verified functions.
fn check_length(text: &str) -> Result<(), FormatError> {
    match u32::try_from(text.len()) {
        Ok(_) => Ok(()),
        Err(_) => Err(FormatError::TooLong),
    }
}

/// A sink that passes each block of bytes to a function, and records the error that it returns.
struct Blocks<F> {
    write: F,
    error: Option<FormatError>,
}

impl<F: FnMut(&[u8]) -> Result<(), FormatError>> Sink for Blocks<F> {
    fn write_all(&mut self, bytes: &[u8]) -> Result<(), Failed> {
        match (self.write)(bytes) {
            Ok(()) => Ok(()),
            Err(error) => {
                self.error = Some(error);
                // `Failed` for a write that accepts no bytes.
                taken(Ok(0)).map(drop)
            }
        }
    }

    fn failed(&self) -> bool {
        self.error.is_some()
    }
}
