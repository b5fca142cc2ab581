//! Readers and writers for targets without an operating system. Errors have no error code.

/// An error of a reader or writer.
#[derive(Clone, Copy, Debug, Default, PartialEq, Eq)]
pub struct Error;

impl Error {
    /// Returns `None`, since no error is one of an operating system.
    #[must_use]
    pub fn raw_os_error(&self) -> Option<i32> {
        None
    }
}

/// The result of a read or write.
pub type Result<T> = core::result::Result<T, Error>;

/// A reader of bytes.
pub trait Read {
    /// Reads bytes into a buffer and returns their count, which is 0 at the end of the input.
    ///
    /// # Errors
    ///
    /// Returns an error if the read fails; then no bytes are read.
    fn read(&mut self, buffer: &mut [u8]) -> Result<usize>;
}

/// A writer of bytes.
pub trait Write {
    /// Writes bytes from the start of a buffer and returns their count.
    ///
    /// # Errors
    ///
    /// Returns an error if the write fails; then no bytes are written.
    fn write(&mut self, bytes: &[u8]) -> Result<usize>;

    /// Passes on all bytes that the writer has buffered.
    ///
    /// # Errors
    ///
    /// Returns an error if the bytes cannot be passed on.
    fn flush(&mut self) -> Result<()>;
}
