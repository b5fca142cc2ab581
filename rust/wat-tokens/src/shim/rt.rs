//! A handle of the process, and its standard streams.
use crate::shim::alloc::Global;
use crate::shim::io::{self, IsTerminal, Read, Write};

/// A handle of the process, which every function that accesses the process or the system has as a parameter.
#[derive(Clone, Copy, Debug)]
pub struct HostRuntime(());

impl HostRuntime {
    /// Returns the handle of this process, and opens the standard streams. Rust's standard library then allocates the buffers of its streams, and
    /// terminates the process if that fails: this happens before anything is read or written.
    pub fn of_process() -> HostRuntime {
        streams::open();
        HostRuntime(())
    }

    /// Returns the allocator.
    pub fn alloc(&self) -> Global {
        Global
    }

    /// Returns standard input.
    pub fn stdin(&self) -> Stdin {
        Stdin
    }

    /// Returns standard output.
    pub fn stdout(&self) -> Stdout {
        Stdout
    }

    /// Returns standard error.
    pub fn stderr(&self) -> Stderr {
        Stderr
    }
}

/// Standard input. On Unix it is unbuffered: each read is a single system call.
#[derive(Clone, Copy, Debug)]
pub struct Stdin;

/// Standard output. On Unix it is unbuffered: each write is a single system call.
#[derive(Clone, Copy, Debug)]
pub struct Stdout;

/// Standard error. It is unbuffered: each write is a single system call.
#[derive(Clone, Copy, Debug)]
pub struct Stderr;

impl Stdout {
    /// Returns `true` if standard output is a terminal.
    pub fn is_terminal(&self) -> bool {
        io::stdout().is_terminal()
    }
}

impl Read for Stdin {
    fn read(&mut self, buffer: &mut [u8]) -> io::Result<usize> {
        streams::input()?.read(buffer)
    }
}

impl Write for Stdout {
    fn write(&mut self, bytes: &[u8]) -> io::Result<usize> {
        streams::output()?.write(bytes)
    }

    fn flush(&mut self) -> io::Result<()> {
        streams::output()?.flush()
    }
}

impl Write for Stderr {
    fn write(&mut self, bytes: &[u8]) -> io::Result<usize> {
        io::stderr().write(bytes)
    }

    fn flush(&mut self) -> io::Result<()> {
        io::stderr().flush()
    }
}

/// Unbuffered standard streams: files over duplicates of the descriptors. Those of Rust's standard library are buffered, and its standard output
/// writes again, when the process ends, what it could not write before.
#[cfg(unix)]
mod streams {
    use std::fs::File;
    use std::io::{Error, ErrorKind, Result, stdin, stdout};
    use std::os::fd::AsFd;
    use std::sync::LazyLock;

    static INPUT: LazyLock<Result<File>> = LazyLock::new(|| file_of(stdin()));
    static OUTPUT: LazyLock<Result<File>> = LazyLock::new(|| file_of(stdout()));

    fn file_of(stream: impl AsFd) -> Result<File> {
        Ok(File::from(stream.as_fd().try_clone_to_owned()?))
    }

    pub fn open() {
        LazyLock::force(&INPUT);
        LazyLock::force(&OUTPUT);
    }

    /// Returns the file, or a copy of the error with which it failed to open.
    fn opened(file: &'static Result<File>) -> Result<&'static File> {
        file.as_ref().map_err(|error| match error.raw_os_error() {
            Some(code) => Error::from_raw_os_error(code),
            None => Error::from(ErrorKind::Other),
        })
    }

    pub fn input() -> Result<&'static File> {
        opened(&INPUT)
    }

    pub fn output() -> Result<&'static File> {
        opened(&OUTPUT)
    }
}

#[cfg(not(unix))]
mod streams {
    use std::io::{Result, Stdin, Stdout, stdin, stdout};

    pub fn open() {
        (stdin(), stdout());
    }

    pub fn input() -> Result<Stdin> {
        Ok(stdin())
    }

    pub fn output() -> Result<Stdout> {
        Ok(stdout())
    }
}
