//! Tests of `print` with a writer whose writes are short, are interrupted or fail.
use std::fmt;
use std::io::{Error, ErrorKind, Result, Write};
use wat_tokens::lists::printer::print;

/// Capacity of the buffer, in bytes.
const BLOCK: usize = 4096;

/// A writer that accepts at most `most` bytes per call, is interrupted before each call, and fails after `left` calls.
struct Slow {
    held: String,
    most: usize,
    left: usize,
    is_interrupted: bool,
}

impl Write for Slow {
    fn write(&mut self, bytes: &[u8]) -> Result<usize> {
        self.is_interrupted = !self.is_interrupted;
        if self.is_interrupted {
            return Err(ErrorKind::Interrupted.into());
        }
        if self.left == 0 {
            return Err(Error::from_raw_os_error(28));
        }
        self.left -= 1;
        let count = self.most.min(bytes.len());
        self.held += std::str::from_utf8(&bytes[..count]).unwrap();
        Ok(count)
    }

    fn flush(&mut self) -> Result<()> {
        Ok(())
    }
}

fn slow(most: usize, left: usize) -> Slow {
    Slow {
        held: String::new(),
        most,
        left,
        is_interrupted: false,
    }
}

/// A value that prints a text one character at a time.
struct Characters<'a>(&'a str);

impl fmt::Display for Characters<'_> {
    fn fmt(&self, f: &mut fmt::Formatter<'_>) -> fmt::Result {
        self.0.chars().try_for_each(|c| write!(f, "{c}"))
    }
}

#[test]
fn a_line_is_one_call() {
    let mut output = slow(usize::MAX, 1);
    print(&mut output, format_args!("{}\n", Characters("a line"))).unwrap();
    assert_eq!((output.held.as_str(), output.left), ("a line\n", 0));
}

#[test]
fn a_text_of_any_length_is_written_in_blocks() {
    for length in [0, 1, BLOCK - 1, BLOCK, BLOCK + 1, 3 * BLOCK, 5000] {
        let text = "x".repeat(length);
        let mut output = slow(usize::MAX, usize::MAX);
        print(&mut output, format_args!("{}\n", Characters(&text))).unwrap();
        assert_eq!(output.held, format!("{text}\n"));
        assert_eq!(usize::MAX - output.left, (length + 1).div_ceil(BLOCK));
    }
}

#[test]
fn a_long_part_is_one_call() {
    let text = "x".repeat(3 * BLOCK);
    let mut output = slow(usize::MAX, 3);
    print(&mut output, format_args!("a{text}b")).unwrap();
    assert_eq!((output.held, output.left), (format!("a{text}b"), 0));
}

#[test]
fn short_and_interrupted_writes_are_continued() {
    let mut output = slow(1, usize::MAX);
    print(&mut output, "a line\n").unwrap();
    assert_eq!(output.held, "a line\n");
}

#[test]
fn a_failed_write_is_the_last_and_its_error_is_returned() {
    let text = "x".repeat(3 * BLOCK + 1);
    for left in 0..4 {
        let mut output = slow(usize::MAX, left);
        let error = print(&mut output, Characters(&text)).unwrap_err();
        assert_eq!(error.raw_os_error(), Some(28));
        assert_eq!(output.held.len(), left * BLOCK);
    }
    let error = print(&mut slow(0, usize::MAX), "x").unwrap_err();
    assert_eq!(error.kind(), ErrorKind::WriteZero);
}

/// A value whose `Display` prints a part and fails.
struct Failing;

impl fmt::Display for Failing {
    fn fmt(&self, f: &mut fmt::Formatter<'_>) -> fmt::Result {
        f.write_str("a part")?;
        Err(fmt::Error)
    }
}

#[test]
fn a_value_that_fails_is_an_error() {
    let error = print(&mut slow(usize::MAX, usize::MAX), Failing).unwrap_err();
    assert_eq!(
        (error.kind(), error.raw_os_error()),
        (ErrorKind::Other, None)
    );
}
