//! The errors of each function, and the output before an error.
#![cfg(feature = "std")]

use std::error::Error;
use std::{fmt, io};
use wat_format::{FormatError, LexError, Options, format, format_to, format_to_writer};

#[test]
fn a_lexical_error_has_its_kind_and_position() {
    let eof = LexError::UnexpectedEof;
    let rows = [
        ("(a \"", eof, 4, "unexpected end-of-file at byte offset 4"),
        (
            "a \u{e9}",
            LexError::Unexpected('\u{e9}'),
            2,
            "unexpected character '\\u{e9}' at byte offset 2",
        ),
        (
            "(; ;) (;",
            LexError::DanglingBlockComment,
            6,
            "unterminated block comment at byte offset 6",
        ),
        (
            "a \"\\q\"",
            LexError::InvalidStringEscape('q'),
            4,
            "invalid string escape 'q' at byte offset 4",
        ),
    ];
    for (text, wanted, offset, printed) in rows {
        let (mut output, mut bytes) = (String::new(), Vec::new());
        let errors = [
            format(text).unwrap_err(),
            format_to(text, &mut output).unwrap_err(),
            format_to_writer(text, &mut bytes).unwrap_err(),
        ];
        for found in errors {
            assert_eq!(found.to_string(), printed, "{text}");
            assert_eq!(found.span().unwrap().offset(), offset, "{text}");
            assert!(found.source().is_none(), "{text}");
            let FormatError::Lexical { error, .. } = found else {
                panic!("{text}: {found:?}");
            };
            assert_eq!(error, wanted, "{text}");
        }
        assert!(output.is_empty() && bytes.is_empty(), "{text}");
    }
}

/// Rejects a text of more than `u32::MAX` bytes, of which none is ever read or written.
#[cfg(target_pointer_width = "64")]
#[test]
fn a_text_that_is_too_long_is_rejected() {
    // SAFETY: zeros are UTF-8. A check would read them all.
    let text = unsafe { String::from_utf8_unchecked(vec![0; u32::MAX as usize + 1]) };
    let errors = [
        format(&text).unwrap_err(),
        format_to(&text, &mut String::new()).unwrap_err(),
        format_to_writer(&text, &mut Vec::new()).unwrap_err(),
    ];
    for error in errors {
        assert!(matches!(error, FormatError::TooLong), "{error:?}");
        let printed = "the text has more than 4294967295 bytes";
        assert_eq!(error.to_string(), printed);
        assert_eq!(error.span(), None);
    }
}

/// A sink with capacity for `room` bytes.
#[derive(Default)]
struct Narrow {
    held: String,
    room: usize,
}

impl fmt::Write for Narrow {
    fn write_str(&mut self, text: &str) -> fmt::Result {
        if text.len() > self.room {
            return Err(fmt::Error);
        }
        self.room -= text.len();
        self.held.push_str(text);
        Ok(())
    }
}

#[test]
fn a_failed_write_is_an_error_of_the_sink() {
    let text = "( a ;; \u{e9}\n )\n".repeat(10_000);
    let layout = format(&text).unwrap();
    for room in [0, 5, 70_000] {
        let mut sink = Narrow {
            room,
            ..Narrow::default()
        };
        let error = format_to(&text, &mut sink).unwrap_err();
        assert!(matches!(error, FormatError::Write(_)), "{error:?}");
        assert_eq!(error.to_string(), "write failed");
        assert!(error.source().unwrap().is::<fmt::Error>());
        assert!(layout.starts_with(&sink.held), "{room}");
        assert_eq!(sink.held.is_empty(), room < 65_536, "{room}");
    }
}

#[test]
fn a_failed_write_is_the_error_of_the_writer() {
    let text = "( a )";
    let mut bytes = [0; 3];
    let error = Options::new().format_to_writer(text, &mut &mut bytes[..]);
    let FormatError::Io(error) = error.unwrap_err() else {
        panic!("another error");
    };
    assert_eq!(error.kind(), io::ErrorKind::WriteZero);
    assert_eq!(bytes, *b"(a)");
    let error = FormatError::Io(error);
    assert_eq!(error.to_string(), "write failed");
    assert!(error.source().unwrap().is::<io::Error>());
    assert_eq!(error.span(), None);
}

#[test]
fn an_error_is_shared_by_threads() {
    fn is_shared<T: Error + Send + Sync + 'static>() {}
    is_shared::<FormatError>();
}
