//! The verified functions: formatted texts in a string and in a sink, and their errors.
#![cfg(feature = "std")]

#[path = "../../wat-parser/tests/answers/pictures.rs"]
mod pictures;

use pictures::{drawn, spelled};
use std::io;
use wat_format::lines::ends::{Failed, Sink};
use wat_format::proved::error::Error;
use wat_format::proved::format::format;
use wat_format::proved::stream::format_to;
use wat_format::shim::alloc::Global;
use wat_lex::proved::lexer::Settings;

/// Pairs of lines: a text, and its formatted text, or `fault` if it has a lexical error.
const TABLE: &str = include_str!("../../../tests/layouts.txt");

const PLAIN: Settings = Settings {
    allow: false,
    strict: false,
};

/// Returns the formatted text, or the printed error.
fn shown(text: &str, settings: Settings) -> String {
    match format(Global, text, settings) {
        Ok(layout) => layout.into(),
        Err(error) => error.to_string(),
    }
}

#[test]
fn each_text_has_its_layout() {
    let lines: Vec<&str> = TABLE.lines().collect();
    let count = lines.len() / 2;
    assert!(count >= 79, "the table has {count} texts");
    for row in lines.chunks(2) {
        let layout = match format(Global, &spelled(row[0]), PLAIN) {
            Ok(layout) => drawn(&layout),
            Err(Error::Fault(_)) => "fault".to_owned(),
            Err(error) => panic!("{}: {error}", row[0]),
        };
        let wanted = row[1].strip_prefix("    ").expect("an indented layout");
        assert_eq!(layout, wanted, "{}", row[0]);
    }
}

#[test]
fn a_string_has_the_layout_or_the_fault() {
    let rows = [
        ("", ""),
        ("( module\n(func)\r\n\r\n\n )", "(module\n  (func)\n)\n"),
        ("a;;b\n)", "a ;;b\n)\n"),
        (
            "block\nbr 0\nelse\nend\n( end",
            "block\n  br 0\nelse\nend\n(end\n",
        ),
        (
            "a \u{e9}",
            "unexpected character '\\u{e9}' at byte offset 2",
        ),
        ("(; ;) (;", "unterminated block comment at byte offset 6"),
    ];
    for (text, wanted) in rows {
        assert_eq!(shown(text, PLAIN), wanted, "{text}");
    }
    let (allow, strict) = (true, false);
    let layout = shown(";;\u{202e}", Settings { allow, strict });
    assert_eq!(layout, ";;\u{202e}\n");
}

/// A sink with capacity for `room` bytes, which records the number of bytes written by each call.
#[derive(Default)]
struct Narrow {
    held: Vec<u8>,
    calls: Vec<usize>,
    room: usize,
    is_full: bool,
}

impl Sink for Narrow {
    fn write_all(&mut self, bytes: &[u8]) -> Result<(), Failed> {
        let count = self.room.min(bytes.len());
        self.held.extend_from_slice(&bytes[..count]);
        self.calls.push(count);
        self.room -= count;
        self.is_full = count < bytes.len();
        if self.is_full {
            Err(Failed::of(&io::ErrorKind::WriteZero.into()))
        } else {
            Ok(())
        }
    }

    fn failed(&self) -> bool {
        self.is_full
    }
}

/// Formats a text to a sink with capacity for `room` bytes. Returns the sink and the printed error, which is empty if there is none.
fn written(text: &str, room: usize) -> (Narrow, String) {
    let mut sink = Narrow {
        room,
        ..Narrow::default()
    };
    let result = format_to(Global, text, PLAIN, &mut sink);
    let error = result.map_or_else(|error| error.to_string(), |()| String::new());
    (sink, error)
}

#[test]
fn a_sink_that_fails_has_the_front_of_the_layout() {
    let text = "( a\n b )";
    let end = "unexpected end-of-file at byte offset 6";
    let rows = [
        (text, 100, "(a\n  b)\n", ""),
        (text, 4, "(a\n ", "write failed"),
        ("( a\n \"", 100, "", end),
    ];
    for (text, room, wanted, wanted_error) in rows {
        let (sink, error) = written(text, room);
        assert_eq!(error, wanted_error, "{text}");
        assert_eq!(sink.held, wanted.as_bytes(), "{text}");
    }
}

/// Returns a text of `groups` lines, each a group with a word of `letters` letters, followed by a string literal of `string` bytes.
fn long_text(groups: usize, letters: usize, string: usize) -> String {
    let group = format!("( {} )\n", "a".repeat(letters));
    format!("{}\"{}\"\n", group.repeat(groups), "s".repeat(string))
}

/// Checks that each block is written by a separate call as soon as it has 65,536 bytes. So every call except the last writes at least that many, and
/// no call exceeds it by more than the longest token.
#[test]
fn blocks_are_written_as_they_are_full() {
    let rows = [
        (2, 1, 3, 1),
        (20_000, 1, 3, 2),
        (10_500, 100, 3, 17),
        (2, 1, 1_000_000, 2),
    ];
    for (groups, letters, string, calls) in rows {
        let text = long_text(groups, letters, string);
        let (sink, error) = written(&text, 10_000_000);
        assert_eq!(error, "");
        assert_eq!(sink.held.len(), (letters + 3) * groups + string + 3);
        assert_eq!(sink.held, shown(&text, PLAIN).as_bytes());
        assert_eq!(sink.calls.len(), calls);
        assert!(sink.calls[..calls - 1].iter().all(|count| *count >= 65_536));
        let most = 65_536 + letters + string + 8;
        assert!(sink.calls.iter().all(|count| *count < most));
    }
}
