//! Runs over sources and sinks whose calls are short or fail: their results, the bytes left to read, and the bytes written.

use std::io::{self, Read, Write};
use wat_parser::proved::parser::Call;
use wat_tokens::commands::Settings;
use wat_tokens::commands::run::{RunError, RunFailure, run_list, run_play, run_sig};
use wat_tokens::lines::ends::{Failed, Plain, Sink, Source};
use wat_tokens::lists::fmt::run_fmt;
use wat_tokens::shim::alloc::Global;
use wat_tokens::shim::prelude::String as Word;

const OFF: Settings = Settings {
    allow: false,
    strict: false,
};

/// Returns an error of the kind `Interrupted`, after which the calls of Rust's standard library retry.
fn interrupted() -> io::Error {
    io::ErrorKind::Interrupted.into()
}

fn failed() -> Failed {
    Failed::of(&interrupted())
}

/// A reader that returns at most `most` bytes per call. Only the call `fails_at`, counted from 0, fails.
struct Reader<'a> {
    rest: &'a [u8],
    most: usize,
    fails_at: usize,
    calls: usize,
}

impl<'a> Reader<'a> {
    fn new(text: &'a str, most: usize, fails_at: usize) -> Reader<'a> {
        Reader {
            rest: text.as_bytes(),
            most,
            fails_at,
            calls: 0,
        }
    }
}

impl Read for Reader<'_> {
    fn read(&mut self, buffer: &mut [u8]) -> io::Result<usize> {
        let call = self.calls;
        self.calls += 1;
        if call == self.fails_at {
            return Err(interrupted());
        }
        let most = self.most.min(buffer.len());
        self.rest.read(&mut buffer[..most])
    }
}

/// A writer that accepts at most `most` bytes per call and `room` bytes in total. The call `fails_at`, counted from 0, fails, and each flush if
/// `flush_fails`.
struct Writer {
    held: Vec<u8>,
    most: usize,
    room: usize,
    fails_at: usize,
    flush_fails: bool,
    writes: usize,
    flushes: usize,
}

impl Writer {
    fn new(most: usize, fails_at: usize) -> Writer {
        Writer {
            held: Vec::new(),
            most,
            room: usize::MAX,
            fails_at,
            flush_fails: false,
            writes: 0,
            flushes: 0,
        }
    }
}

impl Write for Writer {
    fn write(&mut self, bytes: &[u8]) -> io::Result<usize> {
        let call = self.writes;
        self.writes += 1;
        if call == self.fails_at {
            return Err(interrupted());
        }
        let count = self.most.min(bytes.len()).min(self.room - self.held.len());
        self.held.extend(&bytes[..count]);
        Ok(count)
    }

    fn flush(&mut self) -> io::Result<()> {
        self.flushes += 1;
        if self.flush_fails {
            return Err(interrupted());
        }
        Ok(())
    }
}

/// A user-defined source that is not a reader of `std`. It returns at most `most` bytes per call, and fails after `fails_in` calls.
struct Pieces<'a> {
    rest: &'a [u8],
    most: usize,
    fails_in: usize,
    has_failed: bool,
    has_ended: bool,
}

impl<'a> Pieces<'a> {
    fn new(text: &'a str, most: usize, fails_in: usize) -> Pieces<'a> {
        Pieces {
            rest: text.as_bytes(),
            most,
            fails_in,
            has_failed: false,
            has_ended: false,
        }
    }
}

impl Source for Pieces<'_> {
    fn read(&mut self, buffer: &mut [u8]) -> Result<usize, Failed> {
        self.has_failed |= self.fails_in == 0;
        if self.has_failed {
            return Err(failed());
        }
        self.fails_in -= 1;
        let count = self.most.min(self.rest.len()).min(buffer.len());
        buffer[..count].copy_from_slice(&self.rest[..count]);
        self.rest = &self.rest[count..];
        self.has_ended = count == 0 && !buffer.is_empty();
        Ok(count)
    }

    fn failed(&self) -> bool {
        self.has_failed
    }

    fn ended(&self) -> bool {
        self.has_ended
    }
}

/// A user-defined sink that is not a writer of `std`. Each write fails if it is broken.
struct Room {
    held: Vec<u8>,
    is_broken: bool,
    has_failed: bool,
}

impl Room {
    fn new(is_broken: bool) -> Room {
        Room {
            held: Vec::new(),
            is_broken,
            has_failed: false,
        }
    }
}

impl Sink for Room {
    fn write_all(&mut self, bytes: &[u8]) -> Result<(), Failed> {
        if self.is_broken {
            self.has_failed = true;
            return Err(failed());
        }
        self.held.extend(bytes);
        Ok(())
    }

    fn failed(&self) -> bool {
        self.has_failed
    }
}

const TEXT: &str = "(@a \"x\") b";

type Run = fn(&mut Pieces, &mut Room) -> Result<(), RunError>;

/// The names of the three functions, with a call of each and its expected output for the text.
const RUNS: [(&str, Run, &str); 3] = [
    (
        "run_list",
        |input, output| run_list(Global, input, output, OFF).map(|_| ()),
        "0..1 LParen\n1..3 Annotation\n3..4 Whitespace\n4..7 String\n7..8 RParen\n8..9 Whitespace\n9..10 Keyword\n",
    ),
    (
        "run_sig",
        |input, output| {
            let names = [Word::from("a".to_owned())];
            run_sig(Global, input, output, OFF, &names).map(|_| ())
        },
        "0..1 LParen\n1..3 Annotation\n4..7 String\n7..8 RParen\n9..10 Keyword\n",
    ),
    (
        "run_play",
        |input, output| {
            let calls = [Call::Look, Call::Take, Call::Look];
            run_play(Global, input, output, OFF, &calls)
        },
        "9..10 Keyword\n9..10 Keyword\nend\n",
    ),
];

/// Fails each read of a run in turn, with `most` bytes per read, and then none.
fn fail_each_read((name, run, lines): (&str, Run, &str), most: usize) {
    let reads = TEXT.len().div_ceil(most) + 1;
    for fails_in in 0..=reads {
        let (mut input, mut output) = (Pieces::new(TEXT, most, fails_in), Room::new(false));
        let answer = run(&mut input, &mut output);
        let (wanted, lines) = if fails_in == reads {
            (Ok(()), lines)
        } else {
            (Err(RunError::Read), "")
        };
        let which = format!("{name}, {most} bytes a read, read {fails_in} fails");
        assert_eq!(answer, wanted, "{which}");
        assert_eq!(output.held, lines.as_bytes(), "{which}");
    }
}

#[test]
fn a_source_may_fail_at_each_call_and_then_nothing_is_written() {
    for run in RUNS {
        (1..=TEXT.len()).for_each(|most| fail_each_read(run, most));
    }
}

#[test]
fn a_sink_that_fails_is_a_failed_write() {
    for (name, run, _) in RUNS {
        let (mut input, mut output) = (Pieces::new(TEXT, 4096, 99), Room::new(true));
        let answer = run(&mut input, &mut output);
        assert_eq!(
            (answer, output.has_failed),
            (Err(RunError::Write), true),
            "{name}"
        );
    }
}

/// Reads into a buffer of 8 bytes. Returns the bytes or the failure, `true` if any read has failed, and `true` if this read found the end.
fn read(input: &mut Plain<Reader>) -> (Result<Vec<u8>, Failed>, bool, bool) {
    let mut buffer = [0; 8];
    let given = input
        .read(&mut buffer)
        .map(|count| buffer[..count].to_vec());
    (given, input.failed(), input.ended())
}

#[test]
fn a_failed_read_is_not_tried_again() {
    let mut input = Plain::new(Reader::new("abcd", 2, 1));
    assert_eq!(read(&mut input), (Ok(b"ab".to_vec()), false, false));
    assert_eq!(read(&mut input), (Err(failed()), true, false));
    assert_eq!(read(&mut input), (Ok(b"cd".to_vec()), true, false));
    assert_eq!(input.read(&mut []), Ok(0));
    assert_eq!((input.failed(), input.ended()), (true, false));
    assert_eq!(read(&mut input), (Ok(Vec::new()), true, true));
    assert_eq!(input.into_inner().calls, 5);
}

#[test]
fn nothing_is_written_after_a_failed_write() {
    for (most, fails_at, held, writes) in [
        (1, 0, "", 1),
        (1, 2, "ab", 3),
        (2, 1, "ab", 2),
        (0, 9, "", 1),
    ] {
        let mut output = Plain::new(Writer::new(most, fails_at));
        assert_eq!(output.write_all(b"abc"), Err(failed()));
        assert!(output.failed());
        let writer = output.into_inner();
        assert_eq!(
            writer.held,
            held.as_bytes(),
            "{most} bytes a call, call {fails_at} fails"
        );
        assert_eq!(
            (writer.writes, writer.flushes),
            (writes, 0),
            "{most} bytes a call, call {fails_at} fails"
        );
    }
}

/// Lists the tokens of a text. Returns `true` if it has a lexical error, or the error of the run, and the writer.
fn list(text: &str, writer: Writer) -> (Result<bool, RunError>, Writer) {
    let mut output = Plain::new(writer);
    let ended = run_list(Global, &mut Plain::new(text.as_bytes()), &mut output, OFF);
    let has_failed = output.failed();
    assert_eq!(has_failed, matches!(ended, Err(RunError::Write)));
    (ended.map(|error| error.is_some()), output.into_inner())
}

const MODULE: &str = "(module (func $foo))";

#[test]
fn a_run_ends_at_a_failed_read() {
    for fails_at in 0..=MODULE.len().div_ceil(4) {
        let mut input = Plain::new(Reader::new(MODULE, 4, fails_at));
        let mut output = Plain::new(Writer::new(4096, usize::MAX));
        let ended = run_list(Global, &mut input, &mut output, OFF);
        assert!(
            matches!(ended, Err(RunError::Read)),
            "call {fails_at} fails"
        );
        let (reader, writer) = (input.into_inner(), output.into_inner());
        let left = MODULE.len() - (4 * fails_at).min(MODULE.len());
        assert_eq!((reader.calls, reader.rest.len()), (fails_at + 1, left));
        assert_eq!(
            (writer.writes, writer.flushes),
            (0, 0),
            "call {fails_at} fails"
        );
    }
}

#[test]
fn a_run_ends_at_a_failed_write() {
    for fails_at in 0..3 {
        let (ended, writer) = list(MODULE, Writer::new(4, fails_at));
        assert_eq!(ended, Err(RunError::Write));
        assert_eq!(writer.held, b"0..1 LParen\n"[..4 * fails_at]);
        assert_eq!((writer.writes, writer.flushes), (fails_at + 1, 0));
    }
}

#[test]
fn each_output_ends_in_one_flush() {
    for (text, lines, writes, flush_fails) in [
        ("x", "0..1 Keyword\n", 4, false),
        ("x", "0..1 Keyword\n", 4, true),
        ("", "", 0, false),
        ("", "", 0, true),
    ] {
        let mut writer = Writer::new(4, usize::MAX);
        writer.flush_fails = flush_fails;
        let (ended, writer) = list(text, writer);
        let wanted = if flush_fails {
            Err(RunError::Write)
        } else {
            Ok(false)
        };
        assert_eq!(ended, wanted, "{text}, the flush fails: {flush_fails}");
        assert_eq!(writer.held, lines.as_bytes(), "{text}");
        assert_eq!((writer.writes, writer.flushes), (writes, 1), "{text}");
    }
}

/// A number of parentheses whose lines fill two blocks and a part of a third.
const PARENS: usize = 9_000;

fn lines_of_parens() -> Vec<u8> {
    let lines = (0..PARENS).map(|at| format!("{at}..{} LParen\n", at + 1));
    lines.collect::<String>().into_bytes()
}

#[test]
fn each_block_is_written_once() {
    for (after, has_fault) in [("", false), ("(;", true)] {
        let text = "(".repeat(PARENS) + after;
        let (ended, writer) = list(&text, Writer::new(usize::MAX, usize::MAX));
        assert_eq!(ended, Ok(has_fault));
        assert!(
            writer.held == lines_of_parens(),
            "the lines before {after:?}"
        );
        assert_eq!((writer.writes, writer.flushes), (3, 3));
    }
}

#[test]
fn no_block_is_written_after_one_that_failed() {
    let lines = lines_of_parens();
    let mut lengths = Vec::new();
    for fails_at in 0..3 {
        let (ended, writer) = list(&"(".repeat(PARENS), Writer::new(usize::MAX, fails_at));
        assert_eq!(ended, Err(RunError::Write));
        assert!(lines.starts_with(&writer.held), "write {fails_at} fails");
        assert_eq!((writer.writes, writer.flushes), (fails_at + 1, fails_at));
        lengths.push(writer.held.len());
    }
    assert!(
        lengths[0] == 0 && lengths.is_sorted_by(|one, next| one < next) && lengths[2] < lines.len()
    );
}

/// Formats a text with a read or write that fails. Returns the failure, and the bytes that were written before it.
fn lay_out(text: &str, fails_at: usize, room: usize) -> (RunFailure, Vec<u8>) {
    let mut input = Plain::new(Reader::new(text, 1, fails_at));
    let mut writer = Writer::new(usize::MAX, usize::MAX);
    writer.room = room;
    let mut output = Plain::new(writer);
    let ended = run_fmt(Global, &mut input, &mut output, OFF);
    (ended.unwrap_err(), output.into_inner().held)
}

#[test]
fn a_layout_ends_at_a_failed_read_or_write() {
    let (read, write) = (RunFailure::Read(failed()), RunFailure::Write(failed()));
    assert_eq!(lay_out("(a )", 2, usize::MAX), (read, Vec::new()));
    assert_eq!(lay_out("(a )b", usize::MAX, 2), (write, b"(a".to_vec()));
}
