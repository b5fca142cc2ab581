//! The commands over streams whose calls are short or fail, and with allocation-failure injection: each read, write and allocation fails in turn.

#[path = "../../wat-lex/tests/refusing/mod.rs"]
mod refusing;

use refusing::{grant_all, granting};
use std::io::{Error, Read, Result, Write};
use wat_tokens::commands::Settings;
use wat_tokens::commands::options::Mode;
use wat_tokens::commands::outcome::{Exit, Outcome};
use wat_tokens::commands::respond::{Inputs, respond};
use wat_tokens::lines::ends::{Failed, Plain};
use wat_tokens::lists::fmt::run_fmt;
use wat_tokens::shim::alloc::{AllocError, Global};
use wat_tokens::shim::prelude::String as Word;

/// A reader of a text that returns at most `most` bytes per call, and fails after `calls_left` calls.
struct Text<'a> {
    rest: &'a [u8],
    most: usize,
    calls_left: usize,
}

impl Read for Text<'_> {
    fn read(&mut self, buffer: &mut [u8]) -> Result<usize> {
        if self.calls_left == 0 {
            return Err(Error::from_raw_os_error(5));
        }
        self.calls_left -= 1;
        let count = self.most.min(buffer.len()).min(self.rest.len());
        buffer[..count].copy_from_slice(&self.rest[..count]);
        self.rest = &self.rest[count..];
        Ok(count)
    }
}

/// A writer into a buffer that does not grow. It accepts at most `most` bytes per call, and fails after `calls_left` calls.
struct Page {
    held: Vec<u8>,
    most: usize,
    calls: usize,
    calls_left: usize,
}

impl Page {
    fn new(most: usize, calls_left: usize) -> Page {
        Page {
            held: Vec::with_capacity(10_000),
            most,
            calls: 0,
            calls_left,
        }
    }
}

impl Write for Page {
    fn write(&mut self, bytes: &[u8]) -> Result<usize> {
        self.calls += 1;
        if self.calls_left == 0 {
            return Err(Error::from_raw_os_error(28));
        }
        self.calls_left -= 1;
        let count = self.most.min(bytes.len());
        assert!(self.held.len() + count <= self.held.capacity());
        self.held.extend_from_slice(&bytes[..count]);
        Ok(count)
    }

    fn flush(&mut self) -> Result<()> {
        Ok(())
    }
}

/// The limits of a run: bytes per call, and the numbers of reads, writes and allocations that succeed.
#[derive(Clone, Copy)]
struct Way {
    most: usize,
    reads: usize,
    writes: usize,
    granted: usize,
}

const ALL: Way = Way {
    most: usize::MAX,
    reads: usize::MAX,
    writes: usize::MAX,
    granted: usize::MAX,
};

/// Inputs in which each file name refers to the same text.
struct One<'a> {
    text: &'a str,
    way: Way,
    layout: Page,
    report: Page,
}

impl<'a> One<'a> {
    fn read(&self) -> Plain<Text<'a>> {
        Plain::new(Text {
            rest: self.text.as_bytes(),
            most: self.way.most,
            calls_left: self.way.reads,
        })
    }
}

impl<'a> Inputs for One<'a> {
    type Input = Plain<Text<'a>>;
    type Output = Plain<Vec<u8>>;

    fn is_there(&self, _: &str) -> bool {
        true
    }

    fn is_shown(&self) -> bool {
        false
    }

    fn create(&self, _: &str) -> std::result::Result<Plain<Vec<u8>>, AllocError> {
        Ok(Plain::new(Vec::new()))
    }

    fn open(&mut self, _: &str) -> std::result::Result<Plain<Text<'a>>, Failed> {
        Ok(self.read())
    }

    fn lay_out(&mut self, settings: Settings, _: Mode, _: &str) -> Exit {
        let mut input = self.read();
        let mut output = Plain::new(&mut self.layout);
        let outcome = Outcome::of_run(run_fmt(Global, &mut input, &mut output, settings));
        outcome.report(None, &mut self.report).unwrap();
        outcome.exit(false)
    }
}

/// Runs the program with these arguments. Returns the status, output and report of the run, the number of its allocations, and the number of its
/// writes to the output.
fn run(words: &str, text: &str, way: Way) -> ((u8, Vec<u8>, Vec<u8>), usize, usize) {
    let words: Vec<Word> = words
        .split(' ')
        .map(|word| Word::from(word.to_owned()))
        .collect();
    let mut one = One {
        text,
        way,
        layout: Page::new(way.most, way.writes),
        report: Page::new(usize::MAX, usize::MAX),
    };
    let mut output = Plain::new(Page::new(way.most, way.writes));
    let mut errors = Page::new(usize::MAX, usize::MAX);
    let (exit, asked) = granting(way.granted, || {
        let exit = respond(Global, &words, &mut one, &mut output, &mut errors);
        grant_all();
        exit
    });
    let mut output = output.into_inner();
    output.held.extend_from_slice(&one.layout.held);
    errors.held.extend_from_slice(&one.report.held);
    let writes = output.calls + one.layout.calls;
    ((exit.code(), output.held, errors.held), asked, writes)
}

const TEXT: &str = "(module ;; c\n  (@a $\"b\\63\") (func $f (param i32)) (; d ;)\n)";
const RUNS: [(&str, &str, u8); 13] = [
    ("list", TEXT, 0),
    ("list", "x (;", 1),
    ("--json", TEXT, 0),
    ("--json", "x \"\\q\"", 1),
    ("sig a", TEXT, 0),
    ("sig", "x (@a 1", 1),
    ("--json sig a", TEXT, 0),
    ("blank", TEXT, 0),
    (
        "types",
        "(module (type (func (param i32) (result i64))))",
        0,
    ),
    ("types", "(module (func))", 1),
    ("fmt", TEXT, 0),
    ("play look reg=a take parens=1 take", "(@a) x", 0),
    ("--help", "", 0),
];

/// Returns the report of a run that failed for this reason.
fn refused(reason: &str) -> Vec<u8> {
    format!("wat_tokens: {reason}\n").into_bytes()
}

#[test]
fn short_reads_and_writes_change_nothing() {
    for (words, text, status) in RUNS {
        let (whole, ..) = run(words, text, ALL);
        assert_eq!(whole.0, status, "{words}");
        for most in [1, 2, 7] {
            let (answer, ..) = run(words, text, Way { most, ..ALL });
            assert_eq!(answer, whole, "{words}, {most} bytes a call");
        }
    }
}

/// Fails each read of a run in turn, with `most` bytes per read, and checks the run in which none fails.
fn fail_each_read(words: &str, text: &str, most: usize) {
    let answer = |reads| {
        let way = Way { most, reads, ..ALL };
        run(words, text, way).0
    };
    let count = text.len().div_ceil(most) + 1;
    for reads in 0..count {
        let wanted = (2, Vec::new(), refused("read failed"));
        let place = format!("{words}, {most} bytes a call, read {reads} fails");
        assert_eq!(answer(reads), wanted, "{place}");
    }
    assert_eq!(answer(count), run(words, text, ALL).0, "{words}, {most}");
}

#[test]
fn a_read_that_fails_is_reported_and_nothing_is_written() {
    for (words, text, _) in RUNS.iter().filter(|run| run.0 != "--help") {
        fail_each_read(words, text, 1);
        fail_each_read(words, text, 4);
    }
}

#[test]
fn a_write_that_fails_is_reported_after_the_bytes_before_it() {
    for (words, text, _) in RUNS {
        let ((_, whole, _), _, count) = run(words, text, Way { most: 1, ..ALL });
        assert_eq!(count, whole.len(), "{words}");
        for writes in 0..count {
            let (answer, _, tried) = run(
                words,
                text,
                Way {
                    most: 1,
                    writes,
                    ..ALL
                },
            );
            let wanted = (2, whole[..writes].to_vec(), refused("write failed"));
            assert_eq!(answer, wanted, "{words}, write {writes} fails");
            assert_eq!(tried, writes + 1, "no write is tried again");
        }
    }
}

#[test]
fn a_request_that_is_refused_is_reported_and_nothing_is_written() {
    for (words, text, _) in RUNS {
        let (_, asked, _) = run(words, text, ALL);
        assert_eq!(asked == 0, text.is_empty(), "{words}: {asked} requests");
        for granted in 0..asked {
            let (answer, ..) = run(words, text, Way { granted, ..ALL });
            let wanted = (2, Vec::new(), refused("out of memory"));
            assert_eq!(answer, wanted, "{words}, {granted} of {asked} granted");
        }
        let (answer, ..) = run(
            words,
            text,
            Way {
                granted: asked,
                ..ALL
            },
        );
        assert_eq!(answer, run(words, text, ALL).0);
    }
}
