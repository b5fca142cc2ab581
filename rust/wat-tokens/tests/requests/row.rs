//! Test cases of the table, and the results of their calls.

use crate::pictures::{drawn, spelled};
use crate::printed::printed;
use crate::sources::Source;
use std::fmt::Debug;
use wat_lex::proved::error::Error;

/// A test case of the table, whose first line names the columns.
pub struct Row {
    pub name: &'static str,
    /// The number of allocations of the call.
    pub requests: usize,
    /// The maximum number of bytes allocated by the set-up and the call.
    pub bytes: usize,
    pub call: &'static str,
    /// The names after `@` in the column `call`, which are registered before the call.
    pub names: &'static str,
    /// The variant of the call, or the type that it parses.
    pub of: &'static str,
    /// The byte offset of the expected error, or `None` if the call succeeds.
    pub offset: Option<usize>,
    /// The byte offset of the token before the parser after the call. For a call of the lexer, the byte offset of the lexer.
    pub place: usize,
    pub text: String,
    /// The kind of buffer that the parser reads.
    pub source: Source,
    /// The expected value, or the first line or all lines of the expected error.
    pub answer: &'static str,
}

/// The end of a call: with the expected result, or with an allocation failure. Any other end fails the test.
#[derive(Clone, Copy, Debug, PartialEq, Eq)]
pub enum Ending {
    Answer,
    Memory,
}

impl Row {
    pub fn read(line: &'static str, source: Source) -> Row {
        let columns: Vec<&str> = line.splitn(9, '|').collect();
        let [name, requests, bytes, call, of, offset, place, text, answer] = columns[..] else {
            panic!("{line} has too few columns");
        };
        let (call, names) = call.split_once('@').unwrap_or((call, ""));
        Row {
            name,
            requests: requests.parse().expect("the number of requests"),
            bytes: bytes.parse().expect("the number of bytes"),
            call,
            names,
            of,
            offset: offset.parse().ok(),
            place: place.parse().unwrap_or(0),
            text: spelled(text),
            source,
            answer,
        }
    }

    /// Checks the result of a call, a value or an error.
    pub fn ending<T: Debug>(&self, result: &Result<T, Error>) -> Ending {
        match result {
            Ok(value) => {
                assert_eq!(self.offset, None, "{}: {value:?}", self.name);
                assert_eq!(drawn(&printed(value)), self.answer, "{}", self.name);
                Ending::Answer
            }
            Err(error) => self.refusal(error),
        }
    }

    /// Checks the error of a call. The test case has all of its lines, or the first one.
    pub fn refusal(&self, error: &Error) -> Ending {
        if error.is_out_of_memory() {
            return Ending::Memory;
        }
        let report = error.to_string();
        let is_line = report.lines().next() == Some(self.answer);
        assert!(
            is_line || drawn(&report) == self.answer,
            "{}: {report}",
            self.name
        );
        assert_eq!(Some(error.span().offset()), self.offset, "{}", self.name);
        Ending::Answer
    }
}
