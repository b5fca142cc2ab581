//! Allocation-failure injection with the table `tests/requests.txt`. Each test case is a call; each of its allocations fails in turn, once alone and
//! once with all allocations after it. Parsers run over both kinds of buffer, and must make the same allocations over both.

mod buffers;
mod cursors;
mod encoding;
mod errors;
mod free;
// The test cases use only a part of the generated format.
#[allow(dead_code, non_camel_case_types, unused_imports)]
mod generated {
    pub mod example_imports;
}
mod identifiers;
mod lexing;
mod lists;
mod lookaheads;
mod names;
mod peeks;
#[path = "../../../wat-parser/tests/answers/pictures.rs"]
mod pictures;
#[path = "../../../wat-parser/tests/answers/printed.rs"]
mod printed;
mod refusing;
mod replays;
mod row;
#[path = "../../../wat-parser/tests/answers/sources.rs"]
mod sources;
mod types;
mod words;

use generated::example_imports as imports;
use refusing::{Counts, Refused, refusing};
use row::{Ending, Row};
use sources::{SOURCES, Source};
use std::cell::Cell;
use std::panic::{AssertUnwindSafe, catch_unwind};
use wat_lex::proved::error::Error;
use wat_parser::proved::parser::Parser;

const TABLE: &str = include_str!("../../../../tests/requests.txt");
/// The number of test cases in the table.
const ROWS: usize = 414;
/// The number of allocations of all calls.
const REQUESTS: usize = 531;
/// An upper bound of the number of allocations of a test case.
const MOST_REQUESTS: usize = 500;

/// Returns the test cases, first all with a token table and then all without.
fn rows() -> impl Iterator<Item = Row> {
    let of = |source: Source| {
        TABLE
            .lines()
            .skip(1)
            .map(move |line| Row::read(line, source))
    };
    SOURCES.into_iter().flat_map(of)
}

/// Makes the call of a test case with a parser at the start of its text.
fn ending_of(row: &Row, parser: &mut Parser) -> Result<Ending, Error> {
    match row.call {
        "look" => Ok(cursors::look(row, parser)),
        "step" => Ok(cursors::refused_step(row, parser)),
        "names" => names::ending(row, parser),
        "optional-name" => Ok(names::optional(row, parser)),
        "group" | "group-of" | "list" => Ok(lists::ending(row, parser)),
        "part" => Ok(types::part_ending(row, parser)),
        "peek" => Ok(peeks::ending(row, parser)),
        "lookahead" => lookaheads::ending(row, parser),
        "replay" => replays::ending(row, parser),
        "free" => Ok(free::ending(row, parser)),
        call => panic!("{}: no call {call}", row.name),
    }
}

/// Makes the call of a test case. Returns an error if its set-up failed.
fn ending(row: &Row) -> Result<Ending, Error> {
    match row.call {
        "lexer" => Ok(lexing::ending(row)),
        "error" => errors::ending(row),
        "identifier" => identifiers::ending(row),
        "encode" => encoding::ending(row),
        "buffer" => buffers::ending(row),
        "whole" => types::whole_ending(row),
        "words" => words::ending(row),
        _ => {
            let buffer = row.source.buffer(&row.text)?;
            let mut parser = buffer.parser();
            for name in row.names.split_terminator(' ') {
                parser.register_annotation(name)?;
            }
            ending_of(row, &mut parser)
        }
    }
}

/// The effect of a failed allocation on a test case.
#[derive(Clone, Copy, Debug, PartialEq, Eq)]
enum Word {
    /// An allocation before the call failed, and the set-up returned an error.
    SetUp,
    /// An allocation of the call failed, and the call returned an error.
    Memory,
    /// No allocation was to fail, or one failed and the call returned its expected result.
    Answer,
    /// The allocation that was to fail did not occur up to the end of the call.
    After,
}

/// Runs a test case with these allocations failing, and counts its allocations.
fn run(row: &Row, refused: Refused) -> (Word, Counts) {
    let (ended, counts) = refusing(refused, || ending(row));
    let is_refused = match refused {
        Refused::None => false,
        Refused::At(number) | Refused::From(number) => counts.requests >= number,
    };
    let word = match ended {
        Ok(Ending::Memory) => Word::Memory,
        Ok(Ending::Answer) if is_refused || matches!(refused, Refused::None) => Word::Answer,
        Ok(Ending::Answer) => Word::After,
        Err(error) if error.is_out_of_memory() => Word::SetUp,
        Err(error) => panic!("{}: {error} before its call", row.name),
    };
    let wants = matches!(word, Word::SetUp | Word::Memory);
    assert!(
        is_refused || !wants,
        "{}: {word:?}, but no request was refused",
        row.name
    );
    (word, counts)
}

fn word(row: &Row, refused: Refused) -> Word {
    let (word, counts) = run(row, refused);
    assert_eq!(
        counts.held, 0,
        "{}, {refused:?}: bytes that are held",
        row.name
    );
    word
}

/// The numbers of a test case's allocations, by the effect of a failure of one.
#[derive(Default)]
struct Requests {
    /// Allocations of the set-up.
    set_up: usize,
    /// Allocations of the call without which it returns an error.
    memory: usize,
    /// Allocations of the call without which it returns the expected result.
    answer: usize,
}

impl Requests {
    /// Fails each allocation of a test case alone, and classifies it.
    fn of(row: &Row) -> Requests {
        let mut requests = Requests::default();
        for number in 1..MOST_REQUESTS {
            match word(row, Refused::At(number)) {
                Word::SetUp => {
                    requests.set_up += 1;
                    assert_eq!(
                        requests.set_up, number,
                        "{}: its set-up comes first",
                        row.name
                    );
                }
                Word::Memory => requests.memory += 1,
                Word::Answer => requests.answer += 1,
                Word::After => return requests,
            }
        }
        panic!("{} makes too many requests", row.name);
    }

    fn of_call(&self) -> usize {
        self.memory + self.answer
    }

    /// Fails each allocation of the call together with all allocations after it, and finally all allocations after the call.
    fn refuse_rest(&self, row: &Row) {
        let after = self.set_up + self.of_call() + 1;
        for number in self.set_up + 1..after {
            let word = word(row, Refused::From(number));
            assert!(
                matches!(word, Word::Memory | Word::After),
                "{} from {number} on: {word:?}",
                row.name
            );
        }
        assert_eq!(word(row, Refused::From(after)), Word::After, "{}", row.name);
    }
}

/// Runs a check for each test case, and lists those that fail.
fn try_each(check: impl Fn(&Row)) {
    assert_eq!(rows().count(), ROWS * SOURCES.len(), "rows of the table");
    let fails = |row: &Row| catch_unwind(AssertUnwindSafe(|| check(row))).is_err();
    let named = |row: Row| (row.name, row.source);
    let failed: Vec<_> = rows().filter(fails).map(named).collect();
    assert!(failed.is_empty(), "{failed:?}");
}

#[test]
fn each_row_has_its_answer_within_its_bounds() {
    try_each(|row| {
        let (word, counts) = run(row, Refused::None);
        assert_eq!(word, Word::Answer, "{}", row.name);
        assert_eq!(counts.held, 0, "{}: bytes that are held", row.name);
        let (asked, most) = (counts.asked, row.bytes);
        assert!(asked <= most, "{}: {asked} bytes, of {most}", row.name);
    });
}

#[test]
fn each_request_is_refused_in_turn() {
    let refused = Cell::new(0);
    try_each(|row| {
        let requests = Requests::of(row);
        requests.refuse_rest(row);
        refused.set(refused.get() + requests.of_call());
        assert_eq!(requests.of_call(), row.requests, "{}: requests", row.name);
        let is_free = row.name.starts_with("free-");
        assert_eq!(row.requests == 0, is_free, "{}: requests", row.name);
        assert_eq!(
            requests.memory == 0,
            is_free,
            "{}: want of memory",
            row.name
        );
    });
    assert_eq!(
        refused.get(),
        REQUESTS * SOURCES.len(),
        "requests that were refused"
    );
}
