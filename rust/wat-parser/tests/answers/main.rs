//! Runs the test cases of `tests/answers.txt`: a line with a call and its text, followed by a line with the expected result. The verified library
//! runs all of them with both buffers, and the layer with the names of `wast` runs those that it has.

// Calls with equal results have separate match arms, and formatted values are passed by value.
#![allow(clippy::match_same_arms, clippy::needless_pass_by_value)]

mod layer;
mod pictures;
mod printed;
mod proved;
mod row;
mod sources;

use row::Row;
use sources::{SOURCES, Source};

const TABLE: &str = include_str!("../../../../tests/answers.txt");

/// Runs each test case and compares the result with the expected one. Returns the number of cases that have a result.
fn ask(answer: fn(&Row) -> Option<String>, source: Source) -> usize {
    let lines: Vec<&str> = TABLE.lines().collect();
    let mut answered = 0;
    for row in lines.chunks(2) {
        let wanted = row[1].strip_prefix("    ").expect("an indented answer");
        if let Some(given) = answer(&Row::read(row[0], source)) {
            assert_eq!(pictures::drawn(&given), wanted, "{}, {source:?}", row[0]);
            answered += 1;
        }
    }
    answered
}

#[test]
fn the_proved_calls_answer_each_row() {
    for source in SOURCES {
        assert_eq!(ask(proved::answer, source), TABLE.lines().count() / 2);
    }
}

#[test]
fn the_layer_answers_the_rows_of_its_calls() {
    let answered = ask(layer::answer, Source::Text);
    assert!(answered >= 806, "the layer answers {answered} rows");
}
