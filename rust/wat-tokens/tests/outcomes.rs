//! Outcomes of a run: the exit status, and the report for an input with or without a name.

use wat_lex::proved::error::Error;
use wat_lex::proved::lexer::LexError;
use wat_lex::proved::token::Span;
use wat_tokens::commands::complaint::Complaint;
use wat_tokens::commands::outcome::Outcome;
use wat_tokens::commands::run::RunFailure;
use wat_tokens::lines::ends::Failed;
use wat_tokens::shim::alloc::{AllocError, Global};
use wat_tokens::shim::prelude::String as Text;

/// Returns a failure with this error code of the system.
fn failed(code: i32) -> Failed {
    Failed::of(&std::io::Error::from_raw_os_error(code))
}

/// Returns the exit status of an outcome, and its report.
fn reported(outcome: &Outcome, name: Option<&str>) -> (u8, String) {
    let mut report = Vec::new();
    outcome.report(name, &mut report).unwrap();
    let status = outcome.exit(name.is_some()).code();
    (status, String::from_utf8(report).unwrap())
}

#[test]
fn a_refusal_has_its_cause_where_the_input_has_a_name() {
    let rows = [
        (
            RunFailure::Read(failed(5)),
            "read failed",
            "read failed: input/output error",
        ),
        (
            RunFailure::Read(failed(107)),
            "read failed",
            "read failed: error 107 of the system",
        ),
        (
            RunFailure::Write(failed(28)),
            "write failed",
            "write failed: no space left on device",
        ),
        (
            RunFailure::TooLong,
            "input is too long",
            "input is too long",
        ),
        (
            RunFailure::NotUtf8(7),
            "input is not UTF-8",
            "input is not UTF-8 at byte 7",
        ),
        (
            RunFailure::from(AllocError),
            "out of memory",
            "out of memory",
        ),
    ];
    for (failure, bare, with_name) in rows {
        let outcome = Outcome::of_run(Err(failure));
        assert_eq!(
            reported(&outcome, None),
            (2, format!("wat_tokens: {bare}\n"))
        );
        assert_eq!(
            reported(&outcome, Some("f")),
            (2, format!("wat_tokens: f: {with_name}\n"))
        );
    }
}

#[test]
fn the_words_of_an_error_are_those_of_its_number() {
    let rows = [
        (2, "no such file or directory"),
        (5, "input/output error"),
        (9, "bad file descriptor"),
        (13, "permission denied"),
        (20, "not a directory"),
        (21, "is a directory"),
        (24, "too many open files"),
        (27, "file too large"),
        (28, "no space left on device"),
        (32, "broken pipe"),
        (36, "file name too long"),
        (40, "too many levels of symbolic links"),
        (1, "error 1 of the system"),
    ];
    for (code, words) in rows {
        let report = format!("wat_tokens: f: open failed: {words}\n");
        assert_eq!(
            reported(&Outcome::Unopened(failed(code)), Some("f")),
            (2, report)
        );
    }
}

#[test]
fn a_pipe_that_nobody_reads_is_no_failure_of_a_file() {
    let outcome = Outcome::of_run(Err(RunFailure::Write(failed(32))));
    assert_eq!(
        reported(&outcome, None),
        (2, "wat_tokens: write failed\n".to_owned())
    );
    assert_eq!(reported(&outcome, Some("f")), (0, String::new()));
}

#[test]
fn a_run_that_ends_well_reports_nothing() {
    let done = Outcome::of_run(Ok(None));
    assert_eq!(reported(&done, None), (0, String::new()));
    assert_eq!(reported(&done, Some("f")), (0, String::new()));
}

#[test]
fn words_that_ask_for_nothing_have_a_complaint() {
    let usage =
        "usage: wat_tokens [--allow-confusing] [--strict-underscores] [sig NAME.. | play CALL..]\n";
    assert_eq!(
        reported(&Outcome::Wrong(Complaint::Usage), None),
        (2, usage.to_owned())
    );
}

#[test]
fn a_fault_is_printed_and_a_byte_order_mark_of_a_file_has_a_hint() {
    let message = Text::from("m".to_owned());
    let fault = Outcome::of_run(Ok(Some(Error::new(Span::from_offset(3), message))));
    assert_eq!(
        reported(&fault, None),
        (1, "m at byte offset 3\n".to_owned())
    );
    let unexpected = LexError::Unexpected('\u{feff}');
    let mark = Error::lex(Global, Span::from_offset(0), "\u{feff}", unexpected);
    let mark = Outcome::of_run(Ok(Some(mark)));
    let printed = |name| {
        format!(
            "unexpected character '\\u{{feff}}'\n     --> {name}:1:1\n      |\n    1 | \u{feff}\n      | ^\n"
        )
    };
    assert_eq!(reported(&mark, None), (1, printed("<anon>")));
    let hint = "the text begins with a byte order mark, which has to go\n";
    assert_eq!(reported(&mark, Some("f")), (1, printed("f") + hint));
}

#[test]
fn a_long_name_is_reported_whole_without_its_control_characters() {
    let long = "n".repeat(2_000);
    let name = format!("{long}\u{1b}\n\u{7f}\u{85}");
    let shown = format!("{long}\u{241b}\u{240a}\u{2421}\u{fffd}");
    let error = Error::lex(Global, Span::from_offset(0), "(;\u{7}", LexError::EmptyId);
    let report =
        format!("empty identifier\n     --> {shown}:1:1\n      |\n    1 | (;\u{2407}\n      | ^\n");
    assert_eq!(reported(&Outcome::Faulty(error), Some(&name)), (1, report));
    let report = format!("wat_tokens: {shown}: open failed: no such file or directory\n");
    assert_eq!(
        reported(&Outcome::Unopened(failed(2)), Some(&name)),
        (2, report)
    );
}
