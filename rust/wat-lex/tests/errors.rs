//! Methods and messages of errors, with and without allocation failures.

// Compared values are passed by value.
#![allow(clippy::needless_pass_by_value)]

mod refusing;

use refusing::{refusing_in_turn, without_memory};
use std::fmt::Display;
use wat_lex::proved::error::{Error, Rendered};
use wat_lex::proved::lexer::{LexError, LexFault};
use wat_lex::proved::token::Span;
use wat_lex::shim::alloc::Global;
use wat_lex::shim::string::String;

const FAULTS: [LexError; 7] = [
    LexError::EmptyId,
    LexError::Unexpected('é'),
    LexError::InvalidStringElement('\n'),
    LexError::InvalidHexDigit('\\'),
    LexError::Expected {
        wanted: '{',
        found: '\u{10ffff}',
    },
    LexError::InvalidUnicodeValue(0x11_abcd),
    LexError::ConfusingUnicode('\u{202e}'),
];

const OUT_OF_MEMORY: &str = "out of memory";

fn new(offset: usize, message: &str) -> Error {
    Error::new(Span::from_offset(offset), message.to_string().into())
}

fn of_fault(offset: usize, text: &str, fault: LexError) -> Error {
    Error::lex(Global, Span::from_offset(offset), text, fault)
}

/// Calls `set_text` of an error with each of several texts.
fn given(mut error: Error, texts: &[&str]) -> Error {
    for text in texts {
        error.set_text(Global, text).unwrap();
    }
    error
}

/// Checks the offset, the message and the printed text of an error.
fn answers(error: Error, offset: usize, message: &str, printed: &str) {
    assert_eq!(error.to_string(), printed);
    assert_eq!(*error.message(Global).unwrap(), *message, "{printed}");
    assert_eq!(error.span().offset(), offset, "{printed}");
    let is_memory = message == OUT_OF_MEMORY;
    assert_eq!(error.is_out_of_memory(), is_memory, "{printed}");
    assert_eq!(error.alloc_error().is_some(), is_memory, "{printed}");
}

#[test]
fn errors_print_their_place_and_line() {
    let plain = "m at byte offset 1";
    let in_text = "m\n     --> <anon>:1:2\n      |\n    1 | ab\n      |  ^";
    let of_its_own = "empty identifier\n     --> <anon>:1:1\n      |\n    1 | $\n      | ^";
    let empty = || of_fault(0, "$", LexError::EmptyId);
    let memory = Error::out_of_memory;
    let rows = [
        (new(1, "m"), 1, "m", plain),
        (given(new(1, "m"), &["ab"]), 1, "m", in_text),
        (given(new(1, "m"), &["ab", "x\ny"]), 1, "m", in_text),
        (empty(), 0, "empty identifier", of_its_own),
        (given(empty(), &["x\ny"]), 0, "empty identifier", of_its_own),
        (memory(), 0, OUT_OF_MEMORY, OUT_OF_MEMORY),
        (given(memory(), &["ab"]), 0, OUT_OF_MEMORY, OUT_OF_MEMORY),
    ];
    for (error, offset, message, printed) in rows {
        answers(error, offset, message, printed);
    }
}

#[test]
fn only_a_fault_is_one_of_the_lexer() {
    for fault in FAULTS {
        assert_eq!(of_fault(0, "$", fault).lex_error(), Some(&fault));
        let message = String::from(fault.to_string());
        let same = Error::parse(Global, Span::from_offset(0), "$", message);
        assert_eq!(same.to_string(), of_fault(0, "$", fault).to_string());
        assert_eq!(same.lex_error(), None, "{fault}");
    }
    assert_eq!(new(1, "m").lex_error(), None);
    assert_eq!(Error::out_of_memory().lex_error(), None);
}

/// Checks that a width or a precision in the format string does not change the output.
fn is_never_padded(value: &dyn Display) {
    let printed = value.to_string();
    assert_eq!(format!("{value:>99}"), printed);
    assert_eq!(format!("{value:.3}"), printed);
}

#[test]
fn holes_with_a_width_print_the_same() {
    for fault in FAULTS {
        is_never_padded(&fault);
        is_never_padded(&of_fault(2, "a\nb c", fault));
    }
    is_never_padded(&new(7, "m"));
    is_never_padded(&Error::out_of_memory());
}

#[test]
fn faults_are_written_without_memory() {
    let text = "\n".repeat(1233);
    for error in FAULTS {
        let fault = LexFault {
            offset: text.len(),
            error,
        };
        let rendered = Rendered::new(&text, fault);
        let mut bytes = [7; 128];
        let count = without_memory(|| rendered.write_to(&mut bytes));
        assert_eq!(bytes[..count], *rendered.to_string().as_bytes());
        assert_eq!(bytes[count..], [7; 128][count..], "{rendered}");
        assert_eq!(rendered.length(), count, "{rendered}");
        assert_eq!(
            of_fault(text.len(), &text, error).to_string(),
            rendered.to_string()
        );
    }
}

#[test]
fn long_messages_are_kept() {
    let message = "m".repeat(1_100_000);
    let in_text = Error::parse(Global, Span::from_offset(1), "ab", message.clone().into());
    for error in [new(1, &message), in_text] {
        assert!(*error.message(Global).unwrap() == *message);
    }
}

#[test]
fn an_error_for_which_memory_is_refused_is_out_of_memory() {
    let message = "unterminated block comment";
    let printed = format!("{message}\n     --> <anon>:1:1\n      |\n    1 | (;\n      | ^");
    let call = |(): &mut ()| of_fault(0, "(;", LexError::DanglingBlockComment);
    let (refused, (error, ())) = refusing_in_turn(|| (), call);
    answers(error, 0, message, &printed);
    for (error, ()) in refused {
        assert_eq!(error.lex_error(), None);
        answers(error, 0, OUT_OF_MEMORY, OUT_OF_MEMORY);
    }
}

#[test]
fn a_text_for_which_memory_is_refused_leaves_the_error() {
    let printed = "m\n     --> <anon>:1:2\n      |\n    1 | ab\n      |  ^";
    let call = |error: &mut Error| error.set_text(Global, "ab");
    let (refused, (answer, error)) = refusing_in_turn(|| new(1, "m"), call);
    assert!(answer.is_ok());
    answers(error, 1, "m", printed);
    for (answer, error) in refused {
        assert!(answer.is_err());
        answers(error, 1, "m", "m at byte offset 1");
    }
}
