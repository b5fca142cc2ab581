//! Tests of the exported functions: reports with the caller's rows and message, and results over whole texts.

#[allow(unsafe_code)]
#[path = "../../wat-lex/tests/refusing/mod.rs"]
mod refusing;

use crate::page::{Report, Row, wat_page_read};
use crate::whole::{
    wat_page_answer, wat_page_answer_len, wat_page_compile, wat_page_error_offset,
    wat_page_lay_out, wat_page_message_len, wat_page_room, wat_page_types,
};
use refusing::granting;
use wat_modules::{parse_str, parse_valid_str};

const EMPTY: Row = Row { end: 0, kind: 99 };
const UNWRITTEN: Report = Report {
    ending: 9,
    rows: 9,
    offset: 9,
    line: 9,
    column: 9,
    message: 9,
};

/// Lexes a text with these settings into rows and a message, and returns the report.
#[allow(unsafe_code)]
fn read_with(
    text: &[u8],
    (allow, strict): (bool, bool),
    rows: &mut [Row],
    message: &mut [u8],
) -> Report {
    let mut report = UNWRITTEN;
    // SAFETY: each pointer and length are those of a slice.
    unsafe {
        wat_page_read(
            text.as_ptr(),
            text.len(),
            allow,
            strict,
            rows.as_mut_ptr(),
            rows.len(),
            message.as_mut_ptr(),
            message.len(),
            &mut report,
        );
    }
    report
}

fn read(text: &[u8], rows: &mut [Row], message: &mut [u8]) -> Report {
    read_with(text, (false, false), rows, message)
}

#[test]
fn a_text_to_its_end() {
    let mut rows = [EMPTY; 8];
    let mut message = [7; 4];
    let report = read(b"(f 1)", &mut rows, &mut message);
    let whole = Report {
        ending: 0,
        rows: 5,
        offset: 0,
        line: 0,
        column: 0,
        message: 0,
    };
    assert_eq!(report, whole);
    assert_eq!(message, [7; 4]);
    let ends: Vec<_> = rows.iter().map(|row| (row.end, row.kind)).collect();
    assert_eq!(
        ends[..6],
        [(1, 4), (2, 8), (3, 3), (4, 11), (5, 5), (0, 99)]
    );
}

#[test]
fn too_few_rows() {
    let mut rows = [EMPTY; 4];
    let report = read(b"(f 1)", &mut rows, &mut []);
    assert_eq!((report.ending, report.rows), (2, 4));
    let report = read(b"(f 1", &mut rows, &mut []);
    assert_eq!((report.ending, report.rows), (0, 4));
    let report = read(b"", &mut [], &mut []);
    assert_eq!((report.ending, report.rows), (0, 0));
}

#[test]
fn a_fault() {
    let mut message = [7; 128];
    let report = read("1\n é".as_bytes(), &mut [EMPTY; 8], &mut message);
    assert_eq!((report.ending, report.rows), (1, 2));
    assert_eq!((report.offset, report.line, report.column), (3, 1, 1));
    let known =
        "unexpected character '\\u{e9}'\n     --> <anon>:2:2\n      |\n    2 |  é\n      |  ^";
    assert_eq!(message[..report.message], *known.as_bytes());
    let mut few = [7; 28];
    let report = read("é".as_bytes(), &mut [], &mut few);
    assert_eq!((report.ending, report.message), (1, 28));
    assert!(known.as_bytes().starts_with(&few));
}

#[test]
fn no_text() {
    let report = read(b"(a\xff", &mut [EMPTY; 8], &mut []);
    assert_eq!((report.ending, report.rows, report.offset), (3, 0, 2));
}

#[test]
fn the_flags() {
    let confusing = ";;\u{202e}".as_bytes();
    let doubled = b"\"\\u{1__0}\"";
    let ending = |text: &[u8], flags| read_with(text, flags, &mut [EMPTY; 8], &mut []).ending;
    assert_eq!(ending(confusing, (false, false)), 1);
    assert_eq!(ending(confusing, (true, false)), 0);
    assert_eq!(ending(doubled, (false, true)), 1);
    assert_eq!(ending(doubled, (false, false)), 0);
}

/// Calls a function over a text, and returns its result, or `None` if it has none.
#[allow(unsafe_code)]
fn made(text: &[u8], call: impl Fn() -> bool) -> Option<Vec<u8>> {
    let room = wat_page_room(text.len());
    // SAFETY: the buffer has the length of the text.
    unsafe { room.copy_from_nonoverlapping(text.as_ptr(), text.len()) };
    call().then(answer)
}

#[allow(unsafe_code)]
fn answer() -> Vec<u8> {
    // SAFETY: the result has the length that `wat_page_answer_len` returns.
    unsafe { std::slice::from_raw_parts(wat_page_answer(), wat_page_answer_len()).to_vec() }
}

/// Returns the bytes of a module, which must be valid if `validates`, or its error: the message, its byte offset, and the excerpt after the message.
fn compiled(text: &[u8], validates: bool) -> Result<Vec<u8>, (String, usize, String)> {
    made(text, || wat_page_compile(validates)).ok_or_else(|| {
        let mut message = String::from_utf8(answer()).unwrap();
        let excerpt = message.split_off(wat_page_message_len());
        (message, wat_page_error_offset(), excerpt)
    })
}

/// Checks the results of the compiler, and its errors. After an allocation failure, there is no result.
fn modules() {
    let bytes = b"\0asm\x01\0\0\0\x01\x04\x01\x60\0\0\x03\x02\x01\0\x0a\x04\x01\x02\0\x0b";
    assert_eq!(compiled(b"(module (func))", false).unwrap(), bytes);
    assert_eq!(compiled(b"(module (func))", true).unwrap(), bytes);
    for (text, offset, invalid_offset) in [
        ("", None, None),
        ("(func\n (; \u{e9} ;)\tfrob)", Some(16), Some(16)),
        ("(func", Some(5), Some(5)),
        ("(func \"\\q\")", Some(8), Some(8)),
        ("(func (; \u{e9} ;)\n drop)", None, Some(16)),
        ("(func) (func (result i32))", None, Some(8)),
    ] {
        compare(compiled(text.as_bytes(), false), parse_str(text), offset);
        compare(
            compiled(text.as_bytes(), true),
            parse_valid_str(text),
            invalid_offset,
        );
    }
    let (message, _, excerpt) = compiled(b"(func \"\\q\")", false).unwrap_err();
    assert_eq!(message, "invalid string escape 'q'");
    assert!(excerpt.starts_with("\n     --> <anon>:1:9\n"));
    for validates in [false, true] {
        assert_eq!(made(b"(a\xff", || wat_page_compile(validates)), None);
        assert_eq!(wat_page_answer_len(), 0);
    }
    made(b"(module (func (export \"a\") nop))", || true);
    fail_each_allocation(|| wat_page_compile(false));
    fail_each_allocation(|| wat_page_compile(true));
}

/// Compares a result of the compiler with that of `wat_modules`, whose error is at this offset.
fn compare(
    result: Result<Vec<u8>, (String, usize, String)>,
    wanted: wat_modules::Result<Vec<u8>>,
    offset: Option<usize>,
) {
    let wanted = wanted.map_err(|error| {
        let (message, printed) = (error.message(), error.to_string());
        let excerpt = printed.strip_prefix(&message).unwrap().to_string();
        (message, error.span().offset(), excerpt)
    });
    assert_eq!(result, wanted);
    assert_eq!(result.err().map(|it| it.1), offset);
}

// This is a single test, since the tests of a process share one buffer.
#[test]
fn whole_texts() {
    let laid_out =
        |text: &[u8], call: fn() -> bool| made(text, call).map(|it| String::from_utf8(it).unwrap());
    let plain = || wat_page_lay_out(false, false);
    assert_eq!(
        laid_out(b"(module\n( func ) )", plain).unwrap(),
        "(module\n  (func))\n"
    );
    assert_eq!(laid_out(b"", plain).unwrap(), "");
    assert_eq!(laid_out(b"(\"", plain), None);
    assert_eq!(laid_out(b"(a\xff", plain), None);
    let (confusing, doubled) = (";;\u{202e}".as_bytes(), b"\"\\u{1__0}\"".as_slice());
    assert_eq!(laid_out(confusing, plain), None);
    assert!(laid_out(confusing, || wat_page_lay_out(true, false)).is_some());
    assert!(laid_out(doubled, plain).is_some());
    assert_eq!(laid_out(doubled, || wat_page_lay_out(false, true)), None);
    let bytes = b"\0asm\x01\0\0\0\x01\x05\x01\x60\x01\x7f\0";
    let types = made(b"(module (type (func (param i32))))", || wat_page_types());
    assert_eq!(types.as_deref(), Some(bytes.as_slice()));
    assert_eq!(made(b"(module (func))", || wat_page_types()), None);
    assert_eq!(wat_page_answer_len(), 0);
    assert!(made(b"(a)", plain).is_some());
    assert_eq!(wat_page_room(usize::MAX), std::ptr::null_mut());
    assert_eq!(wat_page_answer_len(), 0, "the result is freed");
    assert_eq!(cleared(b"(a)", 64), [0; 64]);
    for call in [plain, || wat_page_types()] {
        made(b"(module (type (func (param i32))))", || true);
        fail_each_allocation(call);
    }
    assert!(granting(0, || wat_page_room(1)).0.is_null());
    modules();
}

/// Fails each allocation of a function over the text in the buffer in turn, after which it has no result.
fn fail_each_allocation(call: fn() -> bool) {
    let (_, count) = granting(usize::MAX, call);
    assert!(count > 0);
    for granted in 0..count {
        let (is_made, _) = granting(granted, call);
        assert_eq!((is_made, wat_page_answer_len()), (false, 0), "{granted}");
    }
    assert!(call());
}

/// Returns the contents of a new buffer of `len` bytes, after one with a text.
#[allow(unsafe_code)]
fn cleared(text: &[u8], len: usize) -> Vec<u8> {
    made(text, || true);
    let buffer = wat_page_room(len);
    // SAFETY: the buffer has `len` bytes.
    unsafe { std::slice::from_raw_parts(buffer, len).to_vec() }
}
