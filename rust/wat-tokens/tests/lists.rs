//! The functions of `lists`: arguments as calls, replies as lines, file names in errors and formatted texts; and the list of a prefix of a text.
// Each of these texts is built once, so a string per line is fast enough.
#![allow(clippy::format_collect)]

use wat_lex::proved::error::Error;
use wat_lex::proved::lexer::{LexError, Token, TokenKind};
use wat_lex::proved::token::Span;
use wat_parser::proved::parser::{FaultKind, Reply};
use wat_tokens::commands::Settings;
use wat_tokens::commands::run::run_list;
use wat_tokens::lines::ends::Plain;
use wat_tokens::lists::calls::read_call;
use wat_tokens::lists::fmt::{Compared, run_compare, run_fmt};
use wat_tokens::lists::named::FileReport;
use wat_tokens::lists::play::reply_lines;
use wat_tokens::shim::alloc::Global;
use wat_tokens::shim::prelude::String as Text;

const OFF: Settings = Settings {
    allow: false,
    strict: false,
};

const EACH: [Settings; 4] = [
    OFF,
    Settings {
        allow: false,
        strict: true,
    },
    Settings {
        allow: true,
        strict: false,
    },
    Settings {
        allow: true,
        strict: true,
    },
];

/// Arguments of `play`, and the calls that they are parsed as.
const CALLS: &[(&str, &str)] = &[
    ("look", "Some(Look)"),
    ("take", "Some(Take)"),
    ("comment", "Some(Comment)"),
    ("reg=", "Some(Register(\"\"))"),
    ("reg=a=b", "Some(Register(\"a=b\"))"),
    ("unreg=reg", "Some(Unregister(\"reg\"))"),
    ("parens=0", "Some(Parens(0))"),
    ("parens=000000007", "Some(Parens(7))"),
    ("parens=123456789", "Some(Parens(123456789))"),
    ("parens=", "None"),
    ("parens=1234567890", "None"),
    ("parens=+1", "None"),
    ("parens=-1", "None"),
    ("parens=1a", "None"),
    ("parens=\u{661}", "None"),
    ("Look", "None"),
    ("look ", "None"),
    ("reg", "None"),
    ("", "None"),
];

#[test]
fn words_stand_for_calls() {
    for (word, call) in CALLS {
        let read = read_call(Global, word).unwrap();
        assert_eq!(format!("{read:?}"), *call, "{word:?}");
    }
}

#[test]
fn each_reply_has_a_line() {
    let token = Token {
        offset: 7,
        kind: TokenKind::Whitespace,
        len: u32::MAX,
    };
    let unexpected = LexError::Unexpected('é');
    let rows = [
        (Reply::Token(token), "7..4294967302 Whitespace\n"),
        (Reply::End, "end\n"),
        (
            Reply::Fault(0, FaultKind::Lex(unexpected)),
            "fault 0 unexpected character '\\u{e9}'\n",
        ),
        (
            Reply::Fault(12, FaultKind::Unclosed),
            "fault 12 unclosed annotation\n",
        ),
        (Reply::Comment(10, 5), "comment 10..15\n"),
        (
            Reply::Comment(usize::MAX, u32::MAX),
            if cfg!(target_pointer_width = "64") {
                "comment 18446744073709551615..18446744078004518910\n"
            } else {
                "comment 4294967295..8589934590\n"
            },
        ),
        (Reply::Done, "done\n"),
        (Reply::Absent, "absent\n"),
        (Reply::NotOpen(1), "not open 1\n"),
        (Reply::NotClosed(23), "not closed 23\n"),
        (Reply::TooOften, "too often\n"),
    ];
    let (replies, lines): (Vec<Reply>, Vec<&str>) = rows.into_iter().unzip();
    let written = reply_lines(Global, &replies).unwrap();
    assert_eq!(String::from_utf8_lossy(&written), lines.concat());
    assert!(reply_lines(Global, &[]).unwrap().is_empty());
}

/// Returns the lexical error `EmptyId` at a byte offset of a text.
fn empty_id(text: &str, offset: usize) -> Error {
    Error::lex(Global, Span::from_offset(offset), text, LexError::EmptyId)
}

/// Returns a message that itself contains a location of `<anon>`.
fn message() -> Text {
    Text::from("\n     --> <anon>".to_owned())
}

/// Returns the report of `EmptyId` in column `column` of `a b.wat`, with this part of the line, and the marker after `margin` spaces.
fn in_window(column: usize, line: &str, margin: usize) -> String {
    let place = format!("empty identifier\n     --> a b.wat:1:{column}\n");
    format!(
        "{place}      |\n    1 | {line}\n      | {}^",
        " ".repeat(margin)
    )
}

#[test]
fn a_name_takes_the_place_of_anon_where_the_place_is() {
    let long = "x".repeat(500);
    let (longer, wide, dropped) = ("x".repeat(1000), "世".repeat(600), "\u{202e}".repeat(600));
    let marked = "a\u{301}".repeat(400);
    let in_longer = in_window(601, &format!("...{long}..."), 252);
    let in_long = in_window(501, &format!("...{}", "x".repeat(249)), 252);
    let start = Span::from_offset(0);
    let rows = [
        (
            empty_id("a\nb", 2),
            "empty identifier\n     --> a b.wat:2:1\n      |\n    2 | b\n      | ^",
        ),
        (empty_id(&long, 500), &in_long),
        (empty_id(&longer, 600), &in_longer),
        (empty_id(&wide, 900), "empty identifier at a b.wat:1:601"),
        (empty_id(&marked, 900), "empty identifier at a b.wat:1:301"),
        (
            empty_id(&dropped, 1800),
            "empty identifier at a b.wat:1:1801",
        ),
        (
            Error::parse(Global, start, "x", message()),
            "\n     --> <anon>\n     --> a b.wat:1:1\n      |\n    1 | x\n      | ^",
        ),
        (
            Error::new(Span::from_offset(3), message()),
            "a b.wat: \n     --> <anon> at byte offset 3",
        ),
        (Error::out_of_memory(), "a b.wat: out of memory"),
    ];
    for (error, printed) in rows {
        let name = "a b.wat";
        let error = &error;
        assert_eq!(FileReport { name, error }.to_string(), printed);
    }
}

/// Texts and their formatted texts.
const LAYOUTS: &[(&str, &str)] = &[
    ("", ""),
    ("( a\n b )", "(a\n  b)\n"),
    ("(a)\n", "(a)\n"),
    ("(a)", "(a)\n"),
    ("a;;b \n)", "a ;;b \n)\n"),
    ("a\t;;\n", "a ;;\n"),
    ("(@a )( @a)", "(@a) ( @a)\n"),
    ("a\r\n\r\nb", "a\n\nb\n"),
];

/// Compares bytes with their formatted text. Returns the formatted text if it differs, or the error as it is reported.
fn compared(bytes: &[u8]) -> Result<Option<String>, String> {
    match run_compare(Global, &mut Plain::new(bytes), OFF) {
        Ok(Compared::Same) => Ok(None),
        Ok(Compared::Other(text)) => Ok(Some(text.as_str().to_owned())),
        Ok(Compared::Longer) => Err("longer".to_owned()),
        Ok(Compared::Faulty(error)) => Err(error.to_string()),
        Err(failure) => Err(failure.to_string()),
    }
}

#[test]
fn texts_are_laid_out_and_compared_with_their_layouts() {
    for (text, layout) in LAYOUTS {
        let mut output = Plain::new(Vec::new());
        let ended = run_fmt(Global, &mut Plain::new(text.as_bytes()), &mut output, OFF);
        assert!(matches!(ended, Ok(None)), "{text:?}");
        assert_eq!(output.into_inner(), layout.as_bytes(), "{text:?}");
        let other = (text != layout).then(|| layout.to_string());
        assert_eq!(compared(text.as_bytes()), Ok(other), "{text:?}");
    }
}

#[test]
fn nothing_is_laid_out_of_a_text_with_a_fault() {
    let fault =
        "unterminated block comment\n     --> <anon>:2:4\n      |\n    2 |  b (;\n      |    ^";
    let text = "( a\n b (;".as_bytes();
    let mut output = Plain::new(Vec::new());
    let ended = run_fmt(Global, &mut Plain::new(text), &mut output, OFF);
    assert_eq!(ended.unwrap().expect("a fault").to_string(), fault);
    assert!(output.into_inner().is_empty());
    assert_eq!(compared(text), Err(fault.to_owned()));
    assert_eq!(
        compared(b"a\n\xff"),
        Err("input is not UTF-8 at byte 2".to_owned())
    );
}

/// Returns the list of the tokens of a text, and the printed lexical error if there is one.
fn list(text: &str, settings: Settings) -> (String, Option<String>) {
    let mut output = Plain::new(Vec::new());
    let ended = run_list(
        Global,
        &mut Plain::new(text.as_bytes()),
        &mut output,
        settings,
    );
    let fault = ended.unwrap().map(|error| error.to_string());
    (String::from_utf8(output.into_inner()).unwrap(), fault)
}

/// Texts with each kind of token and of lexical error.
const TEXTS: &[&str] = &[
    "(module (func $foo))",
    "",
    "(; (;;) ;)",
    "(;)",
    "(;;);;x\r\n$0^;;",
    "1_ 1__0 1._5 1e 0x 0x1e5 1. inf nan:0x",
    "\"x\"$ @a\"b\" $\"x\" $ @",
    "\"\\u{110000}\"",
    "\"\\u{100000000}\"",
    "\"\\u{1_",
    "\"\\u{0_f_3}\"",
    "\"ab",
    "\"a\n",
    ";;\u{202e}",
    "\"\\u{202e}\"",
    "\"\u{202e}\"",
    "(;\u{202e}",
    "-1_2.1_1E+0_1",
    "-0x10",
    "+0x1_2.3_4P-5_6",
    "(@a \")\" (; ) ;)) 7",
    "(@a (@)) 1",
    "(@)",
    "(@a 1",
    "(@\"bad",
    "(\"bad",
    "( @a)",
    "module (@name \"m\") x",
    "(a b",
    "x ;;c",
    "4294967295",
    "4294967296",
    "-2147483649",
    "-0",
    "\"\\ff\"",
    "12 13",
    "\t(;",
    "\"é\" \"\\q\"",
    "a\n",
    "$\"\\ff\"",
    "x",
    ")",
    "(func $f)",
    "(func)",
    "\"\\u{1_0}\"",
    "\"\\u{1__0}\\n\\7f\\u{d800}\" x",
    "(; (; x ;) ;;) ;;) y",
    ";; a\r\n;;b\n;c;;",
    "$\"a\" @\"b\"c $d\"e\" \"f\"\"g\"",
    "-0x1_2.8p+3 1e5 +nan:0x7f inf 1_ 0x",
    ",[]{};)(\t\n\r ",
    "a é b",
    "(;\u{2066};) ;;\u{206c}\nz",
    "é@a",
    "(;",
    "(@name \"m\")",
    "12",
    "a",
];

fn long_line() -> String {
    " ".repeat(500) + "(;"
}

/// Checks for each prefix of a text that its lines are the first lines of the whole text: all of them if the prefix has a lexical error, and all
/// except the last otherwise.
fn cut(text: &str, settings: Settings) {
    let (whole, _) = list(text, settings);
    for (end, _) in text.char_indices() {
        let (lines, fault) = list(&text[..end], settings);
        let unsure = usize::from(fault.is_none());
        let sure = lines.lines().count().saturating_sub(unsure);
        let (cut, whole) = (lines.lines().take(sure), whole.lines().take(sure));
        assert!(cut.eq(whole), "{text:?}, cut at {end}, {settings:?}");
    }
}

#[test]
fn the_list_of_a_text_that_is_cut_begins_that_of_the_whole() {
    let long = long_line();
    for text in TEXTS.iter().copied().chain([long.as_str()]) {
        for settings in EACH {
            cut(text, settings);
        }
    }
}

#[test]
fn a_fault_on_a_long_line_is_shown_without_the_line() {
    for settings in EACH {
        let (lines, fault) = list(&long_line(), settings);
        assert_eq!(
            fault.as_deref(),
            Some("unterminated block comment at <anon>:1:501")
        );
        assert_eq!(lines, "0..500 Whitespace\n");
    }
}

#[test]
fn comments_may_be_ten_thousand_deep() {
    let open = "(;".repeat(10_000) + &";)".repeat(9_999);
    let (lines, fault) = list(&open, OFF);
    let place = "unterminated block comment\n     --> <anon>:1:1\n";
    assert!(lines.is_empty() && fault.is_some_and(|fault| fault.starts_with(place)));
    let closed = open + ";)";
    assert_eq!(
        list(&closed, OFF),
        ("0..40000 BlockComment\n".to_owned(), None)
    );
}

#[test]
fn parentheses_may_be_ten_thousand_deep() {
    let lines: String = (0..10_000)
        .map(|at| format!("{at}..{} LParen\n", at + 1))
        .collect();
    assert_eq!(list(&"(".repeat(10_000), OFF), (lines, None));
}
