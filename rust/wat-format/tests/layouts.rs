//! Formats texts with each of the three functions.
#![cfg(feature = "std")]

#[path = "../../wat-parser/tests/answers/pictures.rs"]
mod pictures;

use pictures::{drawn, spelled};
use wat_format::{FormatError, Options, format, format_to, format_to_writer};

/// Pairs of lines: a text, and its formatted text, or `fault` if it has a lexical error.
const TABLE: &str = include_str!("../../../tests/layouts.txt");

/// Formats a text with each function, checks that the results agree, and returns the result.
fn formatted(text: &str, options: Options) -> Result<String, FormatError> {
    let (mut output, mut bytes) = (String::new(), Vec::new());
    let result = options.format(text);
    let streamed = options.format_to(text, &mut output);
    let written = options.format_to_writer(text, &mut bytes);
    assert_eq!(result.is_ok(), streamed.is_ok(), "{text}");
    assert_eq!(result.is_ok(), written.is_ok(), "{text}");
    let wanted = result.as_deref().unwrap_or_default();
    assert_eq!(output, wanted, "{text}");
    assert_eq!(bytes, wanted.as_bytes(), "{text}");
    result
}

#[test]
fn each_text_of_the_table_has_its_layout() {
    let lines: Vec<&str> = TABLE.lines().collect();
    assert!(lines.len() >= 158, "the table has {} lines", lines.len());
    for row in lines.chunks(2) {
        let result = match formatted(&spelled(row[0]), Options::new()) {
            Ok(layout) => drawn(&layout),
            Err(FormatError::Lexical { .. }) => "fault".to_owned(),
            Err(error) => panic!("{}: {error}", row[0]),
        };
        let wanted = row[1].strip_prefix("    ").expect("an indented layout");
        assert_eq!(result, wanted, "{}", row[0]);
    }
}

#[test]
fn a_formatted_text_is_formatted() {
    for row in TABLE.lines().step_by(2) {
        let Ok(once) = format(&spelled(row)) else {
            continue;
        };
        assert_eq!(format(&once).unwrap(), once, "{row}");
    }
}

/// Checks that each option accepts or rejects its texts.
#[test]
fn an_option_accepts_or_rejects_a_text() {
    let plain = Options::new();
    let rows = [
        (";;\u{202e}", plain, false),
        (";;\u{202e}", plain.allow_confusing_unicode(true), true),
        (
            ";;\u{202e}",
            plain
                .allow_confusing_unicode(true)
                .allow_confusing_unicode(false),
            false,
        ),
        (";;\u{202e}", plain.strict_underscores(true), false),
        ("\"\\u{1__0}\"", plain, true),
        ("\"\\u{1__0}\"", plain.strict_underscores(true), false),
        ("\"\\u{1_0}\"", plain.strict_underscores(true), true),
    ];
    for (text, options, is_accepted) in rows {
        let result = formatted(text, options);
        assert_eq!(result.is_ok(), is_accepted, "{text}, {options:?}");
        let wanted = if is_accepted {
            format!("{text}\n")
        } else {
            String::new()
        };
        assert_eq!(result.unwrap_or_default(), wanted, "{text}, {options:?}");
    }
}

#[test]
fn the_functions_of_the_crate_have_the_default_options() {
    let (mut output, mut bytes) = (String::new(), Vec::new());
    format_to("( a )", &mut output).unwrap();
    format_to_writer("( a )", &mut bytes).unwrap();
    assert_eq!(
        (output.as_str(), bytes.as_slice()),
        ("(a)\n", &b"(a)\n"[..])
    );
    assert_eq!(Options::default(), Options::new());
}

/// Formats a text of several blocks, with characters of two to four bytes at their ends.
#[test]
fn a_long_text_is_written_in_blocks() {
    let text = "( a ;; \u{e9}\u{20ac}\u{1f600}\n )\n".repeat(40_000);
    let layout = formatted(&text, Options::new()).unwrap();
    assert_eq!(
        layout.len(),
        40_000 * "(a ;; \u{e9}\u{20ac}\u{1f600}\n)\n".len()
    );
}
