//! The texts of `tests/modules.txt`, both compilers of types, and texts that are deep, long or cut.

use std::collections::BTreeSet;
use std::thread;
use wat_lex::shim::alloc::Global;
use wat_modules::types::compile_types;
use wat_modules::{Error, Parser};

/// The magic number and the version, with which each module begins.
const HEADER: &[u8] = b"\0asm\x01\0\0\0";

/// The table of texts with their bytes or errors; its head describes the format.
const TABLE: &str = include_str!("../../../tests/modules.txt");

/// Other tables of `tests`, in some of whose lines are texts of modules.
const OTHERS: [&str; 4] = [
    include_str!("../../../tests/answers.txt"),
    include_str!("../../../tests/layouts.txt"),
    include_str!("../../../tests/runs.txt"),
    include_str!("../../../tests/types.txt"),
];

/// Compiles a text without a name section.
fn parse_str(text: impl AsRef<str>) -> Result<Vec<u8>, Error> {
    Parser::new().names(false).compile(text.as_ref())
}

/// Returns the text that a line of a table represents.
fn text_of(line: &str) -> String {
    line.replace('⏎', "\n").replace('␠', " ")
}

/// Returns each text of the table, with its expected result.
fn rows() -> Vec<(String, &'static str)> {
    let is_row = |line: &&str| !line.starts_with('#');
    let lines: Vec<&str> = TABLE.lines().filter(is_row).collect();
    let wanted = |line: &'static str| line.strip_prefix("    ").expect("a result");
    lines
        .chunks(2)
        .map(|pair| (text_of(pair[0]), wanted(pair[1])))
        .collect()
}

/// Returns the result of a compiler as the table writes it.
fn shown(outcome: Result<Vec<u8>, Error>) -> String {
    match outcome {
        Ok(bytes) => bytes
            .iter()
            .fold(String::new(), |hex, byte| format!("{hex}{byte:02x}")),
        Err(error) => format!("{} at {}", error.message(), error.span().offset()),
    }
}

#[test]
fn texts_have_the_results_of_the_table() {
    let rows = rows();
    assert!(rows.len() >= 169, "the table has {} texts", rows.len());
    for (text, wanted) in rows {
        assert_eq!(shown(parse_str(&text)), wanted, "{text}");
    }
}

/// Checks that `compile_types` and `parse_str` return the same bytes for each text of the tables for which both return bytes. A text that only the first
/// compiles has two types of one name.
#[test]
fn both_compilers_write_the_same_bytes() {
    let parts = OTHERS.iter().flat_map(|table| table.lines());
    let parts = parts.filter_map(|line| line.find("(module").map(|at| text_of(&line[at..])));
    let texts: BTreeSet<String> = rows()
        .into_iter()
        .map(|(text, _)| text)
        .chain(parts)
        .collect();
    let (mut agreed, mut departures) = (0, Vec::new());
    for text in &texts {
        let Ok(types) = compile_types(Global, text) else {
            continue;
        };
        match parse_str(text) {
            Ok(bytes) => assert_eq!(bytes, Vec::from(types), "{text}"),
            error => departures.push((text.as_str(), shown(error))),
        }
        agreed += 1;
    }
    println!("{agreed} of {} texts", texts.len());
    assert!(agreed >= 13, "{agreed} of {} texts", texts.len());
    let known = "(module (type $t (func)) (type $t (func)))";
    assert_eq!(
        departures,
        [(
            known,
            "duplicate type `$t`, first defined at line 1, column 15 at 31".to_owned()
        )]
    );
}

#[test]
fn an_error_shows_its_line() {
    let error = parse_str(String::from("(module\n  (func nop) ?)")).unwrap_err();
    assert_eq!(
        error.to_string(),
        "expected a module field or `)`, found `?`\n     --> <anon>:2:14\n      |\n    2 |   (func nop) ?)\n      |              ^"
    );
    assert!(!error.is_out_of_memory());
}

/// Checks that messages have neither control characters nor confusing characters, and that they have other characters of two and three bytes.
#[test]
fn messages_have_only_characters_that_are_shown_as_they_are() {
    let message = |text: String| parse_str(text).unwrap_err().message();
    let hidden = "\u{80}\u{9b}\u{9f}\u{202a}\u{202b}\u{202d}\u{202e}\u{2066}\u{2067}\u{2068}\u{2069}\u{206c}";
    let shown = "\u{a0}éß\u{2029}\u{202c}\u{202f}\u{2065}\u{206a}\u{206b}\u{206d}€";
    for (c, is_shown) in hidden
        .chars()
        .map(|c| (c, false))
        .chain(shown.chars().map(|c| (c, true)))
    {
        let (name, quoted) = (format!("$\"a{c}b\""), format!(" `$\"a{c}b\"`"));
        let or_nothing = |text: &str| {
            if is_shown {
                text.to_owned()
            } else {
                String::new()
            }
        };
        assert_eq!(
            message(format!("(start {name})")),
            format!("unknown function{}", or_nothing(&quoted))
        );
        assert_eq!(
            message(format!("(start 0 {name})")),
            format!(
                "expected `)`, found{}",
                if is_shown { &quoted } else { " an identifier" }
            )
        );
        let near = format!("; did you mean `{name}` at line 1, column 13?");
        assert_eq!(
            message(format!("(func block {name} end $c)")),
            format!("mismatching label `$c`{}", or_nothing(&near))
        );
        // A third of the 9 bytes of the unknown identifier may differ, and `c` has at most 3 bytes.
        let near = format!("; did you mean `$\"abc{c}def\"` at line 1, column 7?");
        assert_eq!(
            message(format!("(func $\"abc{c}def\") (start $\"abcdef\")")),
            format!("unknown function `$\"abcdef\"`{}", or_nothing(&near))
        );
    }
}

/// Checks that no message suggests a label of more than 40 bytes.
#[test]
fn long_labels_are_not_suggested() {
    let message = |label: &str| {
        parse_str(format!("(func block ${label} end $b)"))
            .unwrap_err()
            .message()
    };
    let near = |label: &str| {
        format!("mismatching label `$b`; did you mean `${label}` at line 1, column 13?")
    };
    let (short, long) = ("a".repeat(39), "a".repeat(40));
    assert_eq!(message(&short), near(&short));
    assert_eq!(message(&long), "mismatching label `$b`");
}

/// Rejects a text of more than `u32::MAX` bytes. Its zeroed memory is never written.
#[cfg(target_pointer_width = "64")]
#[test]
fn a_text_that_is_too_long_is_refused() {
    let text = String::from_utf8(vec![0; 1 << 32]).unwrap();
    let message = "the text has more than 4294967295 bytes at byte offset 0";
    assert_eq!(parse_str(&text).unwrap_err().to_string(), message);
}

/// Runs a function on a stack of 64 KiB.
fn on_a_small_stack(run: impl FnOnce() + Send + 'static) {
    let thread = thread::Builder::new().stack_size(0x1_0000).spawn(run);
    thread.unwrap().join().unwrap();
}

#[test]
fn no_depth_of_the_text_is_a_depth_of_the_stack() {
    const DEPTH: usize = 100_000;
    on_a_small_stack(|| {
        let blocks = format!(
            "(module (func {}{}))",
            "block ".repeat(DEPTH),
            "end ".repeat(DEPTH)
        );
        let bytes = parse_str(&blocks).unwrap();
        let body = [b"\x02\x40".repeat(DEPTH), b"\x0b".repeat(DEPTH + 1)].concat();
        assert!(bytes.ends_with(&body));
        assert!(parse_str(&blocks[..blocks.len() - 3]).is_err());

        let folded = format!(
            "(module (func {}(i32.const 7){}))",
            "(i32.eqz ".repeat(DEPTH),
            ")".repeat(DEPTH)
        );
        let bytes = parse_str(&folded).unwrap();
        assert!(bytes.ends_with(&[b"\x41\x07", &*b"\x45".repeat(DEPTH), b"\x0b"].concat()));
        assert!(parse_str(&folded[..folded.len() - 2]).is_err());
    });
}

/// Returns a module of one function with `count` nested blocks, whose labels `label` gives. After the beginning of each block, and after the end of
/// each but the outermost, it branches where `branch` says, by the number of the open blocks.
fn nested(
    count: usize,
    label: impl Fn(usize) -> String,
    branch: impl Fn(usize) -> String,
) -> String {
    let begin = |at: usize| format!("block {} br {}\n", label(at), branch(at + 1));
    let end = |at: usize| format!("end br {}\n", branch(at));
    let begins = (0..count).map(begin).collect::<String>();
    let ends = (1..count).rev().map(end).collect::<String>();
    format!("(func {begins}(drop (i32.const 0)) {ends}end)")
}

#[test]
fn a_label_is_found_at_any_depth() {
    let unnamed = |_| String::new();
    let one_name = |_| "$again".to_owned();
    let numbered = |at| format!("$l{at}");
    let compiled = |text: String| parse_str(text).unwrap();
    for depth in [1, 15, 16, 17, 18, 40] {
        let first = |at| if at == 0 { numbered(0) } else { one_name(at) };
        let outermost = nested(depth, unnamed, |open| (open - 1).to_string());
        assert_eq!(
            compiled(nested(depth, first, |_| numbered(0))),
            compiled(outermost)
        );
        let innermost = nested(depth, unnamed, |_| "0".to_owned());
        assert_eq!(
            compiled(nested(depth, one_name, one_name)),
            compiled(innermost)
        );
        let begins = (0..depth).map(|at| format!("block {} ", numbered(at)));
        let ends = "end ".repeat(depth);
        let closed = format!(
            "{}end br {} {ends}",
            begins.collect::<String>(),
            numbered(depth - 1)
        );
        let text = format!("(func block {closed})");
        // The label of the innermost open block differs in one digit.
        let nearest = depth.checked_sub(2).map(numbered).map(|name| {
            let column = text.find(&name).unwrap() + 1;
            format!("; did you mean `{name}` at line 1, column {column}?")
        });
        let unknown = format!("unknown label `{}`", numbered(depth - 1));
        let message = unknown + &nearest.unwrap_or_default();
        assert_eq!(parse_str(text).unwrap_err().message(), message);
    }
    for depth in [2_000, 100_000] {
        let half = nested(depth, unnamed, |open| (open - 1 - open / 2).to_string());
        let named = nested(depth, numbered, |open| numbered(open / 2));
        assert_eq!(compiled(named), compiled(half));
    }
}

/// Returns a type of six parameters as text and as bytes, a different one for each `number` below 64.
fn parameters(number: usize) -> (String, Vec<u8>) {
    let is_wide = |digit: &usize| number >> digit & 1 == 1;
    let words = (0..6).map(|digit| if is_wide(&digit) { " i64" } else { " i32" });
    let bytes = (0..6).map(|digit| if is_wide(&digit) { 0x7E } else { 0x7F });
    let text = format!("(param{})", words.collect::<String>());
    (
        text,
        [vec![0x60, 0x06], bytes.collect(), vec![0x00]].concat(),
    )
}

#[test]
fn a_type_is_found_among_many() {
    let (texts, types): (Vec<_>, Vec<_>) = (0..40).map(parameters).unzip();
    let function = |text: &String| format!("(func {text}) (func {text})");
    let text = texts.iter().map(function).collect::<String>();
    let indices = (0..40).flat_map(|index| [index, index]);
    let expected = [
        HEADER,
        b"\x01\xe9\x02\x28",
        &types.concat(),
        b"\x03\x51\x50",
        &indices.collect::<Vec<u8>>(),
        b"\x0a\xf1\x01\x50",
        &b"\x02\x00\x0b".repeat(80),
    ];
    assert_eq!(parse_str(&text).unwrap(), expected.concat());
}

#[test]
fn values_of_each_length_are_read() {
    for length in [0, 1, 2, 127, 254, 255, 256, 257, 300, 5000] {
        let name = "n".repeat(length);
        let text = format!(
            "(func $f{name}) (export \"{name}\" (func $f{name})) (memory 0) (data \"{name}\")"
        );
        let escaped = format!(
            "(func $\"f{name}\") (export \"{name}\" (func $\"\\66{name}\")) (memory 0) (data \"{name}\")"
        );
        let bytes = parse_str(&text).unwrap();
        let count = bytes
            .windows(length.max(1))
            .filter(|part| part.iter().all(|byte| *byte == b'n'));
        assert!(length == 0 || count.count() == 2, "{length}");
        assert_eq!(bytes, parse_str(&escaped).unwrap(), "{length}");
    }
    let word = "w".repeat(300);
    let error = parse_str(format!("(func\n{word})")).unwrap_err();
    assert_eq!(
        (error.message().as_str(), error.span().offset()),
        ("unknown instruction", 6)
    );
}

#[test]
fn prefixes_are_answered() {
    let function = "(func $fN (export \"é N\") (param $x i32) (result i64) (local f32 f64)\n \
        (block $a (br_if $a (local.get $x)) ;; one\n (call $fN (i32.const -0x1_0))) (; two ;) drop i64.const 5)\n";
    let functions = (0..12).map(|at| function.replace('N', &at.to_string()));
    let text = format!("(module {})", functions.collect::<String>());
    assert!(text.len() > 2000, "{} bytes", text.len());
    for end in (1..text.len()).filter(|end| text.is_char_boundary(*end)) {
        let error = parse_str(&text[..end]).expect_err("a part of a module");
        assert!(error.span().offset() <= end, "{end}");
    }
    assert!(parse_str(&text).is_ok());
}
