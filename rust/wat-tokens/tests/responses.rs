//! Command lines: the files that they open, in order, and the results for long texts and many arguments.
// Each of these texts is built once, so a string per line is fast enough.
#![allow(clippy::format_collect)]

use std::cell::RefCell;
use std::rc::Rc;
use wat_tokens::commands::Settings;
use wat_tokens::commands::options::Mode;
use wat_tokens::commands::outcome::{Exit, Outcome};
use wat_tokens::commands::respond::{Inputs, respond};
use wat_tokens::lines::ends::{Failed, Plain, Sink};
use wat_tokens::shim::alloc::{AllocError, Global};
use wat_tokens::shim::prelude::String as Word;

/// In-memory files with their texts, which record the operations on them.
struct Files<'a> {
    texts: &'a [(&'a str, &'a [u8])],
    asked: Vec<String>,
    is_shown: bool,
    written: Rc<RefCell<Vec<u8>>>,
}

/// The in-memory file of an output.
struct Target(Rc<RefCell<Vec<u8>>>);

impl Sink for Target {
    fn write_all(&mut self, bytes: &[u8]) -> Result<(), Failed> {
        self.0.borrow_mut().extend_from_slice(bytes);
        Ok(())
    }

    fn failed(&self) -> bool {
        false
    }
}

impl<'a> Files<'a> {
    fn new(texts: &'a [(&'a str, &'a [u8])]) -> Files<'a> {
        Files {
            texts,
            asked: Vec::new(),
            is_shown: false,
            written: Rc::default(),
        }
    }

    fn text(&self, file: &str) -> Option<&'a [u8]> {
        let mut files = self.texts.iter();
        files.find(|(name, _)| *name == file).map(|(_, text)| *text)
    }
}

impl<'a> Inputs for Files<'a> {
    type Input = Plain<&'a [u8]>;
    type Output = Target;

    fn is_there(&self, file: &str) -> bool {
        self.text(file).is_some()
    }

    fn is_shown(&self) -> bool {
        self.is_shown
    }

    fn create(&self, file: &str) -> Result<Target, AllocError> {
        self.written
            .borrow_mut()
            .extend_from_slice(format!("{file}: ").as_bytes());
        Ok(Target(Rc::clone(&self.written)))
    }

    fn open(&mut self, file: &str) -> Result<Plain<&'a [u8]>, Failed> {
        self.asked.push(format!("open {file}"));
        let missing = Failed::of(&std::io::Error::from_raw_os_error(2));
        self.text(file).map(Plain::new).ok_or(missing)
    }

    fn lay_out(&mut self, settings: Settings, mode: Mode, file: &str) -> Exit {
        let Settings { allow, strict } = settings;
        self.asked.push(format!("{mode:?} {allow} {strict} {file}"));
        match file {
            "a" => Outcome::Differs.exit(true),
            "bad" => Outcome::Kept.exit(true),
            _ => Exit::idle(),
        }
    }
}

/// Runs the program with these arguments, and returns its status, output and report.
fn answer(words: &str, files: &mut Files) -> (u8, Vec<u8>, Vec<u8>) {
    let words: Vec<Word> = words
        .split_whitespace()
        .map(|word| Word::from(word.to_owned()))
        .collect();
    let (mut output, mut report) = (Plain::new(Vec::new()), Vec::new());
    let exit = respond(Global, &words, files, &mut output, &mut report);
    (exit.code(), output.into_inner(), report)
}

const FILES: &[(&str, &[u8])] = &[
    ("-", b"y"),
    ("a", b"x"),
    ("b", b"x"),
    ("bad", b"x(;"),
    ("bytes", b"ab\xff"),
];

/// Command lines, each with its exit status and its operations on files.
const ASKED: &[(&str, u8, &[&str])] = &[
    ("", 0, &["open -"]),
    ("sig a", 0, &["open -"]),
    ("a", 0, &["open a"]),
    ("a - a", 0, &["open a", "open -", "open a"]),
    ("bad a", 1, &["open bad", "open a"]),
    ("a none bad", 2, &["open a", "open none", "open bad"]),
    ("bytes a", 2, &["open bytes", "open a"]),
    ("--json --file a --file - sig", 0, &["open a", "open -"]),
    ("blank a", 0, &["open a"]),
    ("--file a types", 1, &["open a"]),
    ("--file a play take", 0, &["open a"]),
    ("none.wat", 2, &["open none.wat"]),
    ("list none", 2, &["open none"]),
    ("none", 2, &[]),
    ("none a.wat", 2, &[]),
    ("--json none", 2, &[]),
    ("play Look", 2, &[]),
    ("--file a --file b play look", 2, &[]),
    ("--version", 0, &[]),
    ("fmt --check -- b", 0, &["Check false false b"]),
    ("--allow-confusing fmt --check", 0, &["Check true false -"]),
    (
        "--strict-underscores fmt --write a",
        1,
        &["Write false true a"],
    ),
    (
        "fmt --diff a b",
        1,
        &["Diff false false a", "Diff false false b"],
    ),
    ("fmt --check -- --write", 0, &["Check false false --write"]),
    (
        "--file a fmt --check b",
        1,
        &["Check false false a", "Check false false b"],
    ),
    (
        "fmt --check 1 a 3",
        1,
        &[
            "Check false false 1",
            "Check false false a",
            "Check false false 3",
        ],
    ),
    (
        "fmt --write b a bad c",
        2,
        &[
            "Write false false b",
            "Write false false a",
            "Write false false bad",
            "Write false false c",
        ],
    ),
    ("fmt --check --write", 2, &[]),
    ("fmt a --check", 1, &["Check false false a"]),
    (
        "fmt a --write --allow-confusing --file bad b",
        2,
        &[
            "Write true false a",
            "Write true false bad",
            "Write true false b",
        ],
    ),
    ("a --json b", 0, &["open a", "open b"]),
    ("list a --file b bad", 1, &["open a", "open b", "open bad"]),
    ("module a -o out", 1, &["open a"]),
    ("module -o out", 1, &["open -"]),
    ("module a -o out -o out", 2, &[]),
    ("list a -o out", 2, &[]),
];

#[test]
fn each_file_is_asked_for_once_and_in_order() {
    for (words, status, asked) in ASKED {
        let mut files = Files::new(FILES);
        let (got, ..) = answer(words, &mut files);
        assert_eq!(
            (got, &files.asked[..]),
            (*status, as_strings(asked).as_slice()),
            "{words}"
        );
    }
}

fn as_strings(lines: &[&str]) -> Vec<String> {
    lines.iter().copied().map(str::to_owned).collect()
}

/// Runs the program with these arguments and a text on standard input, and returns its status, output and report.
fn answer_to(words: &str, text: &str) -> (u8, String, String) {
    let inputs = [("-", text.as_bytes())];
    let mut files = Files::new(&inputs);
    let (status, output, report) = answer(words, &mut files);
    let text = |bytes| String::from_utf8(bytes).unwrap();
    (status, text(output), text(report))
}

/// Returns the result of a successful run with this output and an empty report.
fn done(output: String) -> (u8, String, String) {
    (0, output, String::new())
}

#[test]
fn help_is_had_before_any_command_and_after_most() {
    let help = answer_to("--help", "");
    assert!(help.1.contains("usage:") && help.1.contains("sig NAME..") && help.1.ends_with('\n'));
    assert_eq!((help.0, help.2.as_str()), (0, ""));
    for words in ["-h", "-h sig", "fmt --help", "list -h", "--help play Look"] {
        assert_eq!(answer_to(words, ""), help, "{words}");
    }
}

#[test]
fn two_thousand_calls_have_two_thousand_replies() {
    let words = format!("play{}", " look".repeat(2_000));
    assert_eq!(answer_to(&words, "x"), done("0..1 Keyword\n".repeat(2_000)));
}

#[test]
fn ten_thousand_annotations_may_be_open() {
    let answer = answer_to("play look", &"(@a".repeat(10_000));
    assert_eq!(answer, done("fault 1 unclosed annotation\n".to_owned()));
}

#[test]
fn lines_of_more_than_a_megabyte_come_before_a_fault() {
    let text = "x ".repeat(550_000) + "(;";
    let lines: String = (0..550_000)
        .map(|i| format!("{}..{} Keyword\n", 2 * i, 2 * i + 1))
        .collect();
    let report = "unterminated block comment at <anon>:1:1100001\n".to_owned();
    assert!(answer_to("sig", &text) == (1, lines, report));
}

#[test]
fn a_line_of_json_may_be_longer_than_a_block() {
    let text = format!("\n;;{}", "s\u{1}".repeat(30_000));
    let lines = format!(
        "{}{}{}{}",
        "{\"offset\":0,\"length\":1,\"kind\":\"Whitespace\",\"text\":\"\\n\",\"line\":1,\"column\":1}\n",
        "{\"offset\":1,\"length\":60002,\"kind\":\"LineComment\",\"text\":\";;",
        "s\\u0001".repeat(30_000),
        "\",\"line\":2,\"column\":1}\n"
    );
    assert!(answer_to("--json list", &text) == done(lines));
    assert_eq!(answer_to("--json sig", &text), done(String::new()));
}

#[test]
fn a_string_that_stays_may_be_longer_than_a_block() {
    let string = format!("\"{}\"", "s".repeat(70_000));
    let text = format!("x (;y;){string};;z");
    assert!(answer_to("blank", &text) == done(format!("x      {string}   ")));
}

/// A command line that compiles a module, and the expected destinations of the bytes.
struct Written {
    words: &'static str,
    is_shown: bool,
    status: u8,
    /// The bytes written to standard output.
    output: &'static [u8],
    /// The bytes written to another file, after its name and `: `.
    elsewhere: &'static [u8],
}

const fn written(
    words: &'static str,
    is_shown: bool,
    status: u8,
    output: &'static [u8],
    elsewhere: &'static [u8],
) -> Written {
    Written {
        words,
        is_shown,
        status,
        output,
        elsewhere,
    }
}

const WRITTEN: &[Written] = &[
    written("module m", false, 0, EMPTY, b""),
    written("module m", true, 2, b"", b""),
    written("types m", true, 2, b"", b""),
    written("module m -o -", true, 0, EMPTY, b""),
    written("types --output - m", true, 0, EMPTY, b""),
    written("module m -o out", false, 0, b"", b"out: \0asm\x01\0\0\0"),
    written("-o out types m", true, 0, b"", b"out: \0asm\x01\0\0\0"),
    written("module a -o out", false, 1, b"", b"out: "),
    written("module none -o out", false, 2, b"", b"out: "),
    written("module bytes -o out", true, 2, b"", b"out: "),
    written("blank m", true, 0, b"(module)", b""),
];

const EMPTY: &[u8] = b"\0asm\x01\0\0\0";

#[test]
fn bytes_of_a_module_go_where_words_say() {
    let texts: &[(&str, &[u8])] = &[("m", b"(module)"), ("a", b"x"), ("bytes", b"ab\xff")];
    for case in WRITTEN {
        let mut files = Files::new(texts);
        files.is_shown = case.is_shown;
        let (status, output, _) = answer(case.words, &mut files);
        assert_eq!(status, case.status, "{}", case.words);
        assert_eq!(output, case.output, "{}", case.words);
        assert_eq!(*files.written.borrow(), case.elsewhere, "{}", case.words);
    }
}
