//! A parser of the table of runs, `tests/runs.txt` of the repository.

use std::ffi::OsString;
use std::fmt;
use std::fs::read_to_string;
use std::os::unix::ffi::OsStringExt;

const TABLE: &str = concat!(env!("CARGO_MANIFEST_DIR"), "/../../tests/runs.txt");

/// The table: the files that exist before the runs, and the runs. The name of a folder ends in `/`.
#[derive(Default)]
pub struct Table {
    pub files: Vec<(OsString, Vec<u8>)>,
    records: Vec<Record>,
}

/// Command lines with the same standard input and the same expected result.
#[derive(Default)]
pub struct Record {
    runs: Vec<Vec<OsString>>,
    pub input: Vec<u8>,
    pub answer: Answer,
}

/// The result of a run: its exit status, standard output and standard error.
#[derive(Default, PartialEq)]
pub struct Answer {
    pub status: u8,
    pub output: Vec<u8>,
    pub report: Vec<u8>,
}

impl fmt::Debug for Answer {
    fn fmt(&self, f: &mut fmt::Formatter<'_>) -> fmt::Result {
        let (output, report) = (self.output.escape_ascii(), self.report.escape_ascii());
        let status = self.status;
        write!(
            f,
            "status {status}, output \"{output}\", report \"{report}\""
        )
    }
}

impl Table {
    pub fn read() -> Table {
        let text = read_to_string(TABLE).expect("the table is a text");
        let mut table = Table::default();
        for paragraph in text.split("\n\n") {
            let record = table.record_of(paragraph);
            let is_run = !record.runs.is_empty();
            assert!(is_run || is_head(paragraph), "no run of:\n{paragraph}");
            table.records.push(record);
        }
        let (runs, files) = (table.runs().count(), table.files.len());
        assert!(runs >= 585, "the table has {runs} runs");
        assert!(files >= 24, "the table has {files} files");
        table
    }

    /// Returns the arguments of each run, with its record.
    pub fn runs(&self) -> impl Iterator<Item = (&[OsString], &Record)> {
        self.records
            .iter()
            .flat_map(|record| record.runs.iter().map(move |words| (&words[..], record)))
    }

    /// Parses a paragraph to a record, and adds its files to the table.
    fn record_of(&mut self, paragraph: &str) -> Record {
        let mut record = Record::default();
        for line in paragraph.lines() {
            let (kind, text) = line.split_once(' ').unwrap_or((line, ""));
            match kind {
                "#" => {}
                "@" => {
                    let (name, text) = text.split_once(' ').unwrap_or((text, ""));
                    self.files.push((word_of(name), bytes_of(text)));
                }
                "$" => record
                    .runs
                    .push(text.split_whitespace().map(word_of).collect()),
                "<" => record.input.extend(bytes_of(text)),
                ">" => record.answer.output.extend(bytes_of(text)),
                "!" => record.answer.report.extend(bytes_of(text)),
                "=" => record.answer.status = text.parse().expect("a status"),
                _ => panic!("no line of a record: {line}"),
            }
        }
        record
    }
}

/// Returns `true` if a paragraph has only comments and files, and no run.
fn is_head(paragraph: &str) -> bool {
    paragraph.lines().all(|line| line.starts_with(['#', '@']))
}

fn word_of(text: &str) -> OsString {
    if text == "\"\"" {
        OsString::new()
    } else {
        OsString::from_vec(bytes_of(text))
    }
}

/// Decodes the escapes of a text.
fn bytes_of(text: &str) -> Vec<u8> {
    let mut bytes = Vec::new();
    let mut rest = text;
    while let Some((plain, escape)) = rest.split_once('\\') {
        bytes.extend(plain.as_bytes());
        rest = push_escape(&mut bytes, escape);
    }
    bytes.extend(rest.as_bytes());
    bytes
}

/// Decodes the escape at the start of a text, after its backslash, and returns the text after it.
fn push_escape<'a>(bytes: &mut Vec<u8>, text: &'a str) -> &'a str {
    let (kind, rest) = text.split_at(1);
    match kind {
        "n" => bytes.push(b'\n'),
        "r" => bytes.push(b'\r'),
        "t" => bytes.push(b'\t'),
        "0" => bytes.push(0),
        "\\" => bytes.push(b'\\'),
        "x" => {
            let (digits, rest) = rest.split_at(2);
            bytes.push(u8::from_str_radix(digits, 16).unwrap());
            return rest;
        }
        "u" => {
            let (digits, rest) = rest[1..].split_once('}').unwrap();
            let c = char::from_u32(u32::from_str_radix(digits, 16).unwrap()).unwrap();
            bytes.extend(c.to_string().as_bytes());
            return rest;
        }
        _ => panic!("no escape: \\{text}"),
    }
    rest
}
