//! The table of runs: tests of the program that cargo builds, and of the functions `run_list`, `run_sig` and `run_play`.
#![cfg(unix)]

#[path = "../../wat-lex/tests/refusing/mod.rs"]
mod refusing;
mod table;

use refusing::granting;
use std::ffi::{OsStr, OsString};
use std::fs;
use std::io::{self, Read, Write};
use std::path::{Path, PathBuf};
use std::process::{Command, Stdio};
use table::{Answer, Record, Table};
use wat_lex::proved::error::Error;
use wat_parser::proved::parser::Call;
use wat_tokens::commands::Settings;
use wat_tokens::commands::run::{RunError, run_list, run_play, run_sig};
use wat_tokens::lines::ends::Plain;
use wat_tokens::lists::calls::read_call;
use wat_tokens::shim::alloc::Global;
use wat_tokens::shim::prelude::String as Word;

/// A temporary directory with the files of the table, which is removed when it is dropped.
struct Folder(PathBuf);

impl Folder {
    fn of(table: &Table) -> Folder {
        let path = std::env::temp_dir().join(format!("wat_tokens-{}-runs", std::process::id()));
        fs::create_dir(&path).unwrap();
        for (name, text) in &table.files {
            let path = path.join(name);
            if is_folder(name) {
                fs::create_dir(path).unwrap();
            } else {
                fs::write(path, text).unwrap();
            }
        }
        Folder(path)
    }

    /// Returns `true` if a file has this text, or is the folder of this name.
    fn has(&self, (name, text): &(OsString, Vec<u8>)) -> bool {
        let path = self.0.join(name);
        if is_folder(name) {
            return path.is_dir();
        }
        fs::read(path).is_ok_and(|read| read == *text)
    }
}

impl Drop for Folder {
    fn drop(&mut self) {
        let _ = fs::remove_dir_all(&self.0);
    }
}

/// Returns `true` if a name of the table is that of a folder.
fn is_folder(name: &OsStr) -> bool {
    name.as_encoded_bytes().ends_with(b"/")
}

fn run_program(words: &[OsString], input: &[u8], folder: &Path) -> Answer {
    let mut running = Command::new(env!("CARGO_BIN_EXE_wat_tokens"))
        .args(words)
        .current_dir(folder)
        .stdin(Stdio::piped())
        .stdout(Stdio::piped())
        .stderr(Stdio::piped())
        .spawn()
        .unwrap();
    // A write fails if the program ends without reading its input, e.g. after a usage error.
    let _ = running.stdin.take().unwrap().write_all(input);
    let done = running.wait_with_output().unwrap();
    Answer {
        status: done.status.code().unwrap().try_into().unwrap(),
        output: done.stdout,
        report: done.stderr,
    }
}

#[test]
fn the_program_does_what_the_table_says() {
    let table = Table::read();
    let folder = Folder::of(&table);
    for (words, record) in table.runs() {
        let answer = run_program(words, &record.input, &folder.0);
        assert_eq!(answer, record.answer, "{words:?}");
    }
    let stay = table.files.iter().all(|file| folder.has(file));
    assert!(stay, "a file is other than it was");
}

/// One of the three functions, with its arguments except the text.
enum Asked {
    List,
    Sig(Vec<Word>),
    Play(Vec<Call>),
}

/// Parses the settings at the start of a command line, and returns them with the remaining arguments.
fn settings_of(words: &[String]) -> (Settings, &[String]) {
    let is_setting =
        |word: &&String| matches!(word.as_str(), "--allow-confusing" | "--strict-underscores");
    let count = words.iter().take_while(is_setting).count();
    let (given, rest) = words.split_at(count);
    let settings = Settings {
        allow: given.contains(&"--allow-confusing".to_owned()),
        strict: given.contains(&"--strict-underscores".to_owned()),
    };
    (settings, rest)
}

/// Parses a command and its arguments. Returns `None` if it is not one of the three, or if its arguments are not valid.
fn asked(words: &[String]) -> Option<Asked> {
    let Some((verb, rest)) = words.split_first() else {
        return Some(Asked::List);
    };
    match verb.as_str() {
        "list" if rest.is_empty() => Some(Asked::List),
        "sig" => Some(Asked::Sig(rest.iter().cloned().map(Word::from).collect())),
        "play" => {
            let calls = rest.iter().map(|word| read_call(Global, word).unwrap());
            calls.collect::<Option<_>>().map(Asked::Play)
        }
        _ => None,
    }
}

/// A reader of a text that returns at most `most` bytes per call.
struct Text<'a> {
    rest: &'a [u8],
    most: usize,
}

impl Read for Text<'_> {
    fn read(&mut self, buffer: &mut [u8]) -> io::Result<usize> {
        let most = self.most.min(buffer.len());
        self.rest.read(&mut buffer[..most])
    }
}

/// Calls one of the three functions. Returns its result, and the buffer `room` with the output.
fn run_call(
    asked: &Asked,
    settings: Settings,
    text: Text,
    room: Vec<u8>,
) -> (Result<Option<Error>, RunError>, Vec<u8>) {
    let (mut input, mut output) = (Plain::new(text), Plain::new(room));
    let (from, to) = (&mut input, &mut output);
    let ended = match asked {
        Asked::List => run_list(Global, from, to, settings),
        Asked::Sig(names) => run_sig(Global, from, to, settings, names),
        Asked::Play(calls) => run_play(Global, from, to, settings, calls).map(|()| None),
    };
    (ended, output.into_inner())
}

/// Returns the status, output and report of the program for the result and output of a function.
fn answer_of((ended, output): (Result<Option<Error>, RunError>, Vec<u8>)) -> Answer {
    let (status, report) = match ended {
        Ok(None) => (0, String::new()),
        Ok(Some(error)) => (1, format!("{error}\n")),
        Err(error) => (2, format!("wat_tokens: {error}\n")),
    };
    Answer {
        status,
        output,
        report: report.into_bytes(),
    }
}

/// A test case of the table whose command is one of the three functions.
struct Case<'a> {
    words: &'a [OsString],
    asked: Asked,
    settings: Settings,
    record: &'a Record,
}

impl Case<'_> {
    /// Runs the case with `most` bytes per read, and with allocations that fail after the first `granted`. Returns the result, and the number of
    /// allocations.
    fn answer(&self, most: usize, granted: usize) -> (Answer, usize) {
        let rest = &self.record.input;
        let room = Vec::with_capacity(self.record.answer.output.len());
        let run = || run_call(&self.asked, self.settings, Text { rest, most }, room);
        let (ended, requests) = granting(granted, run);
        (answer_of(ended), requests)
    }
}

fn cases(table: &Table) -> Vec<Case<'_>> {
    let is_asked = |record: &Record| !record.answer.report.starts_with(b"usage");
    let cases = table.runs().filter(|(_, record)| is_asked(record));
    let cases = cases.filter_map(|(words, record)| {
        let text = |word: &OsString| word.to_str().map(str::to_owned);
        let texts: Vec<String> = words.iter().map(text).collect::<Option<_>>()?;
        let (settings, rest) = settings_of(&texts);
        Some(Case {
            words,
            asked: asked(rest)?,
            settings,
            record,
        })
    });
    let cases: Vec<Case> = cases.collect();
    assert!(cases.len() >= 77, "the table has {} calls", cases.len());
    cases
}

#[test]
fn the_calls_do_what_the_table_says_however_short_the_reads_are() {
    for case in cases(&Table::read()) {
        let answers = [1, 2, 7, usize::MAX].map(|most| case.answer(most, usize::MAX).0);
        let is_wanted = answers.iter().all(|answer| *answer == case.record.answer);
        assert!(is_wanted, "{:?}: {answers:?}", case.words);
    }
}

/// Fails each allocation of a run in turn, together with all allocations after it.
fn refuse_each(case: &Case) {
    let (_, requests) = case.answer(usize::MAX, usize::MAX);
    // Only a run with neither input nor output does not allocate.
    let is_idle = case.record.input.is_empty() && case.record.answer.output.is_empty();
    assert_eq!(requests == 0, is_idle, "{:?}: {requests}", case.words);
    let refused = Answer {
        status: 2,
        output: Vec::new(),
        report: b"wat_tokens: out of memory\n".to_vec(),
    };
    for granted in 0..requests {
        let (answer, _) = case.answer(usize::MAX, granted);
        assert_eq!(
            answer, refused,
            "{:?}, {granted} of {requests} granted",
            case.words
        );
    }
}

#[test]
fn a_call_that_gets_no_memory_has_written_nothing() {
    cases(&Table::read()).iter().for_each(refuse_each);
}
