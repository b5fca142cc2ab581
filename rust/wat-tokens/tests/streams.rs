//! The program's standard streams and command-line arguments, with those of the operating system.
#![cfg(unix)]

use std::ffi::OsStr;
use std::fs::{self, File};
use std::io::{Read, Seek, Write};
use std::os::fd::OwnedFd;
use std::os::unix::ffi::OsStrExt;
use std::os::unix::net::UnixDatagram;
use std::path::PathBuf;
use std::process::{Command, Output, Stdio};
use std::thread::spawn;

const USAGE: &str =
    "usage: wat_tokens [--allow-confusing] [--strict-underscores] [sig NAME.. | play CALL..]\n";

fn program(words: &[&str]) -> Command {
    let mut command = Command::new(env!("CARGO_BIN_EXE_wat_tokens"));
    command.args(words).stdin(Stdio::null());
    command
}

/// Runs a command, and returns its status, output and report.
fn ended(command: &mut Command) -> (i32, String, String) {
    let Output {
        status,
        stdout,
        stderr,
    } = command.output().unwrap();
    let text = |bytes| String::from_utf8(bytes).unwrap();
    (status.code().unwrap(), text(stdout), text(stderr))
}

fn refused(report: &str) -> (i32, String, String) {
    (2, String::new(), report.to_owned())
}

/// A temporary file of a test, which is removed when it is dropped.
struct Kept(PathBuf);

impl Kept {
    fn new(name: &str, text: &[u8]) -> Kept {
        let path = std::env::temp_dir().join(format!("wat_tokens-{}-{name}", std::process::id()));
        fs::write(&path, text).unwrap();
        Kept(path)
    }
}

impl Drop for Kept {
    fn drop(&mut self) {
        let _ = fs::remove_file(&self.0);
    }
}

#[test]
fn standard_input_is_read_piece_by_piece_to_its_end() {
    let mut running = program(&[])
        .stdin(Stdio::piped())
        .stdout(Stdio::piped())
        .spawn()
        .unwrap();
    let mut input = running.stdin.take().unwrap();
    let text = "(a)".repeat(100_000);
    let written = spawn(move || {
        for piece in text.as_bytes().chunks(7001) {
            input.write_all(piece).unwrap();
        }
    });
    let mut lines = String::new();
    let mut output = running.stdout.take().unwrap();
    output.read_to_string(&mut lines).unwrap();
    written.join().unwrap();
    assert!(running.wait().unwrap().success());
    assert!(lines.ends_with("299999..300000 RParen\n"));
    assert_eq!(lines.lines().count(), 300_000);
}

#[test]
fn nothing_is_read_ahead_of_words_that_ask_for_nothing() {
    let kept = Kept::new("unread", b"(module)");
    let mut file = File::open(&kept.0).unwrap();
    let mut command = program(&["play", "Look"]);
    command.stdin(file.try_clone().unwrap());
    assert_eq!(ended(&mut command), refused(USAGE));
    assert_eq!(file.stream_position().unwrap(), 0);
}

#[test]
fn standard_input_that_can_not_be_read_is_an_error_of_the_system() {
    let folder = File::open("/").unwrap();
    let report = "wat_tokens: <stdin>: read failed: is a directory\n";
    assert_eq!(
        ended(program(&["-"]).stdin(folder.try_clone().unwrap())),
        refused(report)
    );
    let kept = Kept::new("write_only", b"");
    let no_reader = File::options().append(true).open(&kept.0).unwrap();
    let report = "wat_tokens: <stdin>: read failed: bad file descriptor\n";
    assert_eq!(ended(program(&["-"]).stdin(no_reader)), refused(report));
}

#[test]
fn standard_output_that_can_not_be_written_is_an_error_of_the_system() {
    let text = Kept::new("text", b"x");
    let name = text.0.to_str().unwrap();
    let no_writer = File::open(&text.0).unwrap();
    let report = format!("wat_tokens: {name}: write failed: bad file descriptor\n");
    assert_eq!(
        ended(program(&["list", name]).stdout(no_writer)),
        refused(&report)
    );
    let Ok(full) = File::options().write(true).open("/dev/full") else {
        println!("left out, as /dev/full is not here");
        return;
    };
    let report = format!("wat_tokens: {name}: write failed: no space left on device\n");
    for words in [
        &["list", name][..],
        &["fmt", name],
        &["fmt", "--check", name],
    ] {
        assert_eq!(
            ended(program(words).stdout(full.try_clone().unwrap())),
            refused(&report),
            "{words:?}"
        );
    }
}

/// Limits the process to four descriptors, so that no duplicate of standard output can be made: its error is that of the first write.
#[test]
fn standard_output_that_can_not_be_duplicated_is_an_error_of_the_system() {
    let mut command = Command::new("sh");
    let limited = "ulimit -n 4; exec \"$0\" -";
    let program = env!("CARGO_BIN_EXE_wat_tokens");
    command.args(["-c", limited, program]).stdin(Stdio::piped());
    let report = "wat_tokens: <stdin>: write failed: too many open files\n";
    assert_eq!(ended(&mut command), refused(report));
}

#[test]
fn a_pipe_that_nobody_reads_is_an_error_of_the_system() {
    let (reader, writer) = std::io::pipe().unwrap();
    drop(reader);
    let kept = Kept::new("piped", b"x");
    let mut command = program(&[]);
    command.stdin(File::open(&kept.0).unwrap()).stdout(writer);
    assert_eq!(ended(&mut command), refused("wat_tokens: write failed\n"));
}

#[test]
fn a_word_that_is_no_utf_8_is_none() {
    let mut command = program(&["sig"]);
    command.arg(OsStr::from_bytes(b"\xff"));
    assert_eq!(ended(&mut command), refused(USAGE));
}

#[test]
fn a_long_name_is_printed_whole() {
    let text = Kept::new("named", b"( a )");
    let name = text.0.to_str().unwrap();
    let long = format!("/{}{name}", "./".repeat(1500));
    assert_eq!(
        ended(&mut program(&["fmt", "--check", &long])),
        (1, format!("{long}\n"), String::new())
    );
    let missing = format!("{long}-none");
    let report = format!("wat_tokens: {missing}: open failed: no such file or directory\n");
    assert_eq!(
        ended(&mut program(&["fmt", "--check", &missing])),
        refused(&report)
    );
}

/// Runs a command, and returns each of its writes to standard error.
fn reports(command: &mut Command) -> Vec<Vec<u8>> {
    let (reader, writer) = UnixDatagram::pair().unwrap();
    let ends = writer.try_clone().unwrap();
    let read = spawn(move || {
        let mut block = vec![0; 1 << 16];
        let mut blocks = Vec::new();
        loop {
            match reader.recv(&mut block).unwrap() {
                0 => return blocks,
                len => blocks.push(block[..len].to_vec()),
            }
        }
    });
    command.stderr(OwnedFd::from(writer)).status().unwrap();
    ends.send(&[]).unwrap();
    read.join().unwrap()
}

#[test]
fn a_report_is_written_in_blocks() {
    // The report has four spaces for each tab, and formats them one by one.
    let text = Kept::new("tabs", format!("\u{e9}{}", "\t".repeat(10_000)).as_bytes());
    for words in [&["-"][..], &["list"], &["module"], &["fmt"]] {
        let mut command = program(words);
        command.stdin(File::open(&text.0).unwrap());
        let writes = reports(command.stdout(Stdio::null()));
        let report = String::from_utf8(writes.concat()).unwrap();
        assert!(report.contains(":1:1\n"), "{words:?}: {report:.100}");
        let blocks = report.len().div_ceil(4096);
        assert!(writes.len() <= blocks, "{words:?}: {} writes", writes.len());
    }
}
