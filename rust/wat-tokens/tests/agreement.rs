//! Golden tests of the program: each case has a text, the arguments if there are any, and the expected standard output.

use std::fs::{File, read, read_dir, read_to_string};
use std::path::{Path, PathBuf};
use std::process::{Command, Stdio};

const CASES: &str = concat!(
    env!("CARGO_MANIFEST_DIR"),
    "/../../crates/wat_tokens/agreement"
);

/// Returns the sorted paths of the texts of all cases, or `None` if their directory does not exist.
fn texts() -> Option<Vec<PathBuf>> {
    let entries = read_dir(CASES).ok()?;
    let mut texts: Vec<PathBuf> = entries.map(|entry| entry.unwrap().path()).collect();
    texts.retain(|path| path.extension().is_none());
    texts.sort();
    Some(texts)
}

/// Reads the arguments of a case, one per line. There are none if the file does not exist.
fn words_of(text: &Path) -> String {
    read_to_string(text.with_extension("args")).unwrap_or_default()
}

/// Returns `true` if the program's standard output is that of the case.
fn agrees(text: &Path) -> bool {
    let done = Command::new(env!("CARGO_BIN_EXE_wat_tokens"))
        .args(words_of(text).lines())
        .stdin(File::open(text).unwrap())
        .stderr(Stdio::null())
        .output()
        .unwrap();
    done.stdout == read(text.with_extension("stdout")).unwrap()
}

#[test]
fn each_case_is_written_as_it_is_stored() {
    let Some(texts) = texts() else {
        println!("left out, as the folder {CASES} is not here");
        return;
    };
    assert!(texts.len() > 300, "{}", texts.len());
    let other: Vec<&PathBuf> = texts.iter().filter(|text| !agrees(text)).collect();
    assert!(
        other.is_empty(),
        "{} of {} differ: {other:?}",
        other.len(),
        texts.len()
    );
    println!("{} cases", texts.len());
}
