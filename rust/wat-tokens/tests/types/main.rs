//! The compiler of function types: the texts of `tests/types.txt`, and their prefixes and mutants, compared with a reference implementation.

mod second;

use wat_lex::Lexer;
use wat_tokens::shim::alloc::Global;
use wat_tokens::types::compile_types;

/// Pairs of lines: a text, and the bytes of its module in hexadecimal, as `wat2wasm` writes them, or its error with the byte offset.
const TYPES: &str = include_str!("../../../../tests/types.txt");

/// The magic number and the version, with which each module begins.
const HEADER: &[u8] = b"\0asm\x01\0\0\0";

/// Returns each text of the table, with its expected result.
fn rows() -> Vec<(&'static str, &'static str)> {
    let lines: Vec<&str> = TYPES.lines().collect();
    let row = |pair: &[&'static str]| (pair[0], pair[1].strip_prefix("    ").expect("an answer"));
    lines.chunks(2).map(row).collect()
}

/// Compiles a text, and returns the result as the table writes it.
fn answer(text: &str) -> String {
    match compile_types(Global, text) {
        Ok(bytes) => bytes
            .iter()
            .fold(String::new(), |hex, byte| format!("{hex}{byte:02x}")),
        Err(error) => {
            let message = error.message(Global).unwrap();
            format!("{message} at {}", error.span().offset())
        }
    }
}

#[test]
fn texts_have_the_bytes_of_the_table() {
    let rows = rows();
    assert!(rows.len() >= 16, "the table has {} texts", rows.len());
    for (text, wanted) in rows {
        assert_eq!(answer(text), wanted, "{text}");
    }
}

/// Compiles 1,001 types. Their count and the length of their section each take two bytes of LEB128.
#[test]
fn many_types_have_their_bytes() {
    let text = format!("(module{})", "(type (func))".repeat(1001));
    let types = [0x60, 0x00, 0x00].repeat(1001);
    let wanted = [HEADER, &[0x01, 0xbd, 0x17, 0xe9, 0x07], &types].concat();
    assert_eq!(*compile_types(Global, &text).unwrap(), wanted);
}

/// Checks that the compiler and the reference implementation agree on a text. Returns `true` if it is a module of types.
fn agrees(text: &str) -> bool {
    let found = compile_types(Global, text).ok().map(Vec::from);
    let wanted = second::section(text).map(|section| [HEADER, &section].concat());
    assert_eq!(found, wanted, "{text}");
    found.is_some()
}

#[test]
fn parts_of_texts_are_read_as_the_second_reader_reads_them() {
    let parts = rows()
        .iter()
        .flat_map(|(text, _)| (0..=text.len()).map(|end| &text[..end]))
        .filter(|part| agrees(part))
        .count();
    // Each text that is a module, and two prefixes of `(module) x`.
    let texts = rows().into_iter().filter(|(text, _)| agrees(text)).count();
    assert_eq!(parts, texts + 2);
}

/// Returns the mutants of a text in which one raw token is deleted, repeated after a space, or swapped with the next.
fn edits(text: &str) -> Vec<String> {
    let lexer = Lexer::new(text);
    let words: Vec<&str> = lexer
        .iter(0)
        .map(|token| token.unwrap().src(text))
        .collect();
    let mut edits = Vec::new();
    for at in 0..words.len() {
        let (before, after) = (words[..at].concat(), words[at + 1..].concat());
        let word = words[at];
        edits.push(format!("{before}{after}"));
        edits.push(format!("{before}{word} {word}{after}"));
        if let [next, rest @ ..] = &words[at + 1..] {
            edits.push(format!("{before}{next}{word}{}", rest.concat()));
        }
    }
    edits
}

#[test]
fn edits_of_texts_are_read_as_the_second_reader_reads_them() {
    let edits: Vec<String> = rows().iter().flat_map(|(text, _)| edits(text)).collect();
    let read = edits.iter().filter(|text| agrees(text)).count();
    println!("{} edits, {read} of them are read", edits.len());
    assert!(
        read > 100 && edits.len() - read > 500,
        "{read} of {}",
        edits.len()
    );
}
