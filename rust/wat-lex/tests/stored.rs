//! Golden tests: each stored text has the tokens of its list, which a program that uses the crate `wast` generated.

use std::fmt::Write;
use std::fs;
use std::path::{Path, PathBuf};
use wat_lex::proved::lexer::{Lexer, Token};
use wat_lex::shim::alloc::Global;

fn folder() -> PathBuf {
    Path::new(env!("CARGO_MANIFEST_DIR")).join("../../crates/wat_tokens/agreement")
}

/// Returns the path with `ending` appended.
fn beside(path: &Path, ending: &str) -> PathBuf {
    let mut name = path.as_os_str().to_owned();
    name.push(ending);
    name.into()
}

/// Returns the name of a token's kind, without the sign and the base of a number.
fn kind_of(token: &Token) -> String {
    let shown = format!("{:?}", token.kind);
    shown.split(['(', ' ']).next().unwrap().to_owned()
}

/// Lists the tokens of a text in the format of `wat_tokens`, up to the first lexical error. Returns the list and the printed error.
fn list(text: &str, allow: bool) -> (String, Option<String>) {
    let mut lexer = Lexer::new(text);
    lexer.allow_confusing_unicode(allow);
    let mut lines = String::new();
    for item in lexer.iter(Global, 0) {
        match item {
            Ok(token) => {
                let end = token.offset + token.len as usize;
                writeln!(lines, "{}..{end} {}", token.offset, kind_of(&token)).unwrap();
            }
            Err(error) => return (lines, Some(error.to_string())),
        }
    }
    (lines, None)
}

/// Returns each stored text that is lexed without arguments or with `--allow-confusing` only, and `true` for the latter.
fn plain_lists() -> Vec<(PathBuf, bool)> {
    let mut found = Vec::new();
    for entry in fs::read_dir(folder()).unwrap() {
        let path = entry.unwrap().path();
        if path
            .extension()
            .is_some_and(|ending| ending == "stdout" || ending == "args")
        {
            continue;
        }
        match fs::read_to_string(beside(&path, ".args"))
            .unwrap_or_default()
            .trim()
        {
            "" => found.push((path, false)),
            "--allow-confusing" => found.push((path, true)),
            _ => {}
        }
    }
    found
}

#[test]
fn stored_texts_are_listed_as_they_are_stored() {
    let mut with_fault = 0;
    let texts = plain_lists();
    for (path, allow) in &texts {
        let text = fs::read_to_string(path).unwrap();
        let (lines, fault) = list(&text, *allow);
        let stored = fs::read_to_string(beside(path, ".stdout")).unwrap();
        assert_eq!(lines, stored, "{}", path.display());
        with_fault += usize::from(fault.is_some());
    }
    println!("{} texts, {with_fault} with a fault", texts.len());
    assert!(texts.len() >= 240, "{}", texts.len());
}

/// Checks that both scanners find the same tokens up to the end of the text or the first lexical error. Returns the number of tokens.
fn scan_both_ways(text: &str) -> usize {
    let lexer = Lexer::new(text);
    let (mut pos, mut tokens) = (0, 0);
    loop {
        let found = lexer.scan(pos);
        assert_eq!(found, lexer.scan_by_byte(pos), "{pos} of {text:?}");
        match found {
            Ok(Some(token)) => pos += token.len as usize,
            _ => return tokens,
        }
        tokens += 1;
    }
}

#[test]
fn blocks_and_bytes_find_the_same() {
    let texts: Vec<String> = plain_lists()
        .iter()
        .map(|(path, _)| fs::read_to_string(path).unwrap())
        .collect();
    let mut random = 5u64;
    let mut below = |count: usize| {
        random = random
            .wrapping_mul(6_364_136_223_846_793_005)
            .wrapping_add(1);
        (random >> 33) as usize % count
    };
    let mut tokens: usize = texts.iter().map(|text| scan_both_ways(text)).sum();
    for _ in 0..5_000 {
        let parts = [below(texts.len()), below(texts.len())].map(|text| texts[text].as_str());
        let cut = |text: &str, at: usize| (0..=at).rev().find(|at| text.is_char_boundary(*at));
        let [first, second] = parts.map(|text| cut(text, below(text.len() + 1)).unwrap());
        tokens += scan_both_ways(&format!("{}{}", &parts[0][..first], &parts[1][second..]));
    }
    println!("{tokens} tokens");
    assert!(tokens > 100_000, "{tokens}");
}
