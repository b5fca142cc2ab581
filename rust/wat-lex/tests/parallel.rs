//! Tokens lexed by several threads are those lexed by one.

use std::num::NonZeroUsize;
use wat_lex::{Error, Lexer, Token};

/// Elements of the random texts. Many lines begin inside a comment.
const PIECES: [&str; 24] = [
    "(",
    ")",
    "\n",
    "\n",
    "\n  ",
    "\r\n",
    " ",
    "a",
    "$id",
    "\"s\"",
    "\"\\n\"",
    "1_0",
    "1.5e3",
    ";; line\n",
    ";; \"\n",
    ";; (;\n",
    "(;\n",
    "\n;)",
    "(; a\nb ;)",
    "(;(;\n;)\n;)",
    "(@name \"x\")",
    "é",
    ";; 漢\n",
    "(; \"\n;)\n\"",
];

/// Returns the next of a sequence of pseudorandom numbers below `count`.
fn below(state: &mut u64, count: usize) -> usize {
    *state = state
        .wrapping_mul(6_364_136_223_846_793_005)
        .wrapping_add(1);
    (*state >> 33) as usize % count
}

fn one_thread(text: &str, pos: usize) -> (Result<(), Error>, Vec<Token>) {
    let mut tokens = Vec::new();
    let ended = Lexer::new(text).tokens_into(pos, &mut tokens);
    (ended, tokens)
}

/// Returns the tokens of all lists but one that was there before, which must stay.
fn many_threads(text: &str, pos: usize, threads: usize) -> (Result<(), Error>, Vec<Token>) {
    let (_, first) = one_thread("x", 0);
    let mut lists = vec![first.clone()];
    let threads = NonZeroUsize::new(threads).unwrap();
    let ended = Lexer::new(text).par_tokens_into(pos, threads, &mut lists);
    assert_eq!(lists.remove(0), first);
    assert!(lists.iter().all(|list| !list.is_empty()));
    (ended, lists.concat())
}

#[test]
fn tokens_and_errors_are_those_of_one_thread() {
    let state = &mut 7;
    let mut valid = 0;
    for _ in 0..1000 {
        let pieces = 1 + below(state, 40);
        let text: String = (0..pieces)
            .map(|_| PIECES[below(state, PIECES.len())])
            .collect();
        let mut pos = below(state, text.len() + 1);
        while !text.is_char_boundary(pos) {
            pos -= 1;
        }
        let expected = one_thread(&text, pos);
        valid += usize::from(expected.0.is_ok());
        for threads in [1, 2, 3, 8] {
            assert_eq!(
                many_threads(&text, pos, threads),
                expected,
                "{text:?} {pos} {threads}"
            );
        }
    }
    assert!((200..800).contains(&valid), "{valid}");
}

#[test]
fn texts_whose_parts_begin_anywhere() {
    let line = "(func $f (;(;\n;);) \"a\\n\" ;; (;\n 1 2.5 (@a \"b\"))\n";
    let comment = format!("(;{};)\n", "\n(module \"".repeat(800));
    for text in [
        String::new(),
        "\n".repeat(1000),
        "(a b)".repeat(800),
        line.repeat(800),
        format!("{}{comment}{}", line.repeat(50), line.repeat(800)),
        format!("{}\"\n{}", line.repeat(500), line.repeat(500)),
    ] {
        let expected = one_thread(&text, 0);
        for threads in [1, 2, 3, 9] {
            assert!(many_threads(&text, 0, threads) == expected, "{threads}");
        }
    }
}

/// Returns the offsets of the first tokens of all lists.
fn list_starts(text: &str, pos: usize, threads: usize) -> Vec<usize> {
    let mut lists = Vec::new();
    let threads = NonZeroUsize::new(threads).unwrap();
    Lexer::new(text)
        .par_tokens_into(pos, threads, &mut lists)
        .unwrap();
    lists.iter().map(|list| list[0].offset).collect()
}

#[test]
fn each_thread_lexes_from_a_line() {
    let lines = "(a b)\n".repeat(8);
    for (text, pos, threads, expected) in [
        (&lines[..], 0, 1, &[0][..]),
        (&lines[..], 0, 2, &[0, 30]),
        (&lines[..], 0, 4, &[0, 18, 30, 42]),
        (&lines[..], 24, 2, &[24, 42]),
        ("a\nb\n", 0, 4, &[0, 2]),
        ("(; a\nb ;)\nc\nd\n", 0, 2, &[0, 10]),
        ("", 0, 3, &[]),
    ] {
        assert_eq!(
            list_starts(text, pos, threads),
            expected,
            "{text:?} {pos} {threads}"
        );
    }
}

#[test]
#[should_panic(expected = "no character begins at the byte")]
fn an_offset_after_the_text() {
    let _ = many_threads("a", 2, 2);
}

#[test]
#[should_panic(expected = "no character begins at the byte")]
fn a_byte_within_a_character() {
    let _ = many_threads("é", 1, 2);
}
