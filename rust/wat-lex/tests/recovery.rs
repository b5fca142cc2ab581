//! Error recovery: cases of each rule, and random texts compared with a direct implementation of the rules.

mod texts;

use texts::Random;
use wat_lex::{LexError, Lexer, Piece};

/// Returns the source of each piece, that of a lexical error in `<>`.
fn shown(text: &str) -> Vec<String> {
    let pieces = Lexer::new(text).pieces(0).unwrap();
    pieces
        .map(|piece| match piece {
            Piece::Token(token) => token.src(text).to_string(),
            Piece::Fault(fault) => format!("<{}>", &text[fault.range()]),
        })
        .collect()
}

#[test]
fn each_fault_covers_what_its_rule_says() {
    let rows: [(&str, &[&str]); 24] = [
        ("", &[]),
        ("(func $f)", &["(", "func", " ", "$f", ")"]),
        // A character that begins no token.
        (
            "a é漢\u{0} b",
            &["a", " ", "<é>", "<漢>", "<\u{0}>", " ", "b"],
        ),
        // An unclosed block comment.
        ("(; a (func)", &["<(;>", " ", "a", " ", "(", "func", ")"]),
        ("(; (; ;) a", &["<(;>", " ", "(; ;)", " ", "a"]),
        (
            "(;(; \"(;\" (;;)",
            &["<(;>", "<(;>", " ", "\"(;\"", " ", "(;;)"],
        ),
        ("(;", &["<(;>"]),
        ("(;)", &["<(;>", ")"]),
        // A confusing character in a comment.
        (";; \u{202e} x\na", &["<;; \u{202e} x>", "\n", "a"]),
        ("(; \u{202e} (; ;) ;)a", &["<(; \u{202e} (; ;) ;)>", "a"]),
        // A string: up to its end in the line, or up to the end of the line.
        ("\"a\\q\" b", &["<\"a\\q\">", " ", "b"]),
        ("\"a\\q\"b\"c\"", &["<\"a\\q\">", "b\"c\""]),
        (
            "(a \"b)\n(c)",
            &["(", "a", " ", "<\"b)>", "\n", "(", "c", ")"],
        ),
        (
            "(a \"b)\r(c)",
            &["(", "a", " ", "<\"b)>", "\r", "(", "c", ")"],
        ),
        ("\"\nb", &["<\">", "\n", "b"]),
        ("\"a", &["<\"a>"]),
        ("\"a\tb\" c", &["<\"a\tb\">", " ", "c"]),
        ("\"\u{202e}\\\"b\" c", &["<\"\u{202e}\\\"b\">", " ", "c"]),
        ("\"\\q\\\\\" c\"", &["<\"\\q\\\\\">", " ", "<c\">"]),
        ("\"\\\nb", &["<\"\\>", "\n", "b"]),
        ("\"\\", &["<\"\\>"]),
        // The run that contains the string.
        ("a$\"b\"c\"d", &["<a$\"b\"c\"d>"]),
        ("a\"\\\"\"b\"\\q\"c", &["<a\"\\\"\"b\"\\q\">", "c"]),
        ("\"\\u{11\" a\"b\"", &["<\"\\u{11\">", " ", "a\"b\""]),
    ];
    for (text, wanted) in rows {
        assert_eq!(shown(text), wanted, "{text:?}");
    }
}

#[test]
fn a_fault_is_reported_where_its_error_is() {
    let text = "(data $\"a\\q\")";
    let lexer = Lexer::new(text);
    let fault = lexer.fault_at(6).unwrap();
    let error = lexer.parse(&mut 6).unwrap_err();
    assert_eq!(fault.error, LexError::InvalidStringEscape('q'));
    assert_eq!((fault.span(), fault.span().offset()), (error.span(), 10));
    assert_eq!((fault.offset, fault.len, fault.end()), (6, 6, 12));
    assert_eq!(fault.to_string(), error.message());
    assert_eq!(lexer.fault_at(0), None);
    assert_eq!(lexer.fault_at(text.len()), None);
}

#[test]
fn settings_say_what_is_a_fault() {
    let text = ";; \u{202e}\n\"\\u{1__2}\"";
    let mut lexer = Lexer::new(text);
    let count = |lexer: &Lexer<'_>| lexer.pieces(0).unwrap().filter_map(Piece::fault).count();
    assert_eq!(count(&lexer), 1);
    assert_eq!(count(lexer.allow_confusing_unicode(true)), 0);
    assert_eq!(count(lexer.strict_underscores(true)), 1);
    assert_eq!(lexer.resume(7), text.len());
}

#[test]
#[should_panic = "no character begins at the byte"]
fn a_place_inside_a_character_is_none() {
    let _ = Lexer::new("é").resume(1);
}

/// Returns the end of the first string with an error in the run at the start of a text, by lexing each string separately.
fn run_end(text: &str, lexer: &Lexer<'_>) -> usize {
    let mut end = 0;
    loop {
        let quote = end + text[end..].find('"').unwrap();
        end = naive_string_end(text, quote + 1);
        let string = &text[quote..end];
        let mut alone = Lexer::new(string);
        alone.allow_confusing_unicode(lexer.proved().unwrap().settings().allow);
        alone.strict_underscores(lexer.proved().unwrap().settings().strict);
        let token = alone.parse(&mut 0).ok().flatten();
        if token.is_none_or(|token| token.end() != string.len()) {
            return end;
        }
    }
}

fn naive_string_end(text: &str, from: usize) -> usize {
    let mut escaped = false;
    for (at, c) in text[from..].char_indices() {
        match c {
            '\n' | '\r' => return from + at,
            '"' if !escaped => return from + at + 1,
            _ => escaped = c == '\\' && !escaped,
        }
    }
    text.len()
}

/// Returns the end of the lexical error at `pos` according to the rules.
fn wanted_end(text: &str, lexer: &Lexer<'_>, pos: usize) -> usize {
    let rest = &text[pos..];
    if rest.starts_with(";;") || rest.starts_with("(;") {
        let mut allowing = lexer.clone();
        let comment = allowing.allow_confusing_unicode(true).parse(&mut { pos });
        return comment.map_or(pos + 2, |comment| comment.unwrap().end());
    }
    let begins_run = |c: char| c.is_ascii_graphic() && !"(),;[]{}".contains(c);
    match rest.chars().next().unwrap() {
        c if begins_run(c) => pos + run_end(rest, lexer),
        c => pos + c.len_utf8(),
    }
}

/// Counts of the texts, tokens and errors that were tested, to check that no kind is missing.
#[derive(Debug, Default)]
struct Counts {
    whole: usize,
    after: usize,
    faults: [usize; 4],
}

fn compare(lexer: &Lexer<'_>, counts: &mut Counts) {
    let (text, mut at, mut is_faulty) = (lexer.input(), 0, false);
    let mut tokens = lexer.iter(0);
    for piece in lexer.pieces(0).unwrap() {
        assert_eq!(piece.offset(), at, "{text:?}");
        assert!(
            piece.end() > at && text.is_char_boundary(piece.end()),
            "{text:?}"
        );
        assert_eq!(lexer.resume(at), piece.end(), "{text:?} {at}");
        let there = lexer.parse(&mut { at });
        match piece {
            Piece::Token(token) => {
                assert_eq!(there, Ok(Some(token)), "{text:?}");
                assert!(is_faulty || tokens.next() == Some(Ok(token)), "{text:?}");
                counts.after += usize::from(is_faulty);
            }
            Piece::Fault(fault) => {
                let error = there.unwrap_err();
                assert_eq!(
                    (fault.span(), Some(&fault.error)),
                    (error.span(), error.lex_error())
                );
                assert!(
                    (fault.offset..=fault.end()).contains(&fault.span().offset()),
                    "{text:?}"
                );
                assert_eq!(lexer.fault_at(at), Some(fault), "{text:?}");
                assert_eq!(fault.end(), wanted_end(text, lexer, at), "{text:?} {at}");
                assert!(is_faulty || tokens.next() == Some(Err(error)), "{text:?}");
                is_faulty = true;
                let rule = match text.as_bytes()[at] {
                    b'(' if fault.error == LexError::DanglingBlockComment => 0,
                    b'(' | b';' => 1,
                    _ if matches!(fault.error, LexError::Unexpected(_)) => 2,
                    _ => 3,
                };
                counts.faults[rule] += 1;
            }
        }
        at = piece.end();
    }
    assert_eq!(
        (at, lexer.resume(at), tokens.next()),
        (text.len(), at, None)
    );
    counts.whole += usize::from(!is_faulty);
}

#[test]
fn pieces_are_tokens_and_what_faults_cover() {
    let (mut random, mut counts) = (Random(3), Counts::default());
    for _ in 0..40_000 {
        let text = random.text(16);
        let mut lexer = Lexer::new(&text);
        lexer.allow_confusing_unicode(random.below(2) == 0);
        lexer.strict_underscores(random.below(2) == 0);
        compare(&lexer, &mut counts);
    }
    println!("{counts:?}");
    assert!(counts.whole > 5_000 && counts.after > 40_000, "{counts:?}");
    assert!(
        counts.faults.iter().all(|count| *count > 1_000),
        "{counts:?}"
    );
}

/// Checks that unclosed comments are not each searched up to the end of the text.
#[test]
fn many_open_comments_are_passed_over_at_once() {
    let text = "(;a".repeat(300_000);
    let pieces = Lexer::new(&text).pieces(0).unwrap();
    assert_eq!(pieces.filter_map(Piece::fault).count(), 300_000);
}

#[test]
fn tokens_are_added_to_a_list() {
    let lexer = Lexer::new("(a) \"b");
    let mut tokens = vec![Lexer::new("x").parse(&mut 0).unwrap().unwrap()];
    let error = lexer.tokens_into(1, &mut tokens).unwrap_err();
    let ranges: Vec<_> = tokens.iter().map(wat_lex::Token::range).collect();
    assert_eq!(ranges, [0..1, 1..2, 2..3, 3..4]);
    assert_eq!(error.lex_error(), Some(&LexError::UnexpectedEof));
    tokens.clear();
    assert_eq!(Lexer::new("(a)").tokens_into(3, &mut tokens), Ok(()));
    assert!(tokens.is_empty());
}
