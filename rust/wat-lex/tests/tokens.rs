//! Sequences of tokens, and long strings and texts.

use wat_lex::proved::lexer::{LexError, Lexer, Token, TokenKind};
use wat_lex::shim::alloc::Global;

/// Returns the source of each token, followed by the name if it is an identifier.
fn texts_and_names(text: &str) -> Vec<String> {
    let lexer = Lexer::new(text);
    let mut shown = Vec::new();
    for item in lexer.iter(Global, 0) {
        let token = item.unwrap();
        shown.push(token.src(text).to_string());
        if token.kind == TokenKind::Id {
            shown.push(token.id(Global, text).unwrap().to_string());
        }
    }
    shown
}

#[test]
fn tokens_of_iter_are_read() {
    let rows: [(&str, &[&str]); 3] = [
        ("", &[]),
        ("(func $f)", &["(", "func", " ", "$f", "f", ")"]),
        (
            "$\"a\\62\" $b;;c",
            &["$\"a\\62\"", "ab", " ", "$b", "b", ";;c"],
        ),
    ];
    for (text, wanted) in rows {
        assert_eq!(texts_and_names(text), wanted, "{text}");
    }
}

#[test]
fn parse_moves_to_the_end_of_a_token_and_stays_at_a_fault() {
    let lexer = Lexer::new("x \"");
    assert_eq!(lexer.input(), "x \"");
    let mut pos = 0;
    for (kind, end) in [(TokenKind::Keyword, 1), (TokenKind::Whitespace, 2)] {
        let token = lexer.parse(Global, &mut pos).unwrap().unwrap();
        assert_eq!((token.kind, pos), (kind, end));
    }
    let error = lexer.parse(Global, &mut pos).unwrap_err();
    assert_eq!(error.lex_error(), Some(&LexError::UnexpectedEof));
    assert_eq!(pos, 2);
    assert_eq!(lexer.clone().scan(3), Ok(None));
}

#[cfg(target_pointer_width = "64")]
#[test]
fn a_token_has_16_bytes() {
    assert_eq!(size_of::<Token>(), 16);
}

/// Checks deep nesting, as no proof bounds time or stack.
#[test]
fn groups_may_be_deep() {
    let text = "(".repeat(1_000_000);
    let lexer = Lexer::new(&text);
    let opens =
        |item: &Result<Token, _>| item.as_ref().is_ok_and(|it| it.kind == TokenKind::LParen);
    assert_eq!(lexer.iter(Global, 0).filter(opens).count(), text.len());
}

#[test]
fn long_strings_with_escapes_are_read() {
    for count in [1, 63, 64, 65, 1000, 70_000] {
        let half = "a".repeat(count);
        let value = format!("{half}j{half}");
        let string = format!("\"{half}\\6a{half}\"");
        let name = format!("${string}");
        let first = |text| Lexer::new(text).scan(0).unwrap().unwrap();
        let read = first(&string).string(Global, &string).unwrap();
        assert_eq!(read.as_slice(), value.as_bytes(), "{count}");
        let read = first(&name).id(Global, &name).unwrap();
        assert_eq!(read.as_str(), value, "{count}");
    }
}
