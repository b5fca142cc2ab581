//! Golden tests: each stored text with the token list of a program that uses the crate `wast`. Also tests of texts at the limits.

use std::fmt::Write;
use std::fs;
use std::path::{Path, PathBuf};
use wat_lex::{Lexer, Token, TokenKind};

fn list(lexer: &Lexer<'_>) -> String {
    let mut lines = String::new();
    for token in lexer.iter(0).map_while(Result::ok) {
        let end = token.offset + token.len as usize;
        writeln!(lines, "{}..{end} {}", token.offset, token.kind.name()).unwrap();
    }
    lines
}

/// Checks that `iter` and `parse` return what the verified lexer finds, and that the accessors accept each token.
fn read_each(lexer: &Lexer<'_>) {
    let (text, mut pos) = (lexer.input(), 0);
    for item in lexer.iter(0) {
        assert_eq!(
            lexer.annotation(pos).ok().flatten(),
            lexer
                .clone()
                .parse(&mut { pos })
                .ok()
                .flatten()
                .filter(is_annotation)
        );
        let before = pos;
        let found = lexer.proved().unwrap().scan(pos);
        let found = found.map(|found| Token::from(found.expect("a token")));
        assert_eq!(item.as_ref().ok(), found.as_ref().ok());
        assert_eq!(
            item,
            lexer.parse(&mut pos).map(|token| token.expect("a token"))
        );
        let Ok(token) = item else {
            assert_eq!(pos, before);
            return;
        };
        assert_eq!(
            (token.offset, token.offset + token.len as usize),
            (before, pos)
        );
        read(&token, text);
    }
    assert_eq!(lexer.parse(&mut pos), Ok(None));
    assert_eq!(pos, text.len());
}

fn is_annotation(token: &Token) -> bool {
    token.kind == TokenKind::Annotation
}

fn read(token: &Token, text: &str) {
    let src = token.src(text);
    match token.kind {
        TokenKind::String => assert!(token.string(text).len() <= src.len() - 2),
        TokenKind::Id => {
            assert!(token.id(text).is_ok_and(|name| !name.is_empty()) || token.id(text).is_err());
        }
        TokenKind::Annotation => assert!(
            token.annotation(text).is_ok_and(|name| !name.is_empty())
                || token.annotation(text).is_err()
        ),
        TokenKind::Integer(kind) => {
            let integer = token.integer(text, kind);
            let (digits, base) = integer.val();
            let plain = src.replace('_', "").replacen('+', "", 1).replacen(
                "0x",
                "",
                usize::from(base == 16),
            );
            assert_eq!((digits, integer.sign()), (plain.as_str(), kind.sign()));
        }
        TokenKind::Float(kind) => drop(token.float(text, kind)),
        _ => assert_eq!((token.keyword(text), token.reserved(text)), (src, src)),
    }
}

fn with_ending(path: &Path, ending: &str) -> PathBuf {
    let mut name = path.as_os_str().to_owned();
    name.push(ending);
    name.into()
}

#[test]
fn stored_texts_are_listed_as_they_are_stored() {
    let folder = Path::new(env!("CARGO_MANIFEST_DIR")).join("../../crates/wat_tokens/agreement");
    let mut listed = 0;
    for entry in fs::read_dir(folder).unwrap() {
        let path = entry.unwrap().path();
        if path
            .extension()
            .is_some_and(|extension| extension == "stdout" || extension == "args")
        {
            continue;
        }
        let words = fs::read_to_string(with_ending(&path, ".args")).unwrap_or_default();
        let allow = match words.trim() {
            "" => false,
            "--allow-confusing" => true,
            _ => continue,
        };
        let text = fs::read_to_string(&path).unwrap();
        let mut lexer = Lexer::new(&text);
        lexer.allow_confusing_unicode(allow);
        assert_eq!(
            list(&lexer),
            fs::read_to_string(with_ending(&path, ".stdout")).unwrap(),
            "{}",
            path.display()
        );
        read_each(&lexer);
        listed += 1;
    }
    assert!(listed >= 240, "{listed}");
}

#[test]
fn what_iter_gives_ends_after_its_first_fault() {
    for tokens in [0, 1, 2, 1000] {
        let text = "(".repeat(tokens);
        assert_eq!(Lexer::new(&text).iter(0).count(), tokens);
        let text = text + "\"\\q\" ( (";
        let lexer = Lexer::new(&text);
        let mut items = lexer.iter(0);
        assert!(items.by_ref().take(tokens).all(|item| item.is_ok()));
        let fault = items.next().unwrap().unwrap_err();
        assert_eq!(fault.span().offset(), tokens + 2);
        assert!(items.next().is_none() && items.next().is_none());
    }
}
