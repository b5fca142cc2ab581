//! Lexers, lexical errors, documents, line indices and printed errors.

use crate::settings::Settings;
use crate::sides::{Refusal, told};
use crate::texts::{Random, rounds};
use std::path::Path;
use wat_lex::{Document, Error, Fault, LineIndex, Piece, Span, Token, TokenKind, proved};
use wat_parser::lexer::Lexer;
use wat_parser::proved::lexer as proved_lexer;
use wat_parser::shim::alloc::Global;

/// Compares the lexers at a char boundary.
fn compare_at(lexer: &Lexer<'_>, proved: &proved_lexer::Lexer<'_>, pos: usize) {
    let (mut ours, mut theirs) = (pos, pos);
    let (token, found) = (lexer.parse(&mut ours), proved.parse(Global, &mut theirs));
    if let (Ok(Some(token)), Ok(Some(found))) = (&token, &found) {
        let text = lexer.input();
        assert_eq!(value(token, text), proved_value(found, text));
        assert_eq!((token.src(text), token.end()), (found.src(text), theirs));
    }
    let found = found.map(|found| found.map(Token::from));
    assert_eq!(described(token), described(found), "{lexer:?} {pos}");
    assert_eq!(ours, theirs, "{lexer:?} {pos}");
    let fault = proved.scan(pos).err();
    let end = fault.map_or(theirs, |fault| proved.resume(pos, fault));
    assert_eq!(lexer.resume(pos), end, "{lexer:?} {pos}");
    let covered = |fault: Fault| {
        (
            fault.error,
            fault.span().offset(),
            fault.range(),
            fault.to_string(),
        )
    };
    let wanted = fault.map(|fault| (fault.error, fault.offset, pos..end, fault.error.to_string()));
    assert_eq!(lexer.fault_at(pos).map(covered), wanted, "{lexer:?} {pos}");
}

/// Describes the value of a token by the accessor of its kind.
fn value(token: &Token, text: &str) -> String {
    match token.kind {
        TokenKind::String => format!("{:?}", token.string(text)),
        TokenKind::Id => told(token.id(text).map(String::from)),
        TokenKind::Annotation => told(token.annotation(text).map(String::from)),
        TokenKind::Integer(kind) => format!("{:?}", token.integer(text, kind)),
        TokenKind::Float(kind) => format!("{:?}", token.float(text, kind)),
        _ => format!("{} {}", token.keyword(text), token.reserved(text)),
    }
}

fn proved_value(token: &proved_lexer::Token, text: &str) -> String {
    match token.kind {
        TokenKind::String => format!("{:?}", token.string(Global, text).unwrap()),
        TokenKind::Id => told(token.id(Global, text)),
        TokenKind::Annotation => told(token.annotation(Global, text)),
        TokenKind::Integer(kind) => format!("{:?}", token.integer(Global, text, kind).unwrap()),
        TokenKind::Float(kind) => format!("{:?}", token.float(Global, text, kind).unwrap()),
        _ => format!("{} {}", token.keyword(text), token.reserved(text)),
    }
}

/// Describes a token or an error.
fn described<E: Refusal>(token: Result<Option<Token>, E>) -> String {
    told(token.map(|token| format!("{token:?}")))
}

/// Compares the iterators over a whole text. Returns the number of items.
fn compare_items(lexer: &Lexer<'_>, proved: &proved_lexer::Lexer<'_>) -> usize {
    let ours: Vec<String> = lexer
        .iter(0)
        .map(|token| described(token.map(Some)))
        .collect();
    let theirs = proved.iter(Global, 0);
    let theirs: Vec<String> = theirs
        .map(|token| described(token.map(|token| Some(token.into()))))
        .collect();
    assert_eq!(ours, theirs, "{lexer:?}");
    let (mut tokens, valid) = (vec![], lexer.iter(0).map_while(Result::ok));
    let listed = lexer.tokens_into(0, &mut tokens);
    assert!(valid.eq(tokens), "{lexer:?}");
    assert_eq!(listed.err(), lexer.iter(0).find_map(Result::err));
    ours.len()
}

/// Compares the pieces with the tokens and lexical errors at their offsets, and those of a document with them.
fn compare_pieces(lexer: &Lexer<'_>) {
    let (pieces, mut pos): (Vec<Piece>, _) = (lexer.pieces(0).unwrap().collect(), 0);
    for piece in &pieces {
        let token = lexer.parse(&mut { pos }).ok().flatten();
        assert_eq!((piece.token(), piece.fault()), (token, lexer.fault_at(pos)));
        pos = lexer.resume(pos);
        assert_eq!(piece.end(), pos, "{lexer:?}");
    }
    assert_eq!(pos, lexer.input().len());
    let document = Document::with_lexer(lexer).unwrap();
    assert!(document.pieces().eq(pieces), "{lexer:?}");
    assert_eq!(format!("{:?}", document.lexer()), format!("{lexer:?}"));
}

fn compare_lines(text: &str) {
    let (ours, document) = (LineIndex::new(text), Document::new(text).unwrap());
    let theirs = proved::token::LineIndex::new(Global, text).unwrap();
    for offset in 0..text.len() + 3 {
        let span = Span::from_offset(offset);
        let (place, units) = (theirs.linecol(span), theirs.utf16_linecol(span));
        assert_eq!(
            (ours.linecol(span), ours.utf16_linecol(span)),
            (place, units)
        );
        assert_eq!(place, span.linecol_in(text), "{text:?} {offset}");
        let of_document = (document.linecol(span), document.utf16_linecol(span));
        assert_eq!(of_document, (place, units), "{text:?} {offset}");
        assert_eq!(ours.char_linecol(span), document.char_linecol(span));
    }
}

#[test]
fn lexers_have_the_same_results() {
    let (mut random, mut items) = (Random(5), 0);
    for _ in 0..rounds(1_500) {
        let (text, settings) = (random.text(10), Settings::random(&mut random));
        let (lexer, proved) = (settings.lexer(&text), settings.proved_lexer(&text));
        assert_eq!(lexer.input(), text);
        assert_eq!(lexer.proved().unwrap().settings(), proved.settings());
        let shown = format!(
            "Lexer {{ input: {text:?}, settings: {:?} }}",
            proved.settings()
        );
        assert_eq!(format!("{lexer:?}"), shown);
        for pos in 0..text.len() + 2 {
            if text.is_char_boundary(pos) {
                compare_at(&lexer, &proved, pos);
            }
            let annotation = proved
                .annotation(Global, pos)
                .map(|found| found.map(Token::from));
            assert_eq!(described(lexer.annotation(pos)), described(annotation));
        }
        items += compare_items(&lexer, &proved);
        compare_pieces(&lexer);
        compare_lines(&text);
    }
    println!("{items} items");
    assert!(items > 5 * rounds(1_500), "{items}");
}

#[test]
fn a_document_has_both_settings_off() {
    let off = proved_lexer::Settings {
        allow: false,
        strict: false,
    };
    assert_eq!(proved_lexer::Settings::default(), off);
    for text in [";;\u{202e}", "\"\\u{1__0}\""] {
        let pieces = Lexer::new(text).pieces(0).unwrap();
        assert!(Document::new(text).unwrap().pieces().eq(pieces), "{text:?}");
    }
}

/// Returns what an error prints with the name of a file, from what it prints without one.
fn named(printed: &str, message: &str, file: &str) -> String {
    for before in ["\n     --> ", " at "] {
        let unnamed = format!("{message}{before}<anon>:");
        if let Some(rest) = printed.strip_prefix(&unnamed) {
            return format!("{message}{before}{file}:{rest}");
        }
    }
    printed.to_owned()
}

#[test]
fn errors_print_the_same() {
    let long = "a ".repeat(300);
    let parts = [
        "<anon>",
        " at <anon>:",
        "\n     --> <anon>:1",
        "a",
        "é",
        "漢",
        "\t",
        "\r\n",
        long.as_str(),
    ];
    let mut random = Random(6);
    for _ in 0..rounds(2_000) {
        let [message, content, file] = [6, 8, 3].map(|most| {
            let count = random.below(most);
            (0..count).map(|_| random.pick(&parts)).collect::<String>()
        });
        let span = Span::from_offset(random.below(content.len() + 3));
        let mut ours = Error::new(span, message.clone());
        let mut theirs = proved::error::Error::new(span, message.clone().into());
        assert_eq!(ours.refusal(), theirs.refusal());
        ours.set_text(&content);
        ours.set_text("later");
        theirs.set_text(Global, &content).unwrap();
        assert_eq!(ours.refusal(), theirs.refusal());
        ours.set_path(Path::new(&file));
        ours.set_path(Path::new("later"));
        let printed = theirs.to_string();
        assert_eq!(ours.to_string(), named(&printed, &message, &file));
        assert_eq!(ours == Error::from(theirs), ours.to_string() == printed);
    }
}
