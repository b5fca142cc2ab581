//! A reference implementation of the compiler of function types.

use wat_lex::{Lexer, TokenKind};

/// Compiles the type section of a text, which is empty for a module without types. Returns `None` if the text is not a module of function types. The
/// section must have fewer than 128 bytes, since its length is encoded in one byte.
pub fn section(text: &str) -> Option<Vec<u8>> {
    let words = words(text)?;
    let (mut rest, mut count, mut types) = match words.as_slice() {
        ["(", "module", rest @ .., ")"] => (rest, 0, Vec::new()),
        _ => return None,
    };
    while !rest.is_empty() {
        let (function, after) = function_type(rest)?;
        (count, rest) = (count + 1, after);
        types.extend(function);
    }
    if count == 0 {
        return Some(types);
    }
    types.insert(0, count);
    let length = u8::try_from(types.len()).unwrap();
    Some([&[0x01, length], types.as_slice()].concat())
}

/// Returns the significant tokens of a text outside of annotations. Returns `None` if the text has a lexical error, an identifier without a name or
/// an annotation that is not closed.
fn words(text: &str) -> Option<Vec<&str>> {
    let mut words = Vec::new();
    let mut depth = 0;
    let tokens: Vec<_> = Lexer::new(text).iter(0).collect::<Result<_, _>>().ok()?;
    for (number, token) in tokens.iter().enumerate() {
        let is_marked = |next: &wat_lex::Token| next.kind == TokenKind::Annotation;
        let opens = depth > 0 || tokens.get(number + 1).is_some_and(is_marked);
        match token.kind {
            TokenKind::LParen if opens => depth += 1,
            TokenKind::RParen if depth > 0 => depth -= 1,
            TokenKind::Whitespace | TokenKind::LineComment | TokenKind::BlockComment => {}
            _ if depth == 0 => words.push(token.src(text)),
            _ => {}
        }
    }
    (depth == 0 && !words.contains(&"$")).then_some(words)
}

/// Compiles the function type at the start of the tokens, and returns its bytes and the tokens after it.
fn function_type<'a, 'w>(words: &'w [&'a str]) -> Option<(Vec<u8>, &'w [&'a str])> {
    let words = words.strip_prefix(&["(", "type"])?;
    let words = match words {
        [name, after @ ..] if name.starts_with('$') => after,
        _ => words,
    };
    let words = words.strip_prefix(&["(", "func"])?;
    let (params, words) = values(words, "param")?;
    let (results, words) = values(words, "result")?;
    let after = words.strip_prefix(&[")", ")"])?;
    Some(([&[0x60], params.as_slice(), &results].concat(), after))
}

/// Compiles the groups `(name ..)` at the start of the tokens to a vector of number types, and returns its bytes and the tokens after the groups.
fn values<'a, 'w>(mut words: &'w [&'a str], name: &str) -> Option<(Vec<u8>, &'w [&'a str])> {
    let mut types = vec![0];
    while let ["(", first, group @ ..] = words {
        if *first != name {
            break;
        }
        let end = group.iter().position(|word| *word == ")")?;
        let named = match &group[..end] {
            [id, value] if name == "param" && id.starts_with('$') => &[*value],
            values => values,
        };
        for word in named {
            types.push(value_type(word)?);
        }
        words = &group[end + 1..];
    }
    types[0] = u8::try_from(types.len() - 1).unwrap();
    Some((types, words))
}

fn value_type(word: &str) -> Option<u8> {
    let types = ["f64", "f32", "i64", "i32"];
    let place = types.iter().position(|name| *name == word)?;
    Some(0x7c + u8::try_from(place).unwrap())
}
