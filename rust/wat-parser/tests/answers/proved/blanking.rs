//! Texts whose comments are replaced by spaces, which must have the same visible tokens.

use super::parsing::{blanked_at, shown};
use crate::row::{Refusals, Row};
use crate::sources::{Buffer, Source};
use wat_lex::proved::error::Error;
use wat_lex::proved::lexer::{Lexer, Token};
use wat_lex::shim::alloc::Global;
use wat_lex::shim::string::String as Text;

/// Creates a lexer with both settings.
fn lexer_of(text: &str, allow: bool, strict: bool) -> Lexer<'_> {
    let mut lexer = Lexer::new(text);
    lexer
        .allow_confusing_unicode(allow)
        .strict_underscores(strict);
    lexer
}

/// Returns `true` if two texts have the same visible tokens, both with and without a registered name.
fn both_show(text: &Buffer, other: &Buffer) -> Result<bool, Error> {
    let shown = |buffer, name| shown(Refusals::Brief, buffer, name);
    Ok(shown(text, "")? == shown(other, "")? && shown(text, "a")? == shown(other, "a")?)
}

/// Returns `true` if replacing a raw token by spaces does not change the visible tokens, under each of the four settings under which the lexer finds
/// the token.
fn is_same(source: Source, text: &str, token: Token, other: &str) -> Result<bool, Error> {
    for (allow, strict) in [(false, false), (false, true), (true, false), (true, true)] {
        let before = source.buffer_with_lexer(lexer_of(text, allow, strict))?;
        let after = source.buffer_with_lexer(lexer_of(other, allow, strict))?;
        if before.raw().any(|raw| raw == token) && !both_show(&before, &after)? {
            return Ok(false);
        }
    }
    Ok(true)
}

/// Replaces each comment by spaces, separately. Reports the number of comments, or the first that changes the visible tokens.
fn each(source: Source, text: &str) -> Result<String, Error> {
    let mut found = 0;
    for number in 0..text.len() {
        if let Some((token, other)) = blanked_at(text, number)? {
            found += 1;
            if !is_same(source, text, token, &other)? {
                return Ok(format!("token {number} changes what is shown"));
            }
        }
    }
    Ok(format!("{found} comments, none changes what is shown"))
}

/// Returns the first comment of a text, and the text in which it is replaced by spaces, or `None` if the text has none.
fn blanked_first(text: &str) -> Result<Option<(Token, Text)>, Error> {
    let mut blanked = (0..text.len()).map(|number| blanked_at(text, number).transpose());
    blanked.find_map(|blanked| blanked).transpose()
}

/// Replaces the comments of a text by spaces, one after another, and compares the visible tokens.
fn all(source: Source, text: &str) -> Result<String, Error> {
    let mut now = Text::from_str(Global, text)?;
    while let Some((token, other)) = blanked_first(&now)? {
        if !is_same(source, &now, token, &other)? {
            return Ok(format!(
                "the comment at {} changes what is shown",
                token.offset
            ));
        }
        now = other;
    }
    let before = source.buffer_with_lexer(lexer_of(text, true, false))?;
    let after = source.buffer_with_lexer(lexer_of(&now, true, false))?;
    let shows = if both_show(&before, &after)? {
        "the same"
    } else {
        "other tokens"
    };
    Ok(format!("{now}| shows {shows}"))
}

pub fn answer(row: &Row) -> Option<Result<String, Error>> {
    match row.call {
        "blanked-each" => Some(each(row.source, &row.text)),
        "blanked-all" => Some(all(row.source, &row.text)),
        _ => None,
    }
}
