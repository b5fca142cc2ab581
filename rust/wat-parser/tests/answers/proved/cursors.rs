//! Calls of a cursor at the start of a text.

use wat_lex::proved::error::Error;
use wat_parser::proved::parser::Cursor;

/// Lists the kinds of which the cursor's `peek_` method returns `true`.
pub fn seen(cursor: Cursor) -> Result<String, Error> {
    let kinds = [
        ("lparen", cursor.peek_lparen()?),
        ("rparen", cursor.peek_rparen()?),
        ("id", cursor.peek_id()?),
        ("keyword", cursor.peek_keyword()?),
        ("reserved", cursor.peek_reserved()?),
        ("string", cursor.peek_string()?),
        ("integer", cursor.peek_integer()?),
        ("float", cursor.peek_float()?),
    ];
    let seen = kinds.iter().filter(|(_, is_seen)| *is_seen);
    let seen: Vec<&str> = seen.map(|(kind, _)| *kind).collect();
    Ok(seen.join(", "))
}

/// Calls each method that consumes a token, and lists the values with the offset of the token after each.
pub fn taken(cursor: Cursor) -> Result<String, Error> {
    let then = |kind, value: &str, next: Cursor| {
        let place = next.cur_span().offset();
        format!("{kind} {value}, then {place}")
    };
    let integer = cursor.integer()?.map(|(integer, next)| {
        let (digits, base) = integer.val();
        let value = format!("{digits} {base} {:?}", integer.sign());
        then("integer", &value, next)
    });
    let (id, annotation) = (cursor.id()?, cursor.annotation()?);
    let (keyword, reserved) = (cursor.keyword()?, cursor.reserved()?);
    let (string, float) = (cursor.string()?, cursor.float()?);
    let taken = [
        cursor.lparen()?.map(|next| then("lparen", "(", next)),
        cursor.rparen()?.map(|next| then("rparen", ")", next)),
        id.map(|(name, next)| then("id", name.as_str(), next)),
        annotation.map(|(name, next)| then("annotation", name.as_str(), next)),
        keyword.map(|(word, next)| then("keyword", word, next)),
        reserved.map(|(word, next)| then("reserved", word, next)),
        string.map(|(value, next)| then("string", &format!("{:?}", value.as_slice()), next)),
        integer,
        float.map(|(float, next)| then("float", &format!("{float:?}"), next)),
    ];
    let taken: Vec<String> = taken.into_iter().flatten().collect();
    Ok(taken.join(", "))
}

/// Returns the identifier that the next token is.
pub fn id(cursor: Cursor) -> Result<String, Error> {
    let found = cursor.id()?;
    Ok(found.map_or("none".to_owned(), |(name, _)| name.as_str().to_owned()))
}

/// Returns the annotation that the next token is.
pub fn annotation(cursor: Cursor) -> Result<String, Error> {
    let found = cursor.annotation()?;
    Ok(found.map_or("none".to_owned(), |(name, _)| name.as_str().to_owned()))
}

/// Returns the next comment, and the offset of the token after it.
pub fn comment(cursor: Cursor) -> Result<String, Error> {
    let Some((comment, next)) = cursor.comment()? else {
        return Ok("none".to_owned());
    };
    Ok(format!("{comment} then {}", next.cur_span().offset()))
}
