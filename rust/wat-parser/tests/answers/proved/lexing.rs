//! Calls of the lexer and of the accessors of its tokens.

use super::{name, refusal, token};
use crate::row::Row;
use wat_lex::proved::error::Error;
use wat_lex::proved::lexer::{Float, Lexer, TokenKind};
use wat_lex::shim::alloc::Global;

/// Creates a lexer of a test case's text, with the settings that the call's suffix selects.
pub fn lexer(row: &Row) -> Lexer<'_> {
    let mut lexer = Lexer::new(&row.text);
    lexer
        .allow_confusing_unicode(row.call.ends_with("-allowing"))
        .strict_underscores(row.call.ends_with("-strict"));
    lexer
}

/// Lists all tokens except whitespace, and the lexical error after them.
fn tokens(row: &Row) -> String {
    let items: Vec<String> = lexer(row)
        .iter(Global, 0)
        .filter(|item| !matches!(item, Ok(token) if token.kind == TokenKind::Whitespace))
        .map(|item| item.map_or_else(|error| refusal(row.refusals, &error), token))
        .collect();
    items.join(", ")
}

/// Returns the first lexical error of a text.
fn fault(row: &Row) -> Result<String, Error> {
    match lexer(row).iter(Global, 0).find_map(Result::err) {
        Some(error) => Err(error),
        None => Ok("no fault".to_owned()),
    }
}

/// Formats the first token's kind, its source, and the result of the accessor of its kind.
fn first(row: &Row) -> Result<String, Error> {
    let text = row.text.as_str();
    let Some(token) = lexer(row).parse(Global, &mut 0)? else {
        return Ok(String::new());
    };
    let (kind, source) = (name(token.kind), token.src(text));
    Ok(match token.kind {
        TokenKind::Keyword => format!("{kind} {source:?} {:?}", token.keyword(text)),
        TokenKind::Reserved => format!("{kind} {source:?} {:?}", token.reserved(text)),
        _ => format!("{kind} {source:?}"),
    })
}

/// Formats the token or lexical error at an offset.
fn scan(row: &Row) -> String {
    match lexer(row).scan(row.at()) {
        Ok(Some(found)) => token(found),
        Ok(None) => "end".to_owned(),
        Err(fault) => format!("{:?} at {}", fault.error, fault.offset),
    }
}

/// Returns the offset at which lexing continues after the lexical error at an offset.
fn resume(row: &Row) -> String {
    let lexer = lexer(row);
    match lexer.scan(row.at()) {
        Ok(_) => "no fault".to_owned(),
        Err(fault) => lexer.resume(row.at(), fault).to_string(),
    }
}

/// Returns the annotation at an offset.
fn annotation(row: &Row) -> Result<String, Error> {
    let found = lexer(row).annotation(Global, row.at())?;
    Ok(found.map_or("none".to_owned(), token))
}

/// Formats the value of the token at an offset.
fn read(row: &Row) -> Result<String, Error> {
    let text = row.text.as_str();
    let Some(token) = lexer(row).parse(Global, &mut row.at())? else {
        return Ok(String::new());
    };
    Ok(match token.kind {
        TokenKind::String => format!("String {:?}", token.string(Global, text)?),
        TokenKind::Id => format!("Id {:?}", token.id(Global, text)?),
        TokenKind::Annotation => format!("Annotation {:?}", token.annotation(Global, text)?),
        TokenKind::Integer(kind) => {
            let integer = token.integer(Global, text, kind)?;
            let (digits, base) = integer.val();
            format!("Integer {:?} {digits:?} base {base}", integer.sign())
        }
        TokenKind::Float(kind) => format!("Float {:?}", token.float(Global, text, kind)?),
        other => format!("{} without a value", name(other)),
    })
}

/// Compares the name of the first token, or reports its error.
fn name_of(row: &Row) -> Result<String, Error> {
    let text = row.text.as_str();
    let Some(token) = lexer(row).parse(Global, &mut 0)? else {
        return Ok(String::new());
    };
    Ok(match row.call {
        "has-name" => token.has_name(text, row.with).to_string(),
        _ => format!("{:?}", token.name_fault(text)),
    })
}

/// Formats the lengths in bytes of the parts of a floating-point number.
fn part_lengths(float: &Float) -> String {
    match float {
        Float::Val {
            integral,
            fractional,
            exponent,
            ..
        } => {
            let integral = integral.len();
            let fractional = fractional.as_ref().map_or(0, |part| part.len());
            let exponent = exponent.as_ref().map_or(0, |part| part.len());
            format!("Float of {integral}, {fractional} and {exponent} bytes")
        }
        Float::Nan { val, .. } => {
            let length = val.as_ref().map_or(0, |part| part.len());
            format!("payload of {length} bytes")
        }
        Float::Inf { .. } => "infinity".to_owned(),
    }
}

/// Returns the length in bytes of the first token's value.
fn length(row: &Row) -> Result<String, Error> {
    let text = row.text.as_str();
    let Some(token) = lexer(row).parse(Global, &mut 0)? else {
        return Ok(String::new());
    };
    let length = match token.kind {
        TokenKind::String => token.string(Global, text)?.len(),
        TokenKind::Id => token.id(Global, text)?.len(),
        TokenKind::Annotation => token.annotation(Global, text)?.len(),
        TokenKind::Integer(kind) => token.integer(Global, text, kind)?.val().0.len(),
        TokenKind::Float(kind) => return Ok(part_lengths(&token.float(Global, text, kind)?)),
        other => return Ok(format!("{} without a value", name(other))),
    };
    Ok(format!("{} of {length} bytes", name(token.kind)))
}

pub fn answer(row: &Row) -> Option<Result<String, Error>> {
    let is_inside = !row.text.is_char_boundary(row.at());
    Some(match row.call {
        "tokens" | "tokens-allowing" | "tokens-strict" => Ok(tokens(row)),
        "fault" | "fault-allowing" => fault(row),
        "first" => first(row),
        "annotation" => annotation(row),
        "length" => length(row),
        "has-name" | "name-fault" => name_of(row),
        "scan" | "read" | "read-allowing" if is_inside => Ok("no such byte".to_owned()),
        "scan" => Ok(scan(row)),
        "resume" | "resume-allowing" | "resume-strict" => Ok(resume(row)),
        "read" | "read-allowing" => read(row),
        _ => return None,
    })
}
