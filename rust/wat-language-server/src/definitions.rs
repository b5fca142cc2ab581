//! Definitions, references and highlights of the identifier or index at a position, and its renaming.

use crate::analysis::Analysis;
use crate::diagnostics::LONGEST_ANALYZED;
use crate::document::OpenDocument;
use crate::syntax::Syntax;
use crate::walker::Occurrence;
use serde_json::{Value, json};
use wat_lex::{Document, Lexer, TokenKind};

/// Returns the location of the definition of the identifier or index at a position, or `null` if there is none.
pub fn definition(open: &OpenDocument, params: &Value) -> Value {
    found(open, params, |analysis, at| {
        let selection = analysis.definitions()[at.definition].selection;
        location(open, analysis, params, selection)
    })
}

/// Returns the locations of all tokens that name the definition of the identifier or index at a position.
pub fn references(open: &OpenDocument, params: &Value) -> Value {
    let has_declaration = params["context"]["includeDeclaration"] == true;
    found(open, params, |analysis, at| {
        let selection = analysis.definitions()[at.definition].selection;
        let occurrences = analysis.occurrences_of(at.definition);
        let tokens = occurrences.map(|it| it.token);
        tokens
            .filter(|token| has_declaration || *token != selection)
            .map(|token| location(open, analysis, params, token))
            .collect()
    })
}

/// Returns the ranges of all tokens that name the definition of the identifier or index at a position.
pub fn highlights(open: &OpenDocument, params: &Value) -> Value {
    found(open, params, |analysis, at| {
        let occurrences = analysis.occurrences_of(at.definition);
        let highlight = |it: Occurrence| json!({ "range": range(open, analysis, it.token) });
        occurrences.map(highlight).collect()
    })
}

/// Returns the edits that rename the identifier at a position, or `null` if the definition has none, if the new name, with or without its `$`, is not
/// an identifier, or if it has another definition where it would be used. Indices stay as they are.
pub fn rename(open: &OpenDocument, params: &Value) -> Value {
    let name = params["newName"].as_str().and_then(identifier);
    let (Some(name), Some(uri)) = (name, params["textDocument"]["uri"].as_str()) else {
        return Value::Null;
    };
    found(open, params, |analysis, at| {
        let syntax = &analysis.syntax;
        let selection = analysis.definitions()[at.definition].selection;
        if syntax.name(selection).is_none() {
            return Value::Null;
        }
        let tokens = analysis.occurrences_of(at.definition).map(|it| it.token);
        let named = tokens.filter(|token| syntax.name(*token).is_some());
        let named: Vec<_> = named.collect();
        if !is_free(analysis, at.definition, &named, &name) {
            return Value::Null;
        }
        let edit = |token| json!({ "range": range(open, analysis, token), "newText": name });
        json!({ "changes": { uri: named.into_iter().map(edit).collect::<Value>() } })
    })
}

/// Returns `true` if `tokens`, which name a definition, can become an identifier: no other definition has it there, and each token of the text still
/// names the same definition then.
fn is_free(analysis: &Analysis, definition: usize, tokens: &[usize], identifier: &str) -> bool {
    let Some(document) = replaced(&analysis.syntax, tokens, identifier) else {
        return false;
    };
    let renamed = Analysis::new(&document);
    let name = tokens.first().and_then(|at| renamed.syntax.name(*at));
    name.is_some_and(|name| !analysis.is_taken(definition, &name))
        && analysis.named().is_subset(&renamed.named())
}

/// Returns the document with an identifier in the place of some tokens, whose indices are in order, or `None` if it could have more than
/// [`LONGEST_ANALYZED`] bytes.
fn replaced(syntax: &Syntax, tokens: &[usize], identifier: &str) -> Option<Document> {
    if syntax.text().len() + tokens.len() * identifier.len() > LONGEST_ANALYZED {
        return None;
    }
    let (mut text, mut end) = (String::new(), 0);
    for token in tokens {
        let bytes = syntax.bytes(*token..token + 1);
        text += &syntax.text()[end..bytes.start];
        text += identifier;
        end = bytes.end;
    }
    text += &syntax.text()[end..];
    Document::new(&text).ok()
}

/// Returns a name with a `$` in front, if that is an identifier.
fn identifier(name: &str) -> Option<String> {
    let name = format!("${}", name.strip_prefix('$').unwrap_or(name));
    let token = Lexer::new(&name).parse(&mut 0).ok()??;
    let is_whole = token.kind == TokenKind::Id && token.end() == name.len();
    (is_whole && token.id(&name).is_ok()).then_some(name)
}

/// Returns the result for the occurrence at the position in the parameters of a request, or `null` if there is none.
pub fn found(
    open: &OpenDocument,
    params: &Value,
    result: impl Fn(&Analysis, Occurrence) -> Value,
) -> Value {
    let (offset, analysis) = (open.offset(params), open.analysis());
    let (Some(offset), Some(analysis)) = (offset, analysis) else {
        return Value::Null;
    };
    let occurrence = analysis.occurrence_at(offset);
    occurrence.map_or(Value::Null, |occurrence| result(&analysis, occurrence))
}

fn location(open: &OpenDocument, analysis: &Analysis, params: &Value, token: usize) -> Value {
    let uri = &params["textDocument"]["uri"];
    json!({ "uri": uri, "range": range(open, analysis, token) })
}

fn range(open: &OpenDocument, analysis: &Analysis, token: usize) -> Value {
    open.range(analysis.syntax.bytes(token..token + 1))
}
