//! Completion of keywords and identifiers.

use crate::analysis::{Analysis, Candidates};
use crate::document::OpenDocument;
use crate::fields::{FIELDS, FieldKind};
use crate::index_spaces::{INSTRUCTIONS, Space};
use crate::syntax::Syntax;
use serde_json::{Value, json};
use std::collections::HashSet;
use std::ops::Range;
use wat_lex::Document;

/// Kinds of completions, by their numbers in the protocol.
const FUNCTION: u8 = 3;
const VARIABLE: u8 = 6;
const VALUE: u8 = 12;
const KEYWORD: u8 = 14;
const REFERENCE: u8 = 18;
const TYPE: u8 = 25;

const VALUE_TYPES: [&str; 7] = ["i32", "i64", "f32", "f64", "v128", "funcref", "externref"];
const REFERENCE_TYPES: [&str; 2] = ["funcref", "externref"];
const DESCRIPTIONS: [&str; 4] = ["func", "table", "memory", "global"];
const FUNCTION_HEADER: [&str; 6] = ["export", "import", "type", "param", "result", "local"];
const BLOCK_HEADER: [&str; 3] = ["type", "param", "result"];
/// Instructions of constant expressions.
const CONSTANTS: [&str; 8] = [
    "i32.const",
    "i64.const",
    "f32.const",
    "f64.const",
    "v128.const",
    "ref.null",
    "ref.func",
    "global.get",
];

/// Returns the completions at a position that begin with the characters before it, or `null` if the document is too long.
pub fn completion(open: &OpenDocument, params: &Value) -> Value {
    let (Some(offset), Some(analysis)) = (open.offset(params), open.analysis()) else {
        return Value::Null;
    };
    if is_in_text(open.document(), offset) {
        return json!([]);
    }
    let prefix = prefix(open.document().text(), offset);
    let at = analysis.syntax.first_after(prefix.start);
    let candidates = candidates(analysis, at);
    let source = &open.document().text()[prefix.clone()];
    let range = open.range(prefix);
    let candidates = candidates.into_iter().filter(|it| it.0.starts_with(source));
    candidates
        .map(|(label, kind)| item(&label, kind, &range))
        .collect()
}

fn item(label: &str, kind: u8, range: &Value) -> Value {
    let edit = json!({ "range": range, "newText": label });
    json!({ "label": label, "kind": kind, "textEdit": edit })
}

/// Returns `true` if a byte offset is inside a comment or a string, or at the end of a line comment or of a string with an error.
fn is_in_text(document: &Document, offset: usize) -> bool {
    let before = offset.checked_sub(1).map(|last| document.piece_at(last));
    let Some(piece) = before.and_then(|at| document.piece(at)) else {
        return false;
    };
    let source = &document.text()[piece.range()];
    let is_inside = piece.end() > offset && source.starts_with(['"', ';', '(']);
    let is_unclosed = piece.token().is_none() && source.starts_with('"');
    is_inside || is_unclosed || source.starts_with(";;")
}

/// Returns the range of the characters before a byte offset that can be part of a keyword or an identifier.
fn prefix(text: &str, offset: usize) -> Range<usize> {
    let is_idchar = |c: char| c.is_ascii_graphic() && !"\"(),;[]{}".contains(c);
    let before = text[..offset].trim_end_matches(is_idchar);
    before.len()..offset
}

/// Returns the identifiers and keywords that can be written before a token, each with its kind.
fn candidates(mut analysis: Analysis, at: usize) -> Vec<(String, u8)> {
    let group = enclosing(&analysis.syntax, at);
    let found = group.and_then(|open| analysis.candidates(open, at));
    let (kind, Candidates { items, is_required }) = match found {
        Some((kind, candidates)) => (Some(kind), candidates),
        None => (None, Candidates::default()),
    };
    let syntax = &analysis.syntax;
    let definitions = items.iter().map(|it| &analysis.definitions()[*it]);
    // A label hides those around it of the same name.
    let mut seen = HashSet::new();
    let visible = definitions.filter(|it| {
        let name = syntax.name(it.selection);
        name.is_some_and(|name| seen.insert(name))
    });
    let identifier = |space, selection| (syntax.source(selection).to_owned(), kind_of(space));
    let mut found: Vec<_> = visible
        .map(|it| identifier(it.space, it.selection))
        .collect();
    if is_required {
        return found;
    }
    let context = Context {
        syntax,
        at,
        group,
        field: kind,
    };
    let (words, kind) = context.words();
    found.extend(words.into_iter().map(|word| (word.to_owned(), kind)));
    found
}

/// Returns the kind of the completion of an identifier.
fn kind_of(space: Space) -> u8 {
    match space {
        Space::Type => TYPE,
        Space::Function => FUNCTION,
        Space::Label => REFERENCE,
        Space::Global | Space::Local => VARIABLE,
        Space::Table | Space::Memory | Space::Element | Space::Data => VALUE,
    }
}

/// Returns the `(` of the innermost group that a token would be in.
fn enclosing(syntax: &Syntax, at: usize) -> Option<usize> {
    let before = at.checked_sub(1)?;
    if syntax.is_open(before) {
        return Some(before);
    }
    let parent = syntax.parent(before);
    if syntax.is_close(before) {
        return parent.and_then(|open| syntax.parent(open));
    }
    parent
}

/// Where a keyword would be written.
struct Context<'s, 'a> {
    syntax: &'s Syntax<'a>,
    /// Index of the next token.
    at: usize,
    /// The innermost group.
    group: Option<usize>,
    /// Kind of the field around the token.
    field: Option<FieldKind>,
}

impl Context<'_, '_> {
    /// Returns the keywords, and the kind of their completions.
    fn words(&self) -> (Vec<&'static str>, u8) {
        let word = self.group.and_then(|open| self.syntax.word(open + 1));
        let is_head = self.group.is_some_and(|open| open + 1 == self.at);
        let before = self.at.checked_sub(1).and_then(|at| self.syntax.word(at));
        match (word, self.field) {
            _ if is_head => (self.heads(), KEYWORD),
            _ if before == Some("ref.null") => (vec!["func", "extern"], TYPE),
            (Some("param" | "result" | "local" | "mut"), _) => (VALUE_TYPES.into(), TYPE),
            (Some("global"), Some(FieldKind::Global | FieldKind::Import)) => {
                (VALUE_TYPES.into(), TYPE)
            }
            (Some("table"), Some(FieldKind::Table | FieldKind::Import)) => {
                (REFERENCE_TYPES.into(), TYPE)
            }
            (Some("elem"), Some(FieldKind::Element | FieldKind::Table)) => {
                (vec!["func", "declare", "funcref", "externref"], KEYWORD)
            }
            (
                Some("func" | "block" | "loop" | "if" | "then" | "else"),
                Some(FieldKind::Function),
            ) => {
                let ends = ["else", "end"];
                (instructions().chain(ends).collect(), KEYWORD)
            }
            (Some("offset" | "item"), _) => (CONSTANTS.into(), KEYWORD),
            _ => (vec![], KEYWORD),
        }
    }

    /// Returns the keywords after a `(`.
    fn heads(&self) -> Vec<&'static str> {
        let outer = self.group.and_then(|open| self.syntax.parent(open));
        let word = outer.and_then(|open| self.syntax.word(open + 1));
        let fields = FIELDS.iter().map(|field| field.0);
        match (word, self.field) {
            (None, _) => fields.chain(["module"]).collect(),
            (Some("module"), _) => fields.collect(),
            (Some("import" | "export"), _) => DESCRIPTIONS.into(),
            (Some("type"), _) => vec!["func"],
            (Some("func"), Some(FieldKind::Type | FieldKind::Import)) => BLOCK_HEADER.into(),
            (Some("global"), _) => ["mut", "export", "import"]
                .into_iter()
                .chain(CONSTANTS)
                .collect(),
            (Some("table"), _) => vec!["elem", "export", "import"],
            (Some("memory"), _) => vec!["data", "export", "import"],
            (Some("elem"), _) => ["table", "offset", "item"]
                .into_iter()
                .chain(CONSTANTS)
                .collect(),
            (Some("data"), _) => ["memory", "offset"].into_iter().chain(CONSTANTS).collect(),
            (Some("offset" | "item"), _) => CONSTANTS.into(),
            (Some(word), Some(FieldKind::Function)) => in_function(word),
            _ => vec![],
        }
    }
}

/// Returns the keywords after a `(` in a function, in the group of a keyword.
fn in_function(word: &str) -> Vec<&'static str> {
    let header: &[_] = match word {
        "func" => &FUNCTION_HEADER,
        "block" | "loop" | "call_indirect" => &BLOCK_HEADER,
        "if" => &["type", "param", "result", "then", "else"],
        "select" => &["result"],
        _ => &[],
    };
    header.iter().copied().chain(instructions()).collect()
}

fn instructions() -> impl Iterator<Item = &'static str> {
    INSTRUCTIONS.iter().map(|it| it.word)
}
