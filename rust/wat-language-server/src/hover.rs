//! Information about the token at a position: the header of a definition, or the type and opcode of an instruction, and the operands before it.

use crate::analysis::Analysis;
use crate::definitions::found;
use crate::document::OpenDocument;
use crate::fields::Definition;
use crate::index_spaces::{Space, instruction};
use crate::operands::describe_operands;
use crate::syntax::Syntax;
use crate::walker::Occurrence;
use serde_json::{Value, json};
use std::fmt::Write as _;
use std::ops::Range;
use wat_modules::ast::instruction::Opcode;

/// Maximum length of a header in bytes. A longer one has its first tokens, and then `..`.
const LONGEST_HEADER: usize = 1000;

/// Keywords of the groups that a header has.
const HEADER_GROUPS: [&str; 10] = [
    "import", "export", "type", "param", "result", "mut", "func", "table", "memory", "global",
];

/// Returns the type and the opcode of the instruction at a position, and the operands before it if the text is a module, or the kind, the index and
/// the header of the definition that the identifier or index there names. Returns `null` for any other token.
pub fn hover(open: &OpenDocument, params: &Value) -> Value {
    let offset = open.offset(params);
    if let Some(text) = offset.and_then(|at| describe_keyword(open, at)) {
        return contents(&text);
    }
    found(open, params, |analysis, occurrence| {
        contents(&describe(analysis, occurrence))
    })
}

fn contents(text: &str) -> Value {
    json!({ "contents": { "kind": "markdown", "value": text } })
}

/// Returns the token that contains a byte offset, or the word that ends at it.
fn keyword_at(open: &OpenDocument, offset: usize) -> Option<&str> {
    let document = open.document();
    let keyword = |offset| {
        let token = document.piece(document.piece_at(offset))?.token()?;
        let is_keyword = token.kind == wat_lex::TokenKind::Keyword;
        is_keyword.then(|| token.src(document.text()))
    };
    keyword(offset).or_else(|| keyword(offset.checked_sub(1)?))
}

/// Returns the type and the opcode of the instruction whose keyword is at a byte offset, and the operands before it. `else` and `end` have only
/// operands.
fn describe_keyword(open: &OpenDocument, offset: usize) -> Option<String> {
    let word = keyword_at(open, offset)?;
    let described = describe_instruction(word);
    let is_instruction = described.is_some() || matches!(word, "else" | "end");
    let operands = is_instruction.then(|| describe_operands(open, offset));
    let Some(operands) = operands.flatten() else {
        return described;
    };
    let described = described.unwrap_or_else(|| format!("```wat\n{word}\n```"));
    Some(format!("{described}\n\n{operands}"))
}

/// Returns the type of an instruction, and its opcode, unless the binary format has it in several instructions.
fn describe_instruction(word: &str) -> Option<String> {
    let signature = instruction(word)?.signature;
    let mut text = format!("```wat\n{word} : {signature}\n```");
    if let Some(row) = wat_modules::ast::table::find(word) {
        text += "\nopcode";
        let written = opcode_bytes(row.opcode)
            .iter()
            .try_for_each(|byte| write!(text, " 0x{byte:02X}"));
        written.ok()?;
    }
    Some(text)
}

/// Returns the bytes of an opcode. That after a prefix byte is encoded in LEB128.
fn opcode_bytes(opcode: Opcode) -> Vec<u8> {
    match opcode {
        Opcode::Byte(byte) => vec![byte],
        Opcode::Prefixed(prefix, number @ 0..0x80) => vec![prefix, number],
        Opcode::Prefixed(prefix, number) => vec![prefix, number, 1],
    }
}

/// Returns the header of a definition, and its kind and index.
fn describe(analysis: &Analysis, occurrence: Occurrence) -> String {
    let definition = &analysis.definitions()[occurrence.definition];
    let syntax = &analysis.syntax;
    let is_parameter = definition.space == Space::Local
        && syntax.group_word(definition.selection) == Some("param");
    let item = if is_parameter {
        "parameter"
    } else {
        definition.space.item()
    };
    let index = occurrence
        .index
        .map_or(String::new(), |it| format!(" {it}"));
    format!("```wat\n{}\n```\n{item}{index}", header(syntax, definition))
}

/// Returns the tokens of a definition up to its body, separated by spaces, with the parenthesis that closes them.
fn header(syntax: &Syntax, definition: &Definition) -> String {
    let is_import = syntax.word(definition.field + 1) == Some("import");
    let tokens = match definition.space {
        Space::Local => enclosing_group(syntax, definition),
        Space::Label => definition.tokens.clone(),
        _ if is_import => definition.field..syntax.end(definition.field),
        _ => definition.tokens.clone(),
    };
    if !syntax.is_open(tokens.start) {
        let end = body(syntax, tokens.start + 1, syntax.len());
        return join(syntax, tokens.start..end, "");
    }
    let end = body(syntax, tokens.start + 2, tokens.end);
    let close = if end < tokens.end { ")" } else { "" };
    join(syntax, tokens.start..end, close)
}

/// Returns the tokens of the group that contains a local.
fn enclosing_group(syntax: &Syntax, local: &Definition) -> Range<usize> {
    let open = syntax.parent(local.selection).unwrap_or(local.selection);
    open..syntax.end(open)
}

/// Returns the index of the first token of a body: a group that is not part of a header, or an instruction.
fn body(syntax: &Syntax, first: usize, end: usize) -> usize {
    let is_header = |at: &usize| {
        let word = syntax
            .word(*at)
            .filter(|word| instruction(word).is_some() || *word == "end");
        let group = syntax.word(at + 1).filter(|_| syntax.is_open(*at));
        word.is_none()
            && group.is_none_or(|word| HEADER_GROUPS.contains(&word))
            && !syntax.is_close(*at)
    };
    let parts = std::iter::successors(Some(first), |at| Some(syntax.end(*at)));
    let mut parts = parts.take_while(|at| *at < end);
    parts.find(|at| !is_header(at)).unwrap_or(end)
}

/// Returns tokens and a closing text, separated by spaces except inside parentheses.
fn join(syntax: &Syntax, tokens: Range<usize>, close: &str) -> String {
    let mut text = String::new();
    for at in tokens {
        let is_first = text.is_empty() || text.ends_with('(');
        let space = if is_first || syntax.is_close(at) {
            ""
        } else {
            " "
        };
        let source = syntax.source(at);
        if text.len() + space.len() + source.len() + close.len() > LONGEST_HEADER {
            return text + " ..";
        }
        text += space;
        text += source;
    }
    text + close
}
