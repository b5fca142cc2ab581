//! Document symbols: modules with their fields, and functions with their named locals.

use crate::analysis::Analysis;
use crate::document::OpenDocument;
use crate::fields::{Definition, Field, FieldKind, Module};
use crate::index_spaces::Space;
use serde_json::{Value, json};
use std::collections::HashMap;
use std::ops::Range;

/// Kinds of symbols, by their numbers in the protocol.
const MODULE: u8 = 2;
const PROPERTY: u8 = 7;
const INTERFACE: u8 = 11;
const FUNCTION: u8 = 12;
const VARIABLE: u8 = 13;
const STRING: u8 = 15;
const ARRAY: u8 = 18;
const OBJECT: u8 = 19;
const EVENT: u8 = 24;

/// Returns the symbols of a document. Fields outside of `(module ..)` have no symbol around them. Returns `null` if the document is too long.
pub fn document_symbols(open: &OpenDocument, _: &Value) -> Value {
    open.analysis()
        .map_or(Value::Null, |analysis| Symbols::new(open, &analysis).all())
}

/// The symbols of a document.
struct Symbols<'s> {
    open: &'s OpenDocument,
    analysis: &'s Analysis<'s>,
    /// The definitions in each field, by the field's `(`.
    definitions: HashMap<usize, Vec<&'s Definition>>,
}

impl<'s> Symbols<'s> {
    fn new(open: &'s OpenDocument, analysis: &'s Analysis<'s>) -> Symbols<'s> {
        let mut definitions: HashMap<_, Vec<_>> = HashMap::new();
        for definition in analysis.definitions() {
            definitions
                .entry(definition.field)
                .or_default()
                .push(definition);
        }
        Symbols {
            open,
            analysis,
            definitions,
        }
    }

    fn all(&self) -> Value {
        let modules = self.analysis.modules.iter();
        modules.flat_map(|module| self.module(module)).collect()
    }

    fn module(&self, module: &Module) -> Vec<Value> {
        let fields = module.fields.iter().map(|field| self.field(*field));
        let Some(open) = module.open else {
            return fields.collect();
        };
        // Fields after the module's `)` are children too, and a range contains those of its children.
        let last = module.fields.last().map_or(open, |field| field.open);
        let syntax = &self.analysis.syntax;
        let end = syntax.end(open).max(syntax.end(last));
        let has_name = syntax.name(open + 2).is_some();
        let selection = open + 1 + usize::from(has_name);
        let mut symbol = self.symbol(syntax.source(selection), MODULE, open..end, selection);
        symbol["children"] = fields.collect();
        vec![symbol]
    }

    /// Returns a symbol. `selection` is the index of the token that names it.
    fn symbol(&self, name: &str, kind: u8, tokens: Range<usize>, selection: usize) -> Value {
        let syntax = &self.analysis.syntax;
        json!({
            "name": name,
            "kind": kind,
            "range": self.open.range(syntax.bytes(tokens)),
            "selectionRange": self.open.range(syntax.bytes(selection..selection + 1)),
        })
    }

    fn field(&self, field: Field) -> Value {
        let syntax = &self.analysis.syntax;
        let tokens = field.open..syntax.end(field.open);
        let none = Vec::new();
        let definitions = self.definitions.get(&field.open).unwrap_or(&none);
        let item = definitions.first().filter(|it| !is_inner(it));
        let (name, kind, selection) = match item {
            Some(item) => (self.name_of(item), kind_of(item.space), item.selection),
            None => self.nameless(field),
        };
        let mut symbol = self.symbol(&name, kind, tokens, selection);
        if let Some(detail) = self.detail(field) {
            symbol["detail"] = detail.into();
        }
        let locals = definitions.iter().filter(|it| it.space == Space::Local);
        let children: Vec<_> = locals.filter_map(|it| self.local(it)).collect();
        if !children.is_empty() {
            symbol["children"] = children.into();
        }
        symbol
    }

    /// Returns the identifier of an item, or its keyword and index.
    fn name_of(&self, item: &Definition) -> String {
        let syntax = &self.analysis.syntax;
        let source = syntax.source(item.selection);
        match (syntax.word(item.selection), item.index) {
            (Some(word), Some(index)) => format!("{word} {index}"),
            _ => source.to_owned(),
        }
    }

    /// Returns the name, the kind and the selected token of a field that defines no item.
    fn nameless(&self, field: Field) -> (String, u8, usize) {
        let (syntax, keyword) = (&self.analysis.syntax, field.open + 1);
        let kind = if field.kind == FieldKind::Start {
            EVENT
        } else {
            PROPERTY
        };
        let is_named = field.kind == FieldKind::Export && keyword + 1 < syntax.end(field.open);
        let selection = keyword + usize::from(is_named && !syntax.is_close(keyword + 1));
        (syntax.source(selection).to_owned(), kind, selection)
    }

    /// Returns the names of an import, or what an export or a start function refers to.
    fn detail(&self, field: Field) -> Option<String> {
        let syntax = &self.analysis.syntax;
        let (first, end) = match field.kind {
            FieldKind::Import => (field.open + 1, field.open + 4),
            FieldKind::Export => (field.open + 4, field.open + 6),
            FieldKind::Start => (field.open + 2, field.open + 3),
            _ => return None,
        };
        let tokens = first..end.min(syntax.end(field.open));
        let is_part = |at: &usize| !syntax.is_close(*at) && !syntax.is_open(*at);
        let words = tokens.take_while(is_part).map(|at| syntax.source(at));
        Some(words.collect::<Vec<_>>().join(" "))
    }

    /// Returns the symbol of a local that has an identifier.
    fn local(&self, local: &Definition) -> Option<Value> {
        let syntax = &self.analysis.syntax;
        syntax.name(local.selection)?;
        let name = syntax.source(local.selection);
        let mut symbol = self.symbol(name, VARIABLE, local.tokens.clone(), local.selection);
        let value_type = syntax.word(local.selection + 1);
        if let Some(value_type) = value_type {
            symbol["detail"] = value_type.into();
        }
        Some(symbol)
    }
}

/// Returns `true` for a definition inside of a field, which is not that of the field.
fn is_inner(definition: &Definition) -> bool {
    matches!(definition.space, Space::Local | Space::Label)
}

/// Returns the kind of the symbol of an item.
pub fn kind_of(space: Space) -> u8 {
    match space {
        Space::Type => INTERFACE,
        Space::Function => FUNCTION,
        Space::Table | Space::Element => ARRAY,
        Space::Memory => OBJECT,
        Space::Global | Space::Local | Space::Label => VARIABLE,
        Space::Data => STRING,
    }
}
