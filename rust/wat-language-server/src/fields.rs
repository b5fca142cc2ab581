//! The modules of a text, their fields, and the items that each field adds to the index spaces.

use crate::index_spaces::Space;
use crate::syntax::Syntax;
use std::ops::Range;

/// Kind of a field of a module.
#[derive(Clone, Copy, Debug, PartialEq, Eq)]
pub enum FieldKind {
    /// `(type ..)`
    Type,
    /// `(import ..)`
    Import,
    /// `(func ..)`
    Function,
    /// `(table ..)`
    Table,
    /// `(memory ..)`
    Memory,
    /// `(global ..)`
    Global,
    /// `(export ..)`
    Export,
    /// `(start ..)`
    Start,
    /// `(elem ..)`
    Element,
    /// `(data ..)`
    Data,
}

/// The keywords of fields.
pub const FIELDS: [(&str, FieldKind); 10] = [
    ("type", FieldKind::Type),
    ("import", FieldKind::Import),
    ("func", FieldKind::Function),
    ("table", FieldKind::Table),
    ("memory", FieldKind::Memory),
    ("global", FieldKind::Global),
    ("export", FieldKind::Export),
    ("start", FieldKind::Start),
    ("elem", FieldKind::Element),
    ("data", FieldKind::Data),
];

impl FieldKind {
    /// Returns the kind of the field that begins with a keyword.
    #[must_use]
    pub fn of(word: &str) -> Option<FieldKind> {
        let mut fields = FIELDS.into_iter();
        fields.find(|field| field.0 == word).map(|field| field.1)
    }

    /// Returns the index space to which the field adds an item, or `None` for imports, exports and start functions.
    #[must_use]
    pub fn space(self) -> Option<Space> {
        match self {
            FieldKind::Type => Some(Space::Type),
            FieldKind::Function => Some(Space::Function),
            FieldKind::Table => Some(Space::Table),
            FieldKind::Memory => Some(Space::Memory),
            FieldKind::Global => Some(Space::Global),
            FieldKind::Element => Some(Space::Element),
            FieldKind::Data => Some(Space::Data),
            FieldKind::Import | FieldKind::Export | FieldKind::Start => None,
        }
    }
}

/// A field of a module.
#[derive(Clone, Copy, Debug)]
pub struct Field {
    /// Index of the field's `(`.
    pub open: usize,
    /// Kind of the field.
    pub kind: FieldKind,
}

/// A module of a text.
#[derive(Default)]
pub struct Module {
    /// Index of the `(` of `(module`, or `None` for fields without it.
    pub open: Option<usize>,
    /// Its fields in source order. Fields directly after the module's `)` are among them.
    pub fields: Vec<Field>,
}

/// Returns the modules of a text: groups `(module ..)`, also within a command of a script, and fields outside of them.
#[must_use]
pub fn modules(syntax: &Syntax) -> Vec<Module> {
    let mut modules: Vec<Module> = Vec::new();
    let tops = std::iter::successors(Some(0), |at| Some(syntax.end(*at)));
    for open in tops.take_while(|at| *at < syntax.len()) {
        let word = if syntax.is_open(open) {
            syntax.word(open + 1)
        } else {
            None
        };
        let field = field_at(syntax, open);
        match (word, field, modules.last_mut()) {
            (Some("module"), ..) => modules.push(module_at(syntax, open)),
            (_, Some(field), Some(module)) => module.fields.push(field),
            (_, Some(field), None) => modules.push(Module {
                open: None,
                fields: vec![field],
            }),
            (Some(_), None, _) => {
                let is_module = |at: &usize| syntax.word(at + 1) == Some("module");
                let inner = syntax.groups(open).filter(is_module);
                modules.extend(inner.map(|at| module_at(syntax, at)));
            }
            _ => {}
        }
    }
    modules
}

fn module_at(syntax: &Syntax, open: usize) -> Module {
    let groups = syntax.groups(open);
    Module {
        open: Some(open),
        fields: groups.filter_map(|at| field_at(syntax, at)).collect(),
    }
}

fn field_at(syntax: &Syntax, open: usize) -> Option<Field> {
    let word = syntax.is_open(open).then(|| syntax.word(open + 1))??;
    let kind = FieldKind::of(word)?;
    Some(Field { open, kind })
}

/// A definition of an item, a local or a label.
#[derive(Clone, Debug)]
pub struct Definition {
    /// The index space.
    pub space: Space,
    /// Index of the item in its index space. A label has none.
    pub index: Option<usize>,
    /// Index of the identifier's token, or of the keyword or value type if there is none.
    pub selection: usize,
    /// The tokens of the definition. Of a block that is not folded, only the keyword.
    pub tokens: Range<usize>,
    /// Index of the `(` of the field.
    pub field: usize,
}

/// An item that a field adds to an index space.
pub struct Item {
    /// The index space.
    pub space: Space,
    /// Index of the `(` of its group, inside that of an import.
    pub open: usize,
    /// Index of the token after the keyword, which is the identifier if it is one. A segment inside a table or memory has none.
    pub identifier: Option<usize>,
}

/// Returns the items that a field adds to index spaces: its own, or that of its import, and an inline element or data segment.
#[must_use]
pub fn items(syntax: &Syntax, field: Field) -> Vec<Item> {
    let own = match field.kind {
        FieldKind::Import => {
            let mut groups = syntax.groups(field.open);
            groups.find_map(|open| field_at(syntax, open))
        }
        _ => Some(field),
    };
    let own = own.and_then(|Field { open, kind }| {
        let (space, identifier) = (kind.space()?, Some(open + 2));
        Some(Item {
            space,
            open,
            identifier,
        })
    });
    own.into_iter()
        .chain(inline_segment(syntax, field))
        .collect()
}

/// Returns the element segment inside a table, or the data segment inside a memory.
fn inline_segment(syntax: &Syntax, field: Field) -> Option<Item> {
    let (word, space) = match field.kind {
        FieldKind::Table => ("elem", Space::Element),
        FieldKind::Memory => ("data", Space::Data),
        _ => return None,
    };
    let mut groups = syntax.groups(field.open);
    let open = groups.find(|at| syntax.word(at + 1) == Some(word))?;
    Some(Item {
        space,
        open,
        identifier: None,
    })
}
