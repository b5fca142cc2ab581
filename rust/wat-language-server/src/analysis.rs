//! The definition of each identifier and index of a text.

use crate::fields::{Definition, Field, FieldKind, Item, Module, items, modules};
use crate::index_spaces::Space;
use crate::scopes::{Index, ModuleScope};
use crate::syntax::Syntax;
use crate::walker::{Found, Occurrence, Walker};
use std::borrow::Cow;
use std::collections::{HashMap, HashSet};
use wat_lex::Document;

/// The modules of a text with their definitions, and the tokens that name them.
pub struct Analysis<'a> {
    /// The tokens of the text.
    pub syntax: Syntax<'a>,
    /// The modules.
    pub modules: Vec<Module>,
    scopes: Vec<ModuleScope<'a>>,
    found: Found,
}

impl<'a> Analysis<'a> {
    /// Analyzes a document.
    #[must_use]
    pub fn new(document: &'a Document) -> Analysis<'a> {
        let syntax = Syntax::new(document);
        let modules = modules(&syntax);
        let mut found = Found::default();
        let scopes = modules
            .iter()
            .map(|module| analyze(&syntax, module, &mut found))
            .collect();
        let occurrences = &mut found.occurrences;
        occurrences.sort_by_key(|it| (it.token, it.definition));
        // A type that is imported, which is an error, is a type use too.
        occurrences.dedup_by_key(|it| (it.token, it.definition));
        Analysis {
            syntax,
            modules,
            scopes,
            found,
        }
    }

    /// Returns the definitions.
    #[must_use]
    pub fn definitions(&self) -> &[Definition] {
        &self.found.definitions
    }

    /// Returns the occurrence whose token contains the byte offset or ends at it.
    #[must_use]
    pub(crate) fn occurrence_at(&self, offset: usize) -> Option<Occurrence> {
        let at = self.syntax.first_after(offset);
        let is_begun = self.syntax.token(at).is_some_and(|it| it.offset <= offset);
        let inside = self.occurrence(at).filter(|_| is_begun);
        inside.or_else(|| {
            let before = at.checked_sub(1)?;
            let is_ended = self.syntax.bytes(before..at).end == offset;
            self.occurrence(before).filter(|_| is_ended)
        })
    }

    /// Returns the first occurrence at a token.
    fn occurrence(&self, token: usize) -> Option<Occurrence> {
        let occurrences = &self.found.occurrences;
        let first = occurrences.partition_point(|it| it.token < token);
        occurrences
            .get(first)
            .filter(|it| it.token == token)
            .copied()
    }

    /// Returns the tokens that define or name a definition, in source order.
    pub(crate) fn occurrences_of(&self, definition: usize) -> impl Iterator<Item = Occurrence> {
        let occurrences = self.found.occurrences.iter().copied();
        occurrences.filter(move |it| it.definition == definition)
    }

    /// Returns each token that names a definition, with its number.
    pub(crate) fn named(&self) -> HashSet<(usize, usize)> {
        let occurrences = self.found.occurrences.iter();
        occurrences.map(|it| (it.token, it.definition)).collect()
    }

    /// Returns `true` if another definition of the same index space has the name, in the module, or in the function of a local. Blocks can have the
    /// label of another.
    pub(crate) fn is_taken(&self, definition: usize, name: &str) -> bool {
        let Definition { space, field, .. } = self.found.definitions[definition];
        match (space, self.field_around(field)) {
            (Space::Label, _) | (_, None) => false,
            (Space::Local, _) => self.found.definitions.iter().zip(0..).any(|(it, number)| {
                let is_other = number != definition && it.field == field && it.space == space;
                is_other && self.syntax.name(it.selection).as_deref() == Some(name)
            }),
            (_, Some((_, module))) => {
                let name = Index::Name(Cow::Owned(name.to_owned()));
                let found = self.scopes[module].find(space, name);
                found.is_some_and(|it| it != definition)
            }
        }
    }

    /// Returns the field around a group, or the group itself if it is one, and the number of its module.
    fn field_around(&self, group: usize) -> Option<(Field, usize)> {
        let numbered = self.modules.iter().zip(0..);
        let fields = numbered.flat_map(|(module, number)| {
            module.fields.iter().map(move |it| (it.open, (*it, number)))
        });
        let fields: HashMap<_, _> = fields.collect();
        let mut groups = std::iter::successors(Some(group), |open| self.syntax.parent(*open));
        groups.find_map(|open| fields.get(&open).copied())
    }

    /// Returns the kind of the field around a group, or of the group itself, and what the token at `at`, inside it, can name. Returns `None` outside
    /// of fields.
    pub(crate) fn candidates(
        &mut self,
        group: usize,
        at: usize,
    ) -> Option<(FieldKind, Candidates)> {
        let (field, module) = self.field_around(group)?;
        let scope = &self.scopes[module];
        let mut walker = Walker::new(&self.syntax, scope, field, &mut self.found);
        walker.walk(at);
        let state = walker.state();
        let of_space = |space: &Space| match space {
            Space::Local => state.locals.as_slice(),
            Space::Label => &state.labels,
            _ => scope.items(*space),
        };
        let items = state.expected.iter().flat_map(of_space);
        let candidates = Candidates {
            items: items.copied().collect(),
            is_required: state.is_required,
        };
        Some((field.kind, candidates))
    }
}

/// What a token can name.
#[derive(Default)]
pub(crate) struct Candidates {
    /// The numbers of the definitions.
    pub items: Vec<usize>,
    /// `true` if the token must be an index.
    pub is_required: bool,
}

/// Adds the definitions and occurrences of a module, and returns its scope. Types come first, because a function can have the parameters of a later
/// type.
fn analyze<'a>(syntax: &Syntax<'a>, module: &Module, found: &mut Found) -> ModuleScope<'a> {
    let mut scope = ModuleScope::default();
    let mut types = Vec::new();
    for field in &module.fields {
        let numbers = items(syntax, *field).into_iter().map(|item| {
            let field = field.open;
            define(syntax, field, &item, &mut scope, found)
        });
        let last = numbers.last();
        if let Some(number) = last.filter(|_| field.kind == FieldKind::Type) {
            types.push((*field, number));
        }
    }
    for (field, number) in types {
        let mut walker = Walker::new(syntax, &scope, field, found);
        walker.walk(syntax.end(field.open));
        let parameters = walker.locals().to_vec();
        scope.set_parameters(number, parameters);
    }
    let others = module
        .fields
        .iter()
        .filter(|field| field.kind != FieldKind::Type);
    for field in others {
        Walker::new(syntax, &scope, *field, found).walk(syntax.end(field.open));
    }
    scope
}

/// Adds the definition of an item, and returns its number.
fn define<'a>(
    syntax: &Syntax<'a>,
    field: usize,
    item: &Item,
    scope: &mut ModuleScope<'a>,
    found: &mut Found,
) -> usize {
    let identifier = item.identifier.filter(|at| syntax.name(*at).is_some());
    let name = identifier.and_then(|at| syntax.name(at));
    let index = scope.add(item.space, name, found.definitions.len());
    found.define(Definition {
        space: item.space,
        index: Some(index),
        selection: identifier.unwrap_or(item.open + 1),
        tokens: item.open..syntax.end(item.open),
        field,
    })
}
