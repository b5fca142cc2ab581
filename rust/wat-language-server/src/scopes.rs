//! Names and indices that are visible in a module, in a function, and in a block. They refer to definitions by their number.

use crate::index_spaces::Space;
use std::borrow::Cow;
use std::collections::HashMap;

/// An identifier or an index in a text.
#[derive(Debug)]
pub enum Index<'a> {
    /// The name of an identifier.
    Name(Cow<'a, str>),
    /// An integer.
    Number(usize),
}

/// The items of a module.
#[derive(Default)]
pub struct ModuleScope<'a> {
    items: HashMap<Space, Vec<usize>>,
    names: HashMap<(Space, Cow<'a, str>), usize>,
    /// The parameters of function types, by the definition of the type.
    parameters: HashMap<usize, Vec<usize>>,
}

impl<'a> ModuleScope<'a> {
    /// Adds an item, and returns its index in its index space.
    pub fn add(&mut self, space: Space, name: Option<Cow<'a, str>>, definition: usize) -> usize {
        if let Some(name) = name {
            self.names.entry((space, name)).or_insert(definition);
        }
        let items = self.items.entry(space).or_default();
        items.push(definition);
        items.len() - 1
    }

    /// Returns the definition of an item.
    pub fn find(&self, space: Space, index: Index<'a>) -> Option<usize> {
        match index {
            Index::Name(name) => self.names.get(&(space, name)).copied(),
            Index::Number(number) => self.items.get(&space)?.get(number).copied(),
        }
    }

    /// Returns the definitions of an index space, in the order of their indices.
    pub fn items(&self, space: Space) -> &[usize] {
        self.items.get(&space).map_or(&[], Vec::as_slice)
    }

    /// Records the parameters of a function type.
    pub fn set_parameters(&mut self, definition: usize, parameters: Vec<usize>) {
        self.parameters.insert(definition, parameters);
    }

    /// Returns the parameters of a function type.
    pub fn parameters(&self, definition: usize) -> &[usize] {
        self.parameters.get(&definition).map_or(&[], Vec::as_slice)
    }
}

/// The parameters and local variables of a function.
#[derive(Default)]
pub struct Locals<'a> {
    definitions: Vec<usize>,
    names: HashMap<Cow<'a, str>, usize>,
}

impl<'a> Locals<'a> {
    /// Returns locals without names: the parameters of a function type.
    pub fn of_type(parameters: &[usize]) -> Locals<'a> {
        Locals {
            definitions: parameters.to_vec(),
            names: HashMap::new(),
        }
    }

    /// Adds a local, and returns its index.
    pub fn add(&mut self, name: Option<Cow<'a, str>>, definition: usize) -> usize {
        if let Some(name) = name {
            self.names.entry(name).or_insert(definition);
        }
        self.definitions.push(definition);
        self.definitions.len() - 1
    }

    /// Returns the definition of a local.
    pub fn find(&self, index: &Index) -> Option<usize> {
        match index {
            Index::Name(name) => self.names.get(name).copied(),
            Index::Number(number) => self.definitions.get(*number).copied(),
        }
    }

    /// Returns the definitions, in the order of their indices.
    pub fn definitions(&self) -> &[usize] {
        &self.definitions
    }
}

/// A label of an enclosing block.
pub struct Label<'a> {
    /// Name of its identifier.
    pub name: Option<Cow<'a, str>>,
    /// Its definition.
    pub definition: usize,
    /// Index of the token before which its block ends at the latest.
    pub limit: usize,
    /// `true` if the block ends at its `end` instead of its `)`.
    pub is_plain: bool,
}

/// The labels of the enclosing blocks.
#[derive(Default)]
pub struct Labels<'a> {
    /// The innermost is last.
    open: Vec<Label<'a>>,
    /// Positions in `open` of the labels with a name.
    names: HashMap<Cow<'a, str>, Vec<usize>>,
}

impl<'a> Labels<'a> {
    /// Opens a label.
    pub fn push(&mut self, label: Label<'a>) {
        if let Some(name) = &label.name {
            let positions = self.names.entry(name.clone()).or_default();
            positions.push(self.open.len());
        }
        self.open.push(label);
    }

    /// Closes the innermost label.
    fn pop(&mut self) -> Option<Label<'a>> {
        let label = self.open.pop()?;
        let positions = label
            .name
            .as_ref()
            .and_then(|name| self.names.get_mut(name));
        positions.and_then(Vec::pop);
        Some(label)
    }

    /// Closes the labels whose blocks end before a token.
    pub fn close_before(&mut self, token: usize) {
        while self.last().is_some_and(|label| label.limit <= token) {
            self.pop();
        }
    }

    /// Closes the innermost label if its block ends at an `end`.
    pub fn end(&mut self) -> Option<Label<'a>> {
        let is_plain = self.last().is_some_and(|label| label.is_plain);
        is_plain.then(|| self.pop()).flatten()
    }

    /// Returns the innermost label.
    pub fn last(&self) -> Option<&Label<'a>> {
        self.open.last()
    }

    /// Returns the definition of a label, and its index: the number of labels inside it.
    pub fn find(&self, index: &Index) -> Option<(usize, usize)> {
        let last = self.open.len().checked_sub(1)?;
        let position = match index {
            Index::Name(name) => *self.names.get(name)?.last()?,
            Index::Number(number) => last.checked_sub(*number)?,
        };
        Some((self.open[position].definition, last - position))
    }

    /// Returns the definitions, innermost first.
    pub fn definitions(&self) -> impl Iterator<Item = usize> {
        self.open.iter().rev().map(|label| label.definition)
    }
}
