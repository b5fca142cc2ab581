//! The uses of identifiers and indices in a field, and its locals and labels.

use crate::fields::{Definition, Field, FieldKind};
use crate::index_spaces::{Immediate, Space, instruction, required, space_at, spaces_at};
use crate::scopes::{Index, Label, Labels, Locals, ModuleScope};
use crate::syntax::Syntax;
use std::borrow::Cow;
use std::ops::Range;

/// A token that defines or names an item, a local or a label.
#[derive(Clone, Copy, Debug)]
pub struct Occurrence {
    /// Index of the token.
    pub token: usize,
    /// Number of the definition.
    pub definition: usize,
    /// The index of the item, or the relative one of a label, which has none at its definition.
    pub index: Option<usize>,
}

/// The definitions of a text, and the tokens that name them.
#[derive(Default)]
pub struct Found {
    pub definitions: Vec<Definition>,
    pub occurrences: Vec<Occurrence>,
}

impl Found {
    /// Adds a definition, and returns its number.
    pub fn define(&mut self, definition: Definition) -> usize {
        let number = self.definitions.len();
        self.occurrences.push(Occurrence {
            token: definition.selection,
            definition: number,
            index: definition.index,
        });
        self.definitions.push(definition);
        number
    }
}

/// The indices in a group: the keyword of the group outside it, its own, and the index.
static GROUPS: [(&str, &str, Immediate); 7] = [
    ("export", "func", Immediate::once(Space::Function)),
    ("export", "table", Immediate::once(Space::Table)),
    ("export", "memory", Immediate::once(Space::Memory)),
    ("export", "global", Immediate::once(Space::Global)),
    ("elem", "table", Immediate::once(Space::Table)),
    ("data", "memory", Immediate::once(Space::Memory)),
    ("table", "elem", Immediate::any(Space::Function)),
];
static TYPE_USE: [Immediate; 1] = [Immediate::once(Space::Type)];
static START: [Immediate; 1] = [Immediate::once(Space::Function)];
static FUNCTIONS: [Immediate; 1] = [Immediate::any(Space::Function)];

/// The indices that can follow a keyword.
#[derive(Clone, Copy, Default)]
struct Pending {
    immediates: &'static [Immediate],
    /// Number of indices that follow, at most that of `immediates`.
    count: usize,
    /// Number of those that were read.
    position: usize,
}

/// What can be named by a token in a field.
pub struct State {
    /// The index spaces of which the token can be an index.
    pub expected: Vec<Space>,
    /// `true` if the token must be an index.
    pub is_required: bool,
    /// The definitions of the locals so far.
    pub locals: Vec<usize>,
    /// The definitions of the labels of the blocks around the token, innermost first.
    pub labels: Vec<usize>,
}

/// A walk through the tokens of a field, in order.
pub struct Walker<'a, 's> {
    syntax: &'s Syntax<'a>,
    scope: &'s ModuleScope<'a>,
    field: Field,
    found: &'s mut Found,
    locals: Locals<'a>,
    labels: Labels<'a>,
    /// The folded `if` around the next token: the definitions of their labels, and the ends of their groups.
    conditionals: Vec<(usize, usize)>,
    pending: Pending,
}

impl<'a, 's> Walker<'a, 's> {
    /// Begins at the start of a field of a module.
    pub fn new(
        syntax: &'s Syntax<'a>,
        scope: &'s ModuleScope<'a>,
        field: Field,
        found: &'s mut Found,
    ) -> Walker<'a, 's> {
        let mut walker = Walker {
            syntax,
            scope,
            field,
            found,
            locals: Locals::default(),
            labels: Labels::default(),
            conditionals: Vec::new(),
            pending: Pending::default(),
        };
        if field.kind == FieldKind::Function {
            walker.begin_function();
        }
        walker
    }

    /// Walks up to the token before `end`.
    pub fn walk(&mut self, end: usize) {
        for at in self.field.open..end {
            self.step(at);
        }
    }

    /// Returns the locals so far.
    pub fn locals(&self) -> &[usize] {
        self.locals.definitions()
    }

    /// Returns the state before the next token. After a keyword, groups that end before it lack their `)`, and their labels are open.
    pub fn state(&self) -> State {
        let Pending {
            immediates,
            position,
            ..
        } = self.pending;
        State {
            expected: spaces_at(immediates, position),
            is_required: required(immediates) > position,
            locals: self.locals.definitions().to_vec(),
            labels: self.labels.definitions().collect(),
        }
    }

    /// Opens the label of a function, and adds the parameters of its type if it repeats none.
    fn begin_function(&mut self) {
        let open = self.field.open;
        let label = self.found.definitions.len();
        self.found.definitions.push(Definition {
            space: Space::Label,
            index: None,
            selection: open + 1,
            tokens: open..self.syntax.end(open),
            field: open,
        });
        self.push_label(label, self.syntax.end(open), false);
        if let Some(used) = self.used_type() {
            self.locals = Locals::of_type(self.scope.parameters(used));
        }
    }

    /// Returns the definition of the type that a function uses, unless the function has parameters of its own.
    fn used_type(&self) -> Option<usize> {
        let mut type_use = None;
        for group in self.syntax.groups(self.field.open) {
            match self.syntax.word(group + 1) {
                Some("param") => return None,
                Some("type") => type_use = Some(group + 2),
                Some("import" | "export") => {}
                _ => break,
            }
        }
        self.scope.find(Space::Type, self.index_at(type_use?)?)
    }

    fn step(&mut self, at: usize) {
        self.labels.close_before(at);
        while self.conditionals.last().is_some_and(|it| it.1 <= at) {
            self.conditionals.pop();
        }
        if self.syntax.is_index(at) {
            return self.resolve(at);
        }
        self.pending = Pending::default();
        if let Some(word) = self.syntax.word(at) {
            self.read_keyword(at, word);
        } else if self.syntax.is_close(at) {
            let closed = self.syntax.parent(at);
            if closed.and_then(|open| self.syntax.group_word(open)) == Some("elem") {
                self.expect(at, &FUNCTIONS);
            }
        }
    }

    fn read_keyword(&mut self, at: usize, word: &'a str) {
        let parent = self.syntax.parent(at);
        if let Some(open) = parent.filter(|open| open + 1 == at) {
            self.read_head(open, word);
        } else if word == "func" && self.syntax.group_word(at) == Some("elem") {
            self.expect(at, &FUNCTIONS);
        }
        if let Some(instruction) = instruction(word) {
            self.expect(at, &instruction.immediates);
        }
        match word {
            _ if self.field.kind != FieldKind::Function => {}
            "block" | "loop" | "if" => self.open_block(at, word),
            "else" => self.close_block(at, false),
            "end" => self.close_block(at, true),
            _ => {}
        }
    }

    /// Reads the keyword of a group, which can have an index, or define locals.
    fn read_head(&mut self, open: usize, word: &str) {
        let outer = self.syntax.group_word(open).unwrap_or_default();
        let mut groups = GROUPS.iter();
        if let Some(group) = groups.find(|group| (group.0, group.1) == (outer, word)) {
            self.expect(open + 1, std::slice::from_ref(&group.2));
        }
        match word {
            "type" if open != self.field.open => self.expect(open + 1, &TYPE_USE),
            "start" if open == self.field.open => self.expect(open + 1, &START),
            "param" | "local" if outer == "func" => self.define_locals(open),
            "then" | "else" => {
                if let Some((label, _)) = self.conditionals.last().copied() {
                    self.push_label(label, self.syntax.end(open), false);
                }
            }
            _ => {}
        }
    }

    /// Expects indices after a keyword.
    fn expect(&mut self, at: usize, immediates: &'static [Immediate]) {
        let following = (at + 1..).take(immediates.len());
        let count = following.take_while(|at| self.syntax.is_index(*at)).count();
        self.pending = Pending {
            immediates,
            count,
            position: 0,
        };
    }

    fn define_locals(&mut self, open: usize) {
        let syntax = self.syntax;
        let name = syntax.name(open + 2);
        if name.is_some() {
            return self.define_local(open + 2, open..syntax.end(open), name);
        }
        for part in syntax.parts(open) {
            self.define_local(part, part..syntax.end(part), None);
        }
    }

    fn define_local(&mut self, selection: usize, tokens: Range<usize>, name: Option<Cow<'a, str>>) {
        let number = self.found.definitions.len();
        let index = self.locals.add(name, number);
        self.found.define(Definition {
            space: Space::Local,
            index: Some(index),
            selection,
            tokens,
            field: self.field.open,
        });
    }

    /// Defines the label of a block. That of a folded `if` is open in its branches only.
    fn open_block(&mut self, at: usize, word: &str) {
        let open = self.syntax.parent(at).filter(|open| open + 1 == at);
        let limit = self.labels.last().map_or(at, |label| label.limit);
        let limit = open.map_or(limit, |open| self.syntax.end(open));
        let has_name = self.syntax.name(at + 1).is_some();
        let label = self.found.define(Definition {
            space: Space::Label,
            index: None,
            selection: if has_name { at + 1 } else { at },
            tokens: open.map_or(at..at + 1, |open| open..limit),
            field: self.field.open,
        });
        if open.is_some() && word == "if" {
            self.conditionals.push((label, limit));
        } else {
            self.push_label(label, limit, open.is_none());
        }
    }

    fn push_label(&mut self, definition: usize, limit: usize, is_plain: bool) {
        let name = self
            .syntax
            .name(self.found.definitions[definition].selection);
        self.labels.push(Label {
            name,
            definition,
            limit,
            is_plain,
        });
    }

    /// Reads an `else` or `end` that is not folded, which can repeat the identifier of its block.
    fn close_block(&mut self, at: usize, is_end: bool) {
        let label = self.labels.last().filter(|label| label.is_plain);
        let Some(label) = label else { return };
        let (definition, name) = (label.definition, self.syntax.name(at + 1));
        if name.is_some() && name == label.name {
            let (token, index) = (at + 1, Some(0));
            self.found.occurrences.push(Occurrence {
                token,
                definition,
                index,
            });
        }
        if is_end {
            self.labels.end();
        }
    }

    fn index_at(&self, at: usize) -> Option<Index<'a>> {
        let name = self.syntax.name(at).map(Index::Name);
        name.or_else(|| Some(Index::Number(self.syntax.integer(at)? as usize)))
    }

    /// Finds the definition of an identifier or index.
    fn resolve(&mut self, at: usize) {
        let Pending {
            immediates,
            count,
            position,
        } = self.pending;
        self.pending.position += 1;
        let Some(space) = space_at(immediates, count, position) else {
            return;
        };
        let found = self.index_at(at).and_then(|index| match space {
            Space::Label => self
                .labels
                .find(&index)
                .map(|(it, depth)| (it, Some(depth))),
            Space::Local => self.locals.find(&index).map(|it| (it, None)),
            _ => self.scope.find(space, index).map(|it| (it, None)),
        });
        if let Some((definition, depth)) = found {
            let index = depth.or(self.found.definitions[definition].index);
            self.found.occurrences.push(Occurrence {
                token: at,
                definition,
                index,
            });
        }
    }
}
