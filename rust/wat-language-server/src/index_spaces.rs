//! Index spaces, and the immediates of instructions that are indices, from the table `instructions.tsv`.

use std::collections::HashMap;
use std::sync::LazyLock;

/// An index space of a module or of a function.
#[derive(Clone, Copy, Debug, PartialEq, Eq, Hash)]
pub enum Space {
    /// Function types.
    Type,
    /// Functions, imported ones first.
    Function,
    /// Tables.
    Table,
    /// Memories.
    Memory,
    /// Global variables.
    Global,
    /// Element segments.
    Element,
    /// Data segments.
    Data,
    /// Parameters and local variables of a function.
    Local,
    /// Labels of the enclosing blocks, innermost first.
    Label,
}

impl Space {
    /// Returns the name of an item of the index space.
    #[must_use]
    pub fn item(self) -> &'static str {
        match self {
            Space::Type => "type",
            Space::Function => "function",
            Space::Table => "table",
            Space::Memory => "memory",
            Space::Global => "global",
            Space::Element => "element segment",
            Space::Data => "data segment",
            Space::Local => "local",
            Space::Label => "label",
        }
    }

    /// Returns the index space that a column of the table names.
    fn parse(name: &str) -> Option<Space> {
        Some(match name {
            "type" => Space::Type,
            "function" => Space::Function,
            "table" => Space::Table,
            "memory" => Space::Memory,
            "global" => Space::Global,
            "element" => Space::Element,
            "data" => Space::Data,
            "local" => Space::Local,
            "label" => Space::Label,
            _ => return None,
        })
    }
}

/// How often an index occurs among the immediates of an instruction.
#[derive(Clone, Copy, Debug, PartialEq, Eq)]
pub enum Occurs {
    /// Exactly once.
    Once,
    /// Once, or not at all.
    Optional,
    /// At least once.
    Repeated,
    /// Any number of times.
    Any,
}

/// An index after a keyword.
#[derive(Clone, Copy, Debug, PartialEq, Eq)]
pub struct Immediate {
    /// The index space.
    pub space: Space,
    /// How often the index occurs.
    pub occurs: Occurs,
}

impl Immediate {
    /// Returns an index that occurs once.
    #[must_use]
    pub const fn once(space: Space) -> Immediate {
        let occurs = Occurs::Once;
        Immediate { space, occurs }
    }

    /// Returns an index that occurs any number of times.
    #[must_use]
    pub const fn any(space: Space) -> Immediate {
        let occurs = Occurs::Any;
        Immediate { space, occurs }
    }

    fn parse(text: &str) -> Option<Immediate> {
        let name = text.trim_end_matches(['?', '+']);
        let occurs = match &text[name.len()..] {
            "?" => Occurs::Optional,
            "+" => Occurs::Repeated,
            _ => Occurs::Once,
        };
        let space = Space::parse(name)?;
        Some(Immediate { space, occurs })
    }
}

/// An instruction of the table.
#[derive(Debug)]
pub struct Instruction {
    /// Keyword of the instruction.
    pub word: &'static str,
    /// The immediates that are indices. That of a type use is not among them.
    pub immediates: Vec<Immediate>,
    /// Types of the operands and results.
    pub signature: &'static str,
}

/// The table of instructions, in its order.
pub static INSTRUCTIONS: LazyLock<Vec<Instruction>> = LazyLock::new(|| {
    let lines = include_str!("instructions.tsv").lines();
    lines.filter_map(parse).collect()
});

/// The indices of [`INSTRUCTIONS`] by keyword.
static BY_WORD: LazyLock<HashMap<&str, usize>> = LazyLock::new(|| {
    let words = INSTRUCTIONS.iter().map(|it| it.word);
    words.zip(0..).collect()
});

/// Parses a line of the table. Returns `None` for a comment.
fn parse(line: &'static str) -> Option<Instruction> {
    let mut columns = line.split('\t');
    let word = columns.next().filter(|word| !word.starts_with('#'))?;
    let immediates = columns.next()?.split(' ').filter_map(Immediate::parse);
    Some(Instruction {
        word,
        immediates: immediates.collect(),
        signature: columns.next()?,
    })
}

/// Returns the instruction of a keyword.
#[must_use]
pub fn instruction(word: &str) -> Option<&'static Instruction> {
    BY_WORD.get(word).map(|at| &INSTRUCTIONS[*at])
}

/// Returns the number of indices that must follow a keyword.
#[must_use]
pub fn required(immediates: &[Immediate]) -> usize {
    let is_required = |it: &&Immediate| matches!(it.occurs, Occurs::Once | Occurs::Repeated);
    immediates.iter().filter(is_required).count()
}

/// Returns the index space of the index at `position` among `count` indices after a keyword. An optional index is present if the others leave one for
/// it.
#[must_use]
pub fn space_at(immediates: &[Immediate], count: usize, position: usize) -> Option<Space> {
    let mut surplus = count.saturating_sub(required(immediates));
    let mut left = position;
    for immediate in immediates {
        match immediate.occurs {
            Occurs::Optional if surplus == 0 => continue,
            Occurs::Optional => surplus -= 1,
            Occurs::Once => {}
            Occurs::Repeated | Occurs::Any => return Some(immediate.space),
        }
        if left == 0 {
            return Some(immediate.space);
        }
        left -= 1;
    }
    None
}

/// Returns the index spaces of the index at `position` after a keyword, for each number of indices that can follow.
#[must_use]
pub fn spaces_at(immediates: &[Immediate], position: usize) -> Vec<Space> {
    let counts = position + 1..=immediates.len().max(position + 1);
    let spaces = counts.filter_map(|count| space_at(immediates, count, position));
    let mut spaces: Vec<_> = spaces.collect();
    spaces.dedup();
    spaces
}
