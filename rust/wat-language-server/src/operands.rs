//! The operands before an instruction, by the functions of `wat_modules` that validate the bodies of functions.

use crate::document::OpenDocument;
use crate::syntax::Syntax;
use wat_lex::shim::alloc::Global;
use wat_modules::ast::fields::Field;
use wat_modules::ast::implicit_types::types_of;
use wat_modules::ast::instruction::{Instruction, Opcode, ReferenceType, ValueType};
use wat_modules::lexer::{PackedText, PackedTokens, pack_tokens};
use wat_modules::parser::module::module;
use wat_modules::places::places::{place_in_module, place_of_field};
use wat_modules::tokens::stream::{TokenCursor, TokenStream};
use wat_modules::validation::accepting::{frames_after, step};
use wat_modules::validation::blocks::{Frames, block_type};
use wat_modules::validation::body::{BodyContext, body_of};
use wat_modules::validation::context::ModuleContext;
use wat_modules::validation::operands::{OperandType, Operands};

/// Maximum number of types that a list of operands has: those at the top of the stack.
const MOST_TYPES: usize = 100;

/// Returns the operands of the innermost block before the instruction whose keyword is at a byte offset, and the type that the instruction has there.
/// Returns `None` if the text is not a module, if there is no instruction of a function at the offset, or if one before it is not valid.
pub fn describe_operands(open: &OpenDocument, offset: usize) -> Option<String> {
    let document = open.document();
    if !open.is_compiled() || document.faults().next().is_some() {
        return None;
    }
    let syntax = Syntax::new(document);
    let token = syntax.keyword_at(offset)?;
    let PackedText { packed, error } = pack_tokens(Global, syntax.text()).ok()?;
    if error.is_some() {
        return None;
    }
    let PackedTokens { tokens, kept } = packed;
    let source = TokenStream::new(syntax.text(), tokens, &kept);
    let fields = module(Global, source.cursor()).ok()?;
    let places = Places {
        syntax: &syntax,
        tokens: source.cursor(),
    };
    let field = places.field_around(token, fields.len())?;
    let instruction = places.instruction_at(token, field, &fields)?;
    describe_in(&fields, field, instruction)
}

/// The tokens of a module, among which its fields and instructions are found.
struct Places<'p, 'a> {
    syntax: &'p Syntax<'a>,
    /// All tokens of the module.
    tokens: TokenCursor<'p, 'a>,
}

impl<'p, 'a> Places<'p, 'a> {
    /// Returns the index of the first token that a cursor has.
    fn token(&self, place: TokenCursor<'p, 'a>) -> usize {
        self.tokens.len() - place.len()
    }

    /// Returns the index of the field that contains a token, if it is one of `count` fields.
    fn field_around(&self, token: usize, count: usize) -> Option<usize> {
        let is_before = |field: &usize| {
            place_of_field(self.tokens, *field).is_some_and(|place| self.token(place) <= token)
        };
        let fields: Vec<usize> = (0..count).collect();
        fields.partition_point(is_before).checked_sub(1)
    }

    /// Returns the index of the instruction that is written at a token, in the body of a function. Instructions are in the order of the tokens at
    /// which they are complete, which differs from that of their keywords: a folded instruction has its keyword before its operands.
    fn instruction_at(&self, token: usize, field: usize, fields: &[Field]) -> Option<usize> {
        let Some(Field::Func(function)) = fields.get(field) else {
            return None;
        };
        let place = |instruction: usize| {
            let place = place_in_module(Global, self.tokens, field, instruction);
            Some(self.token(place.ok()??))
        };
        let last = self.last_token(token);
        let is_before = |instruction: &usize| {
            place(*instruction).is_some_and(|token| self.last_token(token) < last)
        };
        let instructions: Vec<usize> = (0..function.body.len()).collect();
        let found = instructions.partition_point(is_before);
        (place(found) == Some(token)).then_some(found)
    }

    /// Returns the index of the token at which the instruction that is written at a token is complete: the `)` of a folded plain instruction, the
    /// `(then` of a folded `if`, and otherwise the token itself.
    fn last_token(&self, token: usize) -> usize {
        let syntax = self.syntax;
        let group = syntax.parent(token).filter(|open| open + 1 == token);
        match (group, syntax.word(token)) {
            (None, _) | (_, None | Some("block" | "loop" | "else")) => token,
            (Some(open), Some("if")) => {
                let mut groups = syntax.groups(open);
                let branch = groups.find(|group| syntax.word(group + 1) == Some("then"));
                branch.unwrap_or(token)
            }
            (Some(open), Some(_)) => syntax.end(open) - 1,
        }
    }
}

/// Describes the operands before an instruction in the body of a function, by the indices of its field and of the instruction.
fn describe_in(fields: &[Field], field: usize, instruction: usize) -> Option<String> {
    let Some(Field::Func(function)) = fields.get(field) else {
        return None;
    };
    let types = types_of(Global, fields).ok()?;
    let context = ModuleContext::new(Global, types.as_slice(), fields).ok()?;
    let context = context.full();
    let body = body_of(Global, &context, function).ok()??;
    let (before, after) = function.body.split_at_checked(instruction)?;
    let mut frames = frames_after(Global, &body, before).ok()?.ok()?;
    let instruction = after.first()?;
    let mut text = format!("operands `{}`", printed(&frames.current.operands));
    if frames.current.operands.is_unreachable {
        text += ", unreachable";
        let is_valid = step(Global, &body, &mut frames, instruction).ok()?;
        return Some(text + if is_valid { "" } else { ", not valid here" });
    }
    Some(match type_of(&body, frames, instruction) {
        Some((taken, given)) => format!("{text}, here `{taken} -> {given}`"),
        None => text + ", not valid here",
    })
}

/// Returns the operands that an instruction takes after these frames, and those that it gives. The code must be reachable. Returns `None` if the
/// instruction is not valid there.
fn type_of<'m>(
    body: &BodyContext<'m>,
    mut frames: Frames<'m>,
    instruction: &'m Instruction,
) -> Option<(String, String)> {
    let (params, results) = (frames.current.params, frames.current.results);
    let of = match instruction.opcode {
        Opcode::Byte(opcode @ 0x02..=0x04) => {
            let (params, results) = block_type(body.module.types, &instruction.argument)?;
            let condition = [ValueType::I32];
            let condition = &condition[..usize::from(opcode == 0x04)];
            (values(&[params, condition]), values(&[results]))
        }
        Opcode::Byte(0x05) => (values(&[results]), values(&[params])),
        Opcode::Byte(0x0B) => (values(&[results]), values(&[results])),
        _ => return plain_type_of(body, frames, instruction),
    };
    let is_valid = step(Global, body, &mut frames, instruction).ok()?;
    is_valid.then_some(of)
}

/// Returns the operands that an instruction takes after these frames, and those that it gives, unless it begins or ends a block: it takes the fewest
/// operands from the top of the stack that it accepts. Returns `None` if the instruction is not valid there.
fn plain_type_of<'m>(
    body: &BodyContext<'m>,
    mut frames: Frames<'m>,
    instruction: &'m Instruction,
) -> Option<(String, String)> {
    let types = frames.current.operands.types.to_vec();
    let mut given_for = |count: usize| {
        let operands = operands_of(&types[types.len() - count..]);
        frames.current.operands = operands;
        let is_valid = step(Global, body, &mut frames, instruction).ok()?;
        is_valid.then(|| printed(&frames.current.operands))
    };
    let counts: Vec<usize> = (0..=types.len()).collect();
    let taken = counts.partition_point(|count| given_for(*count).is_none());
    let given = given_for(*counts.get(taken)?)?;
    Some((printed(&operands_of(&types[types.len() - taken..])), given))
}

/// Returns operands of these types, in code that can be reached.
fn operands_of(types: &[OperandType]) -> Operands {
    Operands {
        types: types.to_vec().into(),
        is_unreachable: false,
    }
}

/// Returns lists of value types, one after another, as they are printed.
fn values(lists: &[&[ValueType]]) -> String {
    let types = lists.iter().copied().flatten();
    let types: Vec<_> = types.map(|of| OperandType::Value(*of)).collect();
    printed(&operands_of(&types))
}

/// Returns the types of operands in brackets, the top of the stack last. In code that cannot be reached, `..` is for the operands below, which can be
/// any.
fn printed(operands: &Operands) -> String {
    let omitted = operands.types.len().saturating_sub(MOST_TYPES);
    let unreachable = operands.is_unreachable.then(|| "..".to_owned());
    let more = (omitted > 0).then(|| format!("({omitted} more)"));
    let types = operands.types.iter().skip(omitted);
    let types = types.map(|of| name(*of).to_owned());
    let words: Vec<_> = unreachable.into_iter().chain(more).chain(types).collect();
    format!("[{}]", words.join(" "))
}

/// Returns the name of a type. An operand in code that cannot be reached can have any.
fn name(of: OperandType) -> &'static str {
    match of {
        OperandType::Bottom => "any",
        OperandType::Value(ValueType::I32) => "i32",
        OperandType::Value(ValueType::I64) => "i64",
        OperandType::Value(ValueType::F32) => "f32",
        OperandType::Value(ValueType::F64) => "f64",
        OperandType::Value(ValueType::V128) => "v128",
        OperandType::Value(ValueType::Reference(ReferenceType::Func)) => "funcref",
        OperandType::Value(ValueType::Reference(ReferenceType::Extern)) => "externref",
    }
}
