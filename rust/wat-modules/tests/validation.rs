//! The first field that is not valid, and the reason, by the functions that `wat_modules::validation` has for fields as the parser returns them; and
//! allocation failures. `validity.rs` has the messages and offsets of texts.

#[path = "../../wat-lex/tests/refusing/mod.rs"]
mod refusing;

use refusing::granting;
use wat_lex::shim::alloc::{AllocError, Global};
use wat_lex::shim::vec::Vec as Fields;
use wat_modules::ast::fields::{Field, Function, IndexSpace, Locals};
use wat_modules::ast::instruction::{ReferenceType, ValueType};
use wat_modules::ast::types::TypeUse;
use wat_modules::lexer::{PackedTokens, pack_tokens};
use wat_modules::parser::module::module;
use wat_modules::tokens::stream::TokenStream;
use wat_modules::tokens::token::Name;
use wat_modules::validation::code::{Cause, Invalid};
use wat_modules::validation::locals::LocalTypes;
use wat_modules::validation::module::Reason;
use wat_modules::validation::validity::validate;

/// Texts of modules that are not valid, each with the index of the first field that is not, and the reason.
const INVALID: &[(&str, usize, &str)] = &[
    ("(func) (memory 2 1)", 1, "limits"),
    ("(export \"a\" (func 1)) (func)", 0, "no function"),
    ("(export \"a\" (table 0))", 0, "no table"),
    ("(func) (export \"a\" (memory 0))", 1, "no memory"),
    ("(export \"a\" (global 0))", 0, "no global"),
    ("(func (param i32)) (start 0)", 1, "start type"),
    (
        "(table 1 externref) (elem (i32.const 0) funcref)",
        1,
        "element type",
    ),
    ("(memory 1) (memory 1)", 1, "second memory"),
    ("(func (export \"a\") (export \"a\"))", 0, "export name"),
    ("(func) (func nop drop nop)", 1, "body 1"),
    ("(func nop block end i32.const 0)", 0, "body 4"),
    ("(global i32 (i64.const 0))", 0, "initial value"),
    ("(memory 1) (data (i64.const 0) \"\")", 1, "offset"),
    (
        "(elem funcref (ref.null func) (ref.null extern))",
        0,
        "element 1",
    ),
    ("(table funcref (elem 0 1)) (func)", 0, "element 1"),
    // The reason that comes first if there are several.
    ("(memory 1) (memory 70000)", 1, "limits"),
    (
        "(func (export \"a\")) (export \"a\" (func 9))",
        1,
        "no function",
    ),
    (
        "(memory (export \"a\") 1) (memory (export \"a\") 1)",
        1,
        "second memory",
    ),
    (
        "(func (export \"a\")) (func (export \"a\") drop)",
        1,
        "export name",
    ),
    (
        "(table 1 externref) (elem (i64.const 0) funcref (i32.const 0))",
        1,
        "element type",
    ),
    (
        "(table 1 funcref) (elem (i64.const 0) funcref (i32.const 0))",
        1,
        "offset",
    ),
    ("(func drop) (memory 1) (memory 1)", 0, "body 0"),
];

/// Returns the reason for which a field is not valid, in words.
fn words(cause: Cause) -> String {
    let word = match cause {
        Cause::Header(Reason::Limits) => "limits",
        Cause::Header(Reason::UnknownType) => "no type",
        Cause::Header(Reason::UnknownItem(IndexSpace::Func)) => "no function",
        Cause::Header(Reason::UnknownItem(IndexSpace::Table)) => "no table",
        Cause::Header(Reason::UnknownItem(IndexSpace::Mem)) => "no memory",
        Cause::Header(Reason::UnknownItem(IndexSpace::Global)) => "no global",
        Cause::Header(Reason::StartType) => "start type",
        Cause::Header(Reason::ElementType) => "element type",
        Cause::Header(Reason::SecondMemory) => "second memory",
        Cause::Header(Reason::DuplicateExport) => "export name",
        Cause::Body(at) => return format!("body {at}"),
        Cause::InitialValue => "initial value",
        Cause::Offset => "offset",
        Cause::Element(at) => return format!("element {at}"),
    };
    word.to_owned()
}

/// Returns the first field that is not valid, and the reason in words.
fn first(found: Option<Invalid>) -> Option<(usize, String)> {
    found.map(|invalid| (invalid.field, words(invalid.cause)))
}

/// Calls a function with the fields of a text.
fn with_fields<T>(text: &str, call: impl FnOnce(&[Field<'_>]) -> T) -> T {
    let PackedTokens { tokens, kept } = pack_tokens(Global, text).unwrap().packed;
    let source = TokenStream::new(text, tokens, &kept);
    let fields = module(Global, source.cursor());
    call(&fields.unwrap_or_else(|_| panic!("{text}")))
}

#[test]
fn the_first_field_that_is_not_valid_has_its_reason() {
    for (text, field, reason) in INVALID {
        let found = with_fields(text, |fields| first(validate(Global, fields).unwrap()));
        assert_eq!(found, Some((*field, (*reason).to_owned())), "{text}");
    }
}

#[test]
fn a_type_of_a_function_can_be_unknown() {
    // The parser rejects such a text.
    let function = Function {
        name: Name::Absent,
        exports: Fields::new(Global),
        uses: TypeUse::Index(3),
        locals: Fields::new(Global),
        body: Fields::new(Global),
        local_names: Fields::new(Global),
        label_names: Fields::new(Global),
    };
    let found = first(validate(Global, &[Field::Func(function)]).unwrap());
    assert_eq!(found, Some((0, "no type".to_owned())));
}

#[test]
fn each_allocation_that_fails_is_an_error() {
    let valid = "(type (func (param i32))) (import \"m\" \"f\" (func (type 0))) (table 1 funcref) (memory 1) (global i32 (i32.const 0))
        (func (export \"a\") (local i32 i64 f32) (block (loop (if (local.get 0) (then (call 0 (i32.const 1))) (else))))) (export \"b\" (func 0))
        (elem (i32.const 0) func 0) (data (i32.const 0) \"\") (start 1)";
    for (text, wanted) in [
        (valid, None),
        ("(func (local i64) block drop end)", Some(1)),
    ] {
        with_fields(text, |fields| {
            let mut count = 0;
            loop {
                let (result, asked) = granting(count, || validate(Global, fields));
                if asked <= count {
                    let at = result.unwrap().map(|invalid| match invalid.cause {
                        Cause::Body(at) => at,
                        other => panic!("{}", words(other)),
                    });
                    assert_eq!(at, wanted, "{text}");
                    break;
                }
                assert!(matches!(result, Err(AllocError)), "{text}: {count}");
                count += 1;
            }
            assert!(count >= 3, "{text}: {count} allocations");
        });
    }
}

#[test]
fn locals_are_found_by_their_indices() {
    let types = [
        ValueType::I32,
        ValueType::I64,
        ValueType::Reference(ReferenceType::Func),
    ];
    for counts in [
        vec![],
        vec![0],
        vec![3],
        vec![0, 2, 0, 0, 1, 5, 0],
        vec![1; 50],
    ] {
        let runs: Vec<Locals> = (0..)
            .zip(&counts)
            .map(|(i, count)| Locals {
                count: *count,
                of: types[i % 3],
            })
            .collect();
        let all: Vec<ValueType> = runs
            .iter()
            .flat_map(|run| vec![run.of; run.count])
            .collect();
        let locals = LocalTypes::new(Global, &runs).unwrap();
        for index in 0..all.len() + 2 {
            assert!(locals.get(index) == all.get(index).copied(), "{counts:?}");
        }
        assert!(locals.get(usize::MAX).is_none());
    }
}

#[test]
fn locals_can_be_more_than_there_are_indices() {
    let run = |count, of| Locals { count, of };
    let runs = [
        run(usize::MAX, ValueType::I32),
        run(0, ValueType::F32),
        run(2, ValueType::I64),
        run(usize::MAX, ValueType::F64),
    ];
    let locals = LocalTypes::new(Global, &runs).unwrap();
    for (index, of) in [
        (0, ValueType::I32),
        (usize::MAX - 1, ValueType::I32),
        (usize::MAX, ValueType::I64),
    ] {
        assert!(locals.get(index) == Some(of), "{index}");
    }
}
