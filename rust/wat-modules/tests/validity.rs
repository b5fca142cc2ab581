//! Which modules are valid, and the errors of those that are not: texts, each with its message and offset. The verdicts are those of WebAssembly 2.0,
//! chapter 3.

use wat_modules::{Parser, parse_str, parse_valid_str, validate};

/// Texts of modules that are valid.
const VALID: &[&str] = &[
    "",
    "(module)",
    "(func)",
    "(func (result i32) i32.const 1)",
    "(func (param i32 i64) (result i64) local.get 1)",
    "(func (result i32) unreachable)",
    "(func (result i32) unreachable i32.add)",
    "(func (result i32) (br 0 (i32.const 1)) (drop))",
    "(func (result i32) (block (result i32) (br_if 0 (i32.const 1) (i32.const 2))))",
    "(func (param i32) (result i32) (if (result i32) (local.get 0) (then (i32.const 1)) (else (i32.const 2))))",
    "(func (loop (param) (br 0)))",
    "(func (param i32) (block (block (br_table 0 1 (local.get 0)))))",
    "(func unreachable select ref.is_null drop)",
    "(func (result funcref) (select (result funcref) (ref.null func) (ref.null func) (i32.const 0)))",
    "(memory 65536 65536) (func (drop (i64.load align=8 (i32.const 0))))",
    "(table 1 externref) (table 1 funcref) (func (param i32) (call_indirect 1 (local.get 0)))",
    "(table 0 4294967295 funcref)",
    "(import \"m\" \"g\" (global i32)) (global i32 (global.get 0)) (data (offset (global.get 0)) \"\") (memory 1)",
    "(global (mut i64) (i64.const 0)) (func (global.set 0 (global.get 0)))",
    "(func $f) (elem declare func $f) (func (drop (ref.func $f)))",
    "(func $f (export \"a\")) (func (export \"b\") (drop (ref.func $f)))",
    "(func (drop (i8x16.extract_lane_s 15 (v128.const i32x4 0 0 0 0))))",
    "(data \"\") (memory 1) (func (memory.init 0 (i32.const 0) (i32.const 0) (i32.const 0)) (data.drop 0))",
    "(elem funcref (ref.null func)) (table 1 funcref) (func (table.init 0 (i32.const 0) (i32.const 0) (i32.const 0)))",
    "(start 0) (func)",
];

/// Texts of modules that are not valid, each with its message. `^` is before the token at which the error is.
const INVALID: &[(&str, &str)] = &[
    // At the keyword of a segment whose offset has no instruction.
    (
        "(table 1 funcref) (func) (^elem (offset) funcref (ref.func 0))",
        "offset is not a constant expression of type `i32`",
    ),
    // At an instruction.
    (
        "(^func i32.const 1)",
        "type mismatch at the end of function 0: expected [], found [i32]",
    ),
    (
        "(^func (result i32))",
        "type mismatch at the end of function 0: expected [i32], found []",
    ),
    (
        "(^func (result i32) i64.const 1)",
        "type mismatch at the end of function 0: expected [i32], found [i64]",
    ),
    (
        "(func ^drop)",
        "type mismatch: expected an operand, found []",
    ),
    (
        "(func (drop (^i32.add (i32.const 0) (i64.const 0))))",
        "type mismatch: expected [i32 i32], found [i32 i64]",
    ),
    (
        "(import \"m\" \"f\" (func)) (func) (func nop ^drop)",
        "type mismatch: expected an operand, found []",
    ),
    (
        "(func (block (result i32) (nop)^) drop)",
        "type mismatch: expected [i32], found []",
    ),
    (
        "(func (result i32) (^br 0))",
        "type mismatch: expected [i32], found []",
    ),
    ("(func (^br 1) (br 2))", "unknown label `1`"),
    (
        "(func (if (result i32) (i32.const 0) (then (i32.const 0))^) drop)",
        "`if` without `else` must have equal parameters and results, found [] and [i32]",
    ),
    ("(func (^local.get 0) drop)", "unknown local `0`"),
    (
        "(func (param i32) (result i32) unreachable (i64.const 0) ^i32.add)",
        "type mismatch: expected [i32 i32], found [... i64]",
    ),
    (
        "(global i32 (i32.const 0)) (func (^global.set 0 (i32.const 1)))",
        "global `0` is immutable",
    ),
    (
        "(func (drop (^i32.load (i32.const 0))))",
        "unknown memory `0`",
    ),
    (
        "(memory 1) (func (drop (^i32.load align=8 (i32.const 0))))",
        "alignment must not be larger than natural",
    ),
    (
        "(table 1 externref) (func (^call_indirect (i32.const 0)))",
        "elements of table `0` are not functions",
    ),
    (
        "(func $f) (func (drop (^ref.func $f)))",
        "undeclared function reference `0`",
    ),
    (
        "(func (drop (^i8x16.extract_lane_s 16 (v128.const i32x4 0 0 0 0))))",
        "lane index out of range",
    ),
    (
        "(func (^select (ref.null func) (ref.null func) (i32.const 0)) drop)",
        "type mismatch: expected [t t i32] with a number or vector type t, found [funcref funcref i32]",
    ),
    // Operands that do not match.
    (
        "(func (drop (i64.const 0)) ^i32.eqz drop)",
        "type mismatch: expected [i32], found []",
    ),
    (
        "(func (i64.const 0) (f32.const 0) ^i64.eqz drop)",
        "type mismatch: expected [i64], found [... f32]",
    ),
    (
        "(func (i64.const 0) (block ^drop))",
        "type mismatch: expected an operand, found []",
    ),
    (
        "(func (block (result i32) (i32.const 0) (i64.const 0)^) drop)",
        "type mismatch: expected [i32], found [i32 i64]",
    ),
    (
        "(func (param i32) local.get 0 if (result i32) ^else i32.const 0 end drop)",
        "type mismatch: expected [i32], found []",
    ),
    (
        "(func (i64.const 0) ^if end)",
        "type mismatch: expected [i32], found [i64]",
    ),
    (
        "(func (i32.const 0) ^ref.is_null drop)",
        "type mismatch: expected a reference, found [i32]",
    ),
    (
        "(func unreachable (i32.const 0) select (f32.const 0) ^i32.add drop)",
        "type mismatch: expected [i32 i32], found [... any f32]",
    ),
    (
        "(^func (param externref) (result f64) unreachable local.get 0)",
        "type mismatch at the end of function 0: expected [f64], found [... externref]",
    ),
    // `br_table`.
    (
        "(func (block (result i32) (^br_table 0 1 (i32.const 0) (i32.const 0))) drop)",
        "labels of `br_table` have different numbers of types",
    ),
    (
        "(func (result i64) (block (result i32) (^br_table 0 1 0 (i32.const 0) (i32.const 0))) drop i64.const 0)",
        "type mismatch: expected [i64 i32], found [i32 i32] for label 1",
    ),
    (
        "(func (block (^br_table 0 1 0 (i64.const 0))))",
        "type mismatch: expected [i32], found [i64] for label 0",
    ),
    (
        "(func (result i64) (block (result i32) (^br_table 0 0 1 (i32.const 0) (i32.const 0))) drop i64.const 0)",
        "type mismatch: expected [i64 i32], found [i32 i32] for label 1",
    ),
    (
        "(func (^br_table 0 3 4 (i32.const 0)))",
        "unknown label `3`",
    ),
    (
        "(func (^br_table 0 0 4 (i32.const 0)))",
        "unknown label `4`",
    ),
    // An instruction that has no type, whatever the operands are.
    ("(func (^br_if 1 (i32.const 0)))", "unknown label `1`"),
    ("(func ^call 9)", "unknown function `9`"),
    ("(func ^ref.func 9 drop)", "unknown function `9`"),
    ("(func ^local.set 7)", "unknown local `7`"),
    (
        "(func (param i32 i32) (local i32 f32) ^local.tee 4)",
        "unknown local `4`",
    ),
    ("(func ^global.get 3)", "unknown global `3`"),
    ("(func ^global.set 3)", "unknown global `3`"),
    ("(func ^table.get 0)", "unknown table `0`"),
    ("(func ^table.size 2)", "unknown table `2`"),
    ("(func ^call_indirect)", "unknown table `0`"),
    (
        "(table 1 funcref) (func ^table.init 0 1)",
        "unknown element segment `1`",
    ),
    ("(elem func) (func ^table.init 1 0)", "unknown table `1`"),
    ("(func ^elem.drop 1)", "unknown element segment `1`"),
    (
        "(table 1 funcref) (elem externref) (func ^table.init 0 0)",
        "types of elements differ",
    ),
    (
        "(table 1 funcref) (table 1 externref) (func ^table.copy 0 1)",
        "types of elements differ",
    ),
    (
        "(table 1 funcref) (func ^table.copy 0 1)",
        "unknown table `1`",
    ),
    ("(func ^table.copy 1 2)", "unknown table `1`"),
    ("(func ^memory.size drop)", "unknown memory `0`"),
    ("(func ^memory.copy)", "unknown memory `0`"),
    ("(func ^memory.init 1)", "unknown memory `0`"),
    (
        "(memory 1) (func ^memory.init 1)",
        "unknown data segment `1`",
    ),
    ("(func ^data.drop 1)", "unknown data segment `1`"),
    (
        "(func ^select (result i32 i32))",
        "`select` must list one type",
    ),
    (
        "(memory 1) (func ^v128.load8_lane 16)",
        "alignment larger than natural, or lane index out of range",
    ),
    (
        "(func (drop (^i8x16.shuffle 0 1 2 3 4 5 6 7 8 9 10 11 12 13 14 32)))",
        "lane index out of range",
    ),
    // At a constant expression.
    (
        "(global i32 ^i64.const 0)",
        "initial value is not a constant expression of type `i32`",
    ),
    (
        "(^global i32)",
        "initial value is not a constant expression of type `i32`",
    ),
    (
        "(global i32 (i32.const 0)) (global i32 (^global.get 0))",
        "initial value is not a constant expression of type `i32`",
    ),
    (
        "(memory 1) (data (^i64.const 0) \"\")",
        "offset is not a constant expression of type `i32`",
    ),
    (
        "(table 1 funcref) (elem (^i64.const 0) func)",
        "offset is not a constant expression of type `i32`",
    ),
    (
        "(^elem funcref (ref.null func) (ref.null extern))",
        "element 1 is not a constant expression of type `funcref`",
    ),
    // At the keyword of a field.
    (
        "(^memory 2 1)",
        "size out of range, or minimum above maximum",
    ),
    (
        "(^memory 65537)",
        "size out of range, or minimum above maximum",
    ),
    (
        "(^table 2 1 funcref)",
        "size out of range, or minimum above maximum",
    ),
    (
        "(^import \"m\" \"m\" (memory 0 65537))",
        "size out of range, or minimum above maximum",
    ),
    ("(memory 1) (^memory 1)", "more than one memory"),
    (
        "(func (export \"a\")) (^func (export \"a\"))",
        "duplicate export name",
    ),
    (
        "(^func (export \"a\") (export \"a\"))",
        "duplicate export name",
    ),
    ("(^start 1) (func)", "unknown function `1`"),
    (
        "(func (result i32) (i32.const 0)) (^start 0)",
        "start function with parameters or results",
    ),
    ("(^export \"a\" (table 0))", "unknown table `0`"),
    ("(^export \"a\" (memory 0))", "unknown memory `0`"),
    ("(^export \"a\" (global 3))", "unknown global `3`"),
    ("(^data (i32.const 0) \"\")", "unknown memory `0`"),
    ("(^elem (i32.const 0) func)", "unknown table `0`"),
    (
        "(table 1 externref) (^elem (i32.const 0) func)",
        "type of elements differs from that of table `0`",
    ),
    // The first field that is not valid is reported.
    (
        "(func ^drop) (memory 2 1)",
        "type mismatch: expected an operand, found []",
    ),
    (
        "(^memory 2 1) (func drop)",
        "size out of range, or minimum above maximum",
    ),
];

#[test]
fn valid_modules_are_compiled() {
    for text in VALID {
        assert!(validate(text).is_ok(), "{text}");
        assert_eq!(
            parse_valid_str(text).unwrap(),
            parse_str(text).unwrap(),
            "{text}"
        );
        let mut parser = Parser::new();
        parser.names(false);
        let without = parser.compile(text).unwrap();
        assert_eq!(
            parser.validate(true).compile(text).unwrap(),
            without,
            "{text}"
        );
    }
}

#[test]
fn other_modules_have_errors() {
    for (marked, message) in INVALID {
        let (text, offset) = (marked.replace('^', ""), marked.find('^').unwrap());
        assert!(parse_str(&text).is_ok(), "{text}");
        for names in [true, false] {
            let error = Parser::new()
                .names(names)
                .validate(true)
                .compile(&text)
                .unwrap_err();
            assert_eq!(
                (error.message().as_str(), error.span().offset()),
                (*message, offset),
                "{text}"
            );
        }
        let error = validate(&text).unwrap_err();
        assert_eq!(error.message(), *message, "{text}");
    }
}

#[test]
fn texts_that_are_no_modules_have_the_errors_of_parse_str() {
    for text in [
        "(module",
        "(func frob)",
        "(func i32.const x)",
        "(; open",
        "(func $f) (func $f)",
        "(func (type 3))",
    ] {
        let (ours, theirs) = (
            parse_valid_str(text).unwrap_err(),
            parse_str(text).unwrap_err(),
        );
        assert_eq!(
            (ours.message(), ours.span().offset()),
            (theirs.message(), theirs.span().offset()),
            "{text}"
        );
        assert!(validate(text).is_err(), "{text}");
    }
}

#[test]
fn an_error_of_validation_precedes_those_of_annotations() {
    let text = "(func drop) (@custom)";
    assert_eq!(
        parse_str(text).unwrap_err().message(),
        parse_valid_str("(func) (@custom)").unwrap_err().message()
    );
    assert_eq!(
        parse_valid_str(text).unwrap_err().message(),
        "type mismatch: expected an operand, found []"
    );
    assert!(validate("(func) (@custom)").is_ok());
}

#[test]
fn deep_modules_are_validated() {
    let depth = 100_000;
    let text = format!("(func {} {})", "block ".repeat(depth), "end ".repeat(depth));
    assert!(validate(&text).is_ok());
    let text = format!(
        "(func {} drop {})",
        "loop ".repeat(depth),
        "end ".repeat(depth)
    );
    let error = validate(&text).unwrap_err();
    assert_eq!(
        error.message(),
        "type mismatch: expected an operand, found []"
    );
    assert_eq!(error.span().offset(), 6 + 5 * depth + 1);
}

#[test]
fn options_are_independent_of_their_order() {
    let text = "(module $m (func drop))";
    assert!(
        Parser::new()
            .validate(true)
            .validate(false)
            .compile(text)
            .is_ok()
    );
    assert!(Parser::default().compile(text).is_ok());
    assert!(
        Parser::new()
            .validate(true)
            .names(false)
            .compile(text)
            .is_err()
    );
    assert_eq!(
        Parser::new().validate(true).compile("(module $m)").unwrap(),
        parse_str("(module $m)").unwrap()
    );
}

#[test]
fn lists_have_the_last_32_types() {
    let (params, listed) = (" i64".repeat(31), "i64 ".repeat(31));
    let call = format!("(func (param i32{params} v128)) (func (f32.const 0) call 0)");
    assert_eq!(
        validate(&call).unwrap_err().message(),
        format!("type mismatch: expected [... {listed}v128], found [f32]")
    );
    let rest = "i64.const 1 ".repeat(31);
    let end = format!("(func i32.const 0 {rest}f64.const 8)");
    assert_eq!(
        validate(&end).unwrap_err().message(),
        format!("type mismatch at the end of function 0: expected [], found [... {listed}f64]")
    );
    let shorter = format!("(func {rest}f64.const 8)");
    assert_eq!(
        validate(&shorter).unwrap_err().message(),
        format!("type mismatch at the end of function 0: expected [], found [{listed}f64]")
    );
}
