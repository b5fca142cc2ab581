//! Hovers: headers of definitions, and types of instructions.

use super::marked::{Marked, opened_as};
use super::{request, responses_when_initialized};
use serde_json::{Value, json};
use wat_language_server::LONGEST_ANALYZED;

/// Texts with the position of a request, the code of the hover, and the line after it.
const HOVERS: &[(&str, &str, &str)] = &[
    // Definitions.
    (
        "(func $add (param $a i32) (param $b i32)\n (result i32) (local i64) nop) (func (call ‸$add))",
        "(func $add (param $a i32) (param $b i32) (result i32))",
        "function 0",
    ),
    (
        "(func) (func ‸$f (export \"f\") i32.const 1)",
        "(func $f (export \"f\"))",
        "function 1",
    ),
    (
        "(func $f (type 0) (call ‸0))",
        "(func $f (type 0))",
        "function 0",
    ),
    (
        "(import \"a\" \"b\" (func $f (param i32))) (start ‸0)",
        "(import \"a\" \"b\" (func $f (param i32)))",
        "function 0",
    ),
    (
        "(func ‸$f (import \"a\" \"b\") (param i32))",
        "(func $f (import \"a\" \"b\") (param i32))",
        "function 0",
    ),
    (
        "(type ‸$t (func (param i32)))",
        "(type $t (func (param i32)))",
        "type 0",
    ),
    (
        "(global $g (mut i32) (i32.const 1)) (func (global.get ‸$g))",
        "(global $g (mut i32))",
        "global 0",
    ),
    (
        "(global ‸$g i32 i32.const 1)",
        "(global $g i32)",
        "global 0",
    ),
    (
        "(table ‸$t 1 2 funcref)",
        "(table $t 1 2 funcref)",
        "table 0",
    ),
    (
        "(table ‸$t funcref (elem 0 0))",
        "(table $t funcref)",
        "table 0",
    ),
    ("(memory ‸$m (data \"a\"))", "(memory $m)", "memory 0"),
    (
        "(memory 1) (data ‸$d (memory 0) (i32.const 0) \"a\")",
        "(data $d (memory 0))",
        "data segment 0",
    ),
    (
        "(data ‸$d \"a\" \"b\")",
        "(data $d \"a\" \"b\")",
        "data segment 0",
    ),
    (
        "(elem ‸$e (i32.const 0) $f)",
        "(elem $e)",
        "element segment 0",
    ),
    (
        "(elem ‸$e func 0 1)",
        "(elem $e func 0 1)",
        "element segment 0",
    ),
    ("(func (‸) (export))", "", ""),
    // Locals.
    (
        "(func (param i32) (param $x i64) (local.get ‸1))",
        "(param $x i64)",
        "parameter 1",
    ),
    (
        "(func (param i32 i64) (local.get ‸1))",
        "(param i32 i64)",
        "parameter 1",
    ),
    (
        "(func (param i32) (local $x f32) (local.get ‸$x))",
        "(local $x f32)",
        "local 1",
    ),
    // Labels.
    (
        "(func (block $l (result i32) (br 0 i32.const 1) (br ‸$l)))",
        "(block $l (result i32))",
        "label 0",
    ),
    (
        "(func block $l (result i32) i32.const 1 loop br ‸$l end end)",
        "block $l (result i32)",
        "label 1",
    ),
    ("(func loop ‸$l end)", "loop $l", "label"),
    ("(func block $l end ‸$l)", "block $l", "label 0"),
    (
        "(func (if $l (i32.const 0) (then) (else br ‸$l)))",
        "(if $l)",
        "label 0",
    ),
    ("(func block nop br ‸0 end)", "block", "label 0"),
    (
        "(func $f (param i32) (loop (br ‸1)))",
        "(func $f (param i32))",
        "label 1",
    ),
    // Instructions.
    (
        "(func (‸i32.add))",
        "i32.add : [i32 i32] -> [i32]",
        "opcode 0x6A",
    ),
    (
        "(func (i32.ad‸d))",
        "i32.add : [i32 i32] -> [i32]",
        "opcode 0x6A",
    ),
    (
        "(func i64.load8_s‸ )",
        "i64.load8_s : [i32] -> [i64]",
        "opcode 0x30",
    ),
    (
        "(func memory.f‸ill)",
        "memory.fill : [i32 i32 i32] -> []",
        "opcode 0xFC 0x0B",
    ),
    (
        "(func i32.trunc_sat_f32_s‸)",
        "i32.trunc_sat_f32_s : [f32] -> [i32]",
        "opcode 0xFC 0x00",
    ),
    ("(func block e‸nd)", "end", ""),
    (
        "(func f64x2.conve‸rt_low_i32x4_u)",
        "f64x2.convert_low_i32x4_u : [v128] -> [v128]",
        "opcode 0xFD 0xFF 0x01",
    ),
    (
        "(func i16x8.ab‸s)",
        "i16x8.abs : [v128] -> [v128]",
        "opcode 0xFD 0x80 0x01",
    ),
    (
        "(func v128.load64_ze‸ro)",
        "v128.load64_zero : [i32] -> [v128]",
        "opcode 0xFD 0x5D",
    ),
    ("(func lo‸op end)", "loop : [t1*] -> [t2*]", ""),
    // Texts with errors.
    (
        "(func $f (param i32) (call ‸$f",
        "(func $f (param i32))",
        "function 0",
    ),
    ("(func ‸$f (param i32", "(func $f (param i32", "function 0"),
    (
        "(func (param $x block $l br ‸$l end))",
        "block $l",
        "label 0",
    ),
];

#[test]
fn hovers_have_headers_types_and_indices() {
    for (text, code, line) in HOVERS {
        let found = Marked::new(text).result("hover", &Value::Null);
        let wanted = match *line {
            "" => format!("```wat\n{code}\n```"),
            line => format!("```wat\n{code}\n```\n{line}"),
        };
        let contents = &found["contents"];
        if code.is_empty() {
            assert_eq!(found, Value::Null, "{text}");
            continue;
        }
        let value = contents["value"].as_str().unwrap();
        assert_eq!(value.split("\n\n").next(), Some(&*wanted), "{text}");
        assert_eq!(contents["kind"], "markdown");
    }
}

/// Texts with the position of a request at an instruction, and the description of its operands, which is empty if there is none.
const OPERANDS: &[(&str, &str)] = &[
    // Operands below those that the instruction takes.
    (
        "(func (result i64) i64.const 1 i32.const 2 i32.const 3 ‸i32.add drop)",
        "operands `[i64 i32 i32]`, here `[i32 i32] -> [i32]`",
    ),
    (
        "(func (param i32) ‸local.get 0 drop)",
        "operands `[]`, here `[] -> [i32]`",
    ),
    (
        "(func (local f64) f64.const 1 local.tee‸ 0 drop)",
        "operands `[f64]`, here `[f64] -> [f64]`",
    ),
    (
        "(func i32.const 0 ref.null func dr‸op drop)",
        "operands `[i32 funcref]`, here `[funcref] -> []`",
    ),
    (
        "(func (param v128 externref) (v128.const i64x2 0 0) (local.get 1) ‸nop drop drop)",
        "operands `[v128 externref]`, here `[] -> []`",
    ),
    (
        "(func f32.const 1 f32.const 2 i32.const 0 select‸ drop)",
        "operands `[f32 f32 i32]`, here `[f32 f32 i32] -> [f32]`",
    ),
    // Items of the module.
    (
        "(func $f (param i32 i64) (result f32 f64) unreachable) (func (ca‸ll $f (i32.const 0) (i64.const 0)) drop drop)",
        "operands `[i32 i64]`, here `[i32 i64] -> [f32 f64]`",
    ),
    (
        "(import \"a\" \"b\" (global i64)) (global $g (mut f32) (f32.const 0)) (func (global.set‸ $g (f32.const 1)))",
        "operands `[f32]`, here `[f32] -> []`",
    ),
    (
        "(table 1 funcref) (type $t (func (param i64))) (func i64.const 1 i32.const 0 ‸call_indirect (type $t))",
        "operands `[i64 i32]`, here `[i64 i32] -> []`",
    ),
    (
        "(memory 1) (func i32.const 0 i64.lo‸ad drop)",
        "operands `[i32]`, here `[i32] -> [i64]`",
    ),
    // Folded instructions have their operands before them.
    (
        "(func (drop (i32.add (i32.const 1) (i32.mul (i32.const 2) (‸i32.const 3)))))",
        "operands `[i32 i32]`, here `[] -> [i32]`",
    ),
    (
        "(func (drop (i32.add (i32.const 1) (‸i32.mul (i32.const 2) (i32.const 3)))))",
        "operands `[i32 i32 i32]`, here `[i32 i32] -> [i32]`",
    ),
    (
        "(func (drop (‸i32.add (i32.const 1) (i32.mul (i32.const 2) (i32.const 3)))))",
        "operands `[i32 i32]`, here `[i32 i32] -> [i32]`",
    ),
    (
        "(func (‸drop (i32.add (i32.const 1) (i32.mul (i32.const 2) (i32.const 3)))))",
        "operands `[i32]`, here `[i32] -> []`",
    ),
    (
        "(func (‸drop (block (result i32) (i32.const 1))))",
        "operands `[i32]`, here `[i32] -> []`",
    ),
    (
        "(func (drop (i32.const 0) (i32.eqz (i32.const 1)) (d‸rop)) (drop))",
        "operands `[i32 i32]`, here `[i32] -> []`",
    ),
    // Blocks. Their operands begin with their parameters.
    (
        "(func i64.const 1 (‸block (param i64) (result f32) drop f32.const 0) drop)",
        "operands `[i64]`, here `[i64] -> [f32]`",
    ),
    (
        "(func i64.const 1 i32.const 0 (block (param i32) drop ‸nop) drop)",
        "operands `[]`, here `[] -> []`",
    ),
    (
        "(func i64.const 1 loop (param i64) ‸drop end)",
        "operands `[i64]`, here `[i64] -> []`",
    ),
    (
        "(func i64.const 1 i32.const 0 ‸if (param i64) (result i64) else end drop)",
        "operands `[i64 i32]`, here `[i64 i32] -> [i64]`",
    ),
    (
        "(func i32.const 0 if (result f32) f32.const 1 ‸else f32.const 2 end drop)",
        "operands `[f32]`, here `[f32] -> []`",
    ),
    (
        "(func i64.const 0 i32.const 0 if (param i64) (result f32) drop f32.const 1 else drop f32.const 2 en‸d drop)",
        "operands `[f32]`, here `[f32] -> [f32]`",
    ),
    (
        "(func (‸if (result i32) (i32.eqz (if (result i32) (i32.const 1) (then i32.const 2) (else i32.const 3))) (then i32.const 4) (else i32.const 5)) drop)",
        "operands `[i32]`, here `[i32] -> [i32]`",
    ),
    (
        "(func (if (result i32) (i32.eqz (‸if $l (result i32) (i32.const 1) (then i32.const 2) (else i32.const 3))) (then i32.const 4) (else i32.const 5)) drop)",
        "operands `[i32]`, here `[i32] -> [i32]`",
    ),
    (
        "(func (if (result i32) (i32.const 1) (then i32.const 2) (‸else i32.const 3)) drop)",
        "operands `[i32]`, here `[i32] -> []`",
    ),
    (
        "(func (if (i32.const 1) (then (‸nop)) (else nop)) nop)",
        "operands `[]`, here `[] -> []`",
    ),
    (
        "(func (if (i32.const 1) (then nop) (else i64.const 3 (‸drop))) nop)",
        "operands `[i64]`, here `[i64] -> []`",
    ),
    (
        "(func (block (loop (drop (i32.const 1)))) i32.const 0 (‸drop))",
        "operands `[i32]`, here `[i32] -> []`",
    ),
    // Code that cannot be reached.
    (
        "(func (result i32) block (result i32) i32.const 1 ‸br 0 end)",
        "operands `[i32]`, here `[i32] -> [..]`",
    ),
    (
        "(func (result i32) unreachable ‸i32.add)",
        "operands `[..]`, unreachable",
    ),
    (
        "(func (result i32) unreachable i64.const 0 ‸i64.eqz)",
        "operands `[.. i64]`, unreachable",
    ),
    (
        "(func (result i32) unreachable i64.const 0 ‸i32.eqz)",
        "operands `[.. i64]`, unreachable, not valid here",
    ),
    (
        "(func return select dr‸op)",
        "operands `[.. any]`, unreachable",
    ),
    (
        "(func unreachable block ‸end)",
        "operands `[]`, here `[] -> []`",
    ),
    (
        "(func block unreachable ‸end)",
        "operands `[..]`, unreachable",
    ),
    // Modules that are not valid, up to the first instruction that is not.
    (
        "(func i64.const 1 ‸i32.eqz drop)",
        "operands `[i64]`, not valid here",
    ),
    ("(func ‸i32.add drop)", "operands `[]`, not valid here"),
    ("(func ‸br 1)", "operands `[]`, not valid here"),
    (
        "(func ‸block (result i32) end)",
        "operands `[]`, here `[] -> [i32]`",
    ),
    (
        "(func block (result i32) ‸end)",
        "operands `[]`, not valid here",
    ),
    ("(func ‸if end)", "operands `[]`, not valid here"),
    (
        "(func ‸block (param i32) end)",
        "operands `[]`, not valid here",
    ),
    ("(func i32.add ‸drop)", ""),
    ("(func (type 1) ‸nop)", ""),
    (
        "(start 1) (func $f (i32.add)) (func i32.const 1 ‸drop)",
        "operands `[i32]`, here `[i32] -> []`",
    ),
    // The field and the offset of the instruction.
    (
        "(module $m (@a nop) (func nop) (memory 1) (func i32.const 0 ;; nop\n (‸i32.load offset=4)))",
        "operands `[i32]`, here `[i32] -> [i32]`",
    ),
    (
        "(func) (func (‸nop)) (func)",
        "operands `[]`, here `[] -> []`",
    ),
    // Instructions outside of the bodies of functions.
    ("(global i32 (i32.co‸nst 1))", ""),
    ("(elem (offset ref.fu‸nc 0) 0) (func)", ""),
    ("(func) (data (i32.co‸nst 1) \"a\")", ""),
    // Texts that are not modules, or have lexical errors.
    ("(func (local.get 0) ‸drop) (func frob)", ""),
    ("(func i32.const 0 ‸drop", ""),
    ("(func i32.const 0 ‸drop) (; \u{202e} ;)", ""),
    ("(func i32.const 0 ‸drop) \"\\u{1__0}\"", ""),
    ("(func i32.const 0 ‸drop) é", ""),
];

#[test]
fn instructions_have_operands() {
    for (text, wanted) in OPERANDS {
        let found = Marked::new(text).result("hover", &Value::Null);
        let value = found["contents"]["value"].as_str().unwrap();
        let operands = value.split_once("\n\n").map_or("", |(_, it)| it);
        assert_eq!(operands, *wanted, "{text}");
    }
}

#[test]
fn a_script_and_a_longer_text_have_no_operands() {
    let text = "(func nop)";
    let longer = |surplus| " ".repeat(LONGEST_ANALYZED + surplus - text.len());
    for (language, more, has_operands) in [
        ("wat", String::new(), true),
        ("wast", String::new(), false),
        ("wat", longer(0), true),
        ("wat", longer(1), false),
    ] {
        let sent = opened_as("u", language, &(text.to_owned() + &more));
        let position = json!({ "line": 0, "character": 6 });
        let params = json!({ "textDocument": { "uri": "u" }, "position": position });
        let asked = request("1", "textDocument/hover", &params);
        let bodies = responses_when_initialized((sent + &asked).as_bytes());
        let value = bodies[1]["result"]["contents"]["value"].as_str().unwrap();
        assert!(value.starts_with("```wat\nnop : [] -> []\n```\nopcode 0x01"));
        assert_eq!(value.contains("operands `[]`"), has_operands, "{language}");
    }
}

#[test]
fn many_operands_are_cut() {
    for (count, more) in [(100, ""), (101, "(1 more) "), (1100, "(1000 more) ")] {
        let text = format!("(func {} ‸nop)", "i32.const 0 ".repeat(count));
        let found = Marked::new(&text).result("hover", &Value::Null);
        let listed = vec!["i32"; 100].join(" ");
        let wanted = format!("\n\noperands `[{more}{listed}]`, here `[] -> []`");
        let value = found["contents"]["value"].as_str().unwrap();
        assert!(value.ends_with(&wanted), "{value}");
    }
}

/// A valid function with a mark before each keyword of an instruction.
const FUNCTION: &str = "(func (‸loop ‸nop ‸nop (‸nop) (‸if (‸i32.eqz (‸i32.const 0)) (then ‸nop ‸nop) (‸else ‸nop ‸nop ‸nop ‸nop ‸nop
    (‸loop $l ‸nop ‸nop ‸nop ‸nop ‸nop))) ‸nop) ‸block ‸nop ‸end ‸i32.const 0 ‸if ‸nop ‸else ‸nop ‸nop ‸end
    (‸drop (‸i32.add (‸block (result i32) ‸nop ‸i32.const 0) (‸i32.mul (‸i32.const 1) (‸i32.const 2)))))";

#[test]
fn each_instruction_of_a_function_has_operands() {
    let parts: Vec<_> = FUNCTION.split('‸').collect();
    for at in 1..parts.len() {
        let text = parts[..at].concat() + "‸" + &parts[at..].concat();
        let found = Marked::new(&text).result("hover", &Value::Null);
        let value = found["contents"]["value"].as_str().unwrap();
        assert!(
            value.contains("\n\noperands `[") && value.contains("`, here `["),
            "{text}"
        );
    }
}

#[test]
fn a_long_header_is_cut() {
    let longest = 1000;
    let cases = [
        (
            format!("(func ‸$f {})", "(param i32) ".repeat(1000)),
            "(param i32) (param ..",
        ),
        (
            format!("(func ‸$f (param {}))", "i32 ".repeat(1000)),
            "i32 i32 ..",
        ),
        (
            format!("(data ‸$d \"{}\")", "a".repeat(longest)),
            "(data $d ..",
        ),
        (
            format!("(func (param ‸${} i32))", "x".repeat(longest)),
            "(param ..",
        ),
    ];
    for (text, end) in cases {
        let found = Marked::new(&text).result("hover", &Value::Null);
        let value = found["contents"]["value"].as_str().unwrap();
        let code = value
            .strip_prefix("```wat\n")
            .unwrap()
            .split('\n')
            .next()
            .unwrap();
        assert!(code.ends_with(end) && code.len() <= longest + 3, "{code}");
    }
    // The longest header, and a longer one.
    let longer = "x".repeat(longest + 1 - "(func $)".len());
    let found = Marked::new(&format!("(func ‸${longer} nop)")).result("hover", &Value::Null);
    assert_eq!(
        found["contents"]["value"],
        "```wat\n(func ..\n```\nfunction 0"
    );
    let name = "x".repeat(longest - "(func $)".len());
    let found = Marked::new(&format!("(func ‸${name})")).result("hover", &Value::Null);
    let wanted = format!("```wat\n(func ${name})\n```\nfunction 0");
    assert_eq!(found["contents"]["value"], wanted);
}

#[test]
fn other_tokens_have_no_hover() {
    let texts = [
        "‸",
        "(‸)",
        "(mo‸dule)",
        "(func (call ‸$f))",
        "(func (i32.const ‸0))",
        ";; i32.a‸dd",
        "\"i32‸.add\"",
        "(func (br ‸1))",
        "(func block $l end ‸$m)",
        "(func $f) ‸ (func)",
        "(then‸)",
        "(func frob‸)",
        "(@i32.add‸)",
        "(param ‸$x)",
        "(export \"a‸\")",
    ];
    for text in texts {
        let found = Marked::new(text).result("hover", &Value::Null);
        assert_eq!(found, Value::Null, "{text}");
    }
}
