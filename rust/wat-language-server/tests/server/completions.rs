//! Completions.

use super::marked::{Marked, ranges_of};
use serde_json::{Value, json};

/// Texts with the position of a request, and the labels of the completions. `«` and `»` mark the replaced range.
const COMPLETIONS: &[(&str, &str)] = &[
    // Identifiers.
    ("(func $f) (func $g) (func (call «‸»))", "$f $g"),
    ("(func $f) (func $g) (func (call «$‸»))", "$f $g"),
    ("(func $foo) (func $bar) (func (call «$f‸»oo))", "$foo"),
    ("(func $f) (func) (func (call «$x‸»))", ""),
    ("(func $f) (func (call $f «$‸»))", ""),
    ("(func $f) (func (ref.func «$‸»))", "$f"),
    (
        "(func $f (param $x i32) (local $y i32) local.get «$‸»)",
        "$x $y",
    ),
    (
        "(func (param $x i32) (local.set «$‸» (local $y i32)))",
        "$x",
    ),
    ("(func $f (param $x i32)) (func (local.tee «‸»))", ""),
    ("(func (block $a loop $b (br «$‸») end))", "$b $a"),
    ("(func (block $a) (loop $b (br_table 0 «$‸»)))", "$b"),
    ("(func (block $a (loop $a (br «$‸»))))", "$a"),
    ("(func (if $l (br «$‸») (then)))", ""),
    ("(func (if $l (br 0) (then (br «$‸»))))", "$l"),
    ("(func block $a end br «$‸»)", ""),
    ("(func (block $a br «‸»", "$a"),
    ("(func block $a br «‸»\n(func $b)", "$a"),
    ("(func block $a (br_if 0 «nop‸»)", ""),
    ("(global $g i32 (i32.const 0)) (func (global.get «$‸»", "$g"),
    ("(global $g i32 (global.get «$‸»", "$g"),
    ("(type $t (func)) (func (type «$‸»", "$t"),
    (
        "(type $t (func)) (table $u 1 funcref) (func (call_indirect «$‸»",
        "$u",
    ),
    (
        "(type $t (func)) (table $u 1 funcref) (func (call_indirect (type «$‸»",
        "$t",
    ),
    (
        "(table $t 1 funcref) (elem $e func) (func (table.init «$‸»",
        "$e $t",
    ),
    (
        "(table $t 1 funcref) (elem $e func) (func (table.init $t «$‸»",
        "$e",
    ),
    ("(table $t 1 funcref) (func (table.copy $t «$‸»))", "$t"),
    ("(elem $e func) (func (elem.drop «$‸»))", "$e"),
    ("(data $d \"\") (func (memory.init «$‸»))", "$d"),
    ("(memory $m 1) (export \"m\" (memory «$‸»))", "$m"),
    ("(memory $m 1) (data (memory «$‸»))", "$m"),
    ("(func $f) (start «$‸»)", "$f"),
    ("(module (func $f) (export \"f\" (func «$‸»)))", "$f"),
    ("(func $f) (elem func «$‸»)", "$f"),
    ("(func $f) (elem (i32.const 0) «$‸»)", "$f"),
    ("(func $\"a b\") (func (call «$‸»))", "$\"a b\""),
    ("(module (func $f)) (module (func $g) (start «$‸»))", "$g"),
    // Fields.
    (
        "(«‸»",
        "type import func table memory global export start elem data module",
    ),
    (
        "(module («‸»",
        "type import func table memory global export start elem data",
    ),
    ("(module («m‸»)", "memory"),
    ("(«mo‸»", "module"),
    (
        "(module (func) («‸» (func))",
        "type import func table memory global export start elem data",
    ),
    // Parts of fields.
    ("(import \"a\" \"b\" («‸»))", "func table memory global"),
    ("(export \"a\" («m‸»))", "memory"),
    ("(type («‸»))", "func"),
    ("(type (func («‸»)))", "type param result"),
    ("(func (param $x «i‸»))", "i32 i64"),
    (
        "(func (result «‸»))",
        "i32 i64 f32 f64 v128 funcref externref",
    ),
    ("(func (local $x i32 «f‸»))", "f32 f64 funcref"),
    ("(global $g «i‸»", "i32 i64"),
    ("(global $g (mut «v‸»", "v128"),
    (
        "(global («‸»",
        "mut export import i32.const i64.const f32.const f64.const v128.const ref.null ref.func global.get",
    ),
    ("(import \"a\" \"b\" (global «i‸»))", "i32 i64"),
    ("(table 1 «‸»)", "funcref externref"),
    ("(import \"a\" \"b\" (table 1 «‸»))", "funcref externref"),
    ("(table funcref («‸»", "elem export import"),
    (
        "(table funcref (elem «‸»))",
        "func declare funcref externref",
    ),
    ("(memory («‸»", "data export import"),
    ("(elem «‸»)", "func declare funcref externref"),
    ("(elem (i32.const 0) «f‸»)", "func funcref"),
    (
        "(elem («‸»)",
        "table offset item i32.const i64.const f32.const f64.const v128.const ref.null ref.func global.get",
    ),
    (
        "(data («‸»)",
        "memory offset i32.const i64.const f32.const f64.const v128.const ref.null ref.func global.get",
    ),
    (
        "(data (offset («‸»)",
        "i32.const i64.const f32.const f64.const v128.const ref.null ref.func global.get",
    ),
    ("(data (offset «i‸»)", "i32.const i64.const"),
    ("(elem funcref (item («ref‸»)", "ref.null ref.func"),
    ("(elem funcref (item «ref‸»)", "ref.null ref.func"),
    ("(global $g i32 («gl‸»", "global.get"),
    // Instructions.
    (
        "(func («memory.‸»",
        "memory.size memory.grow memory.init memory.copy memory.fill",
    ),
    ("(func «memory.s‸»", "memory.size"),
    ("(func (block «el‸»", "elem.drop else"),
    ("(func (i32.add («i32.rot‸»", "i32.rotl i32.rotr"),
    ("(func (i32.add «i32.rot‸»", ""),
    ("(func call 0 «unr‸»", "unreachable"),
    ("(func («p‸»", "param"),
    ("(func («typ‸»", "type"),
    ("(func («exp‸»", "export"),
    ("(func («imp‸»", "import"),
    ("(func («resu‸»", "result"),
    ("(func («loca‸»", "local local.get local.set local.tee"),
    ("(func (block («ty‸»", "type"),
    ("(func (loop («resu‸»", "result"),
    ("(func (if («ty‸»", "type"),
    ("(func (if («par‸»", "param"),
    ("(func (if («resu‸»", "result"),
    ("(func (if («the‸»", "then"),
    ("(func (if («els‸»", "else"),
    ("(func (block nop «en‸»", "end"),
    ("(func (loop «nop‸»", "nop"),
    ("(func (if «nop‸»", "nop"),
    ("(func (if (then «nop‸»", "nop"),
    ("(func (if (then) (else «nop‸»", "nop"),
    ("(func (then («the‸»", ""),
    (
        "(func (select («re‸»",
        "result return ref.null ref.is_null ref.func",
    ),
    ("(func (call_indirect («para‸»", "param"),
    ("(func (ref.null «‸»", "func extern"),
    ("(func (i32.const «‸»", ""),
    // Inside comments and strings.
    ("(func ;; (nop‸\n)", ""),
    ("(func ;; ‸nop\n)", ""),
    ("(func ;‸; nop\n)", ""),
    ("(func (; (nop‸ ;)", ""),
    ("(func (;‸;)", ""),
    ("(func (;;)«nop‸»", "nop"),
    ("(data \"(‸\")", ""),
    ("(data \"‸(", ""),
    ("(func \"nop‸", ""),
    ("(func \"nop‸\n)", ""),
    ("(data \"\"(«mem‸»", "memory"),
    ("(global \"\"«‸»)", "i32 i64 f32 f64 v128 funcref externref"),
    // After a closed group, and outside of groups.
    ("(func (nop) «nop‸»", "nop"),
    ("(func) «‸»", ""),
    ("(assert_return («‸»))", ""),
    ("‸", ""),
];

#[test]
fn completions_fit_the_context() {
    for (case, wanted) in COMPLETIONS {
        let marked = Marked::new(case);
        let found = marked.result("completion", &json!({ "context": { "triggerKind": 1 } }));
        let items = found.as_array().unwrap();
        let labels: Vec<_> = items
            .iter()
            .map(|it| it["label"].as_str().unwrap())
            .collect();
        assert_eq!(labels.join(" "), *wanted, "{case}");
        let edits: Value = items.iter().map(|it| it["textEdit"].clone()).collect();
        for (range, label) in ranges_of(&edits).iter().zip(labels) {
            assert_eq!([range], [marked.ranges.first().unwrap_or(range)], "{case}");
            assert!(
                edits
                    .as_array()
                    .unwrap()
                    .iter()
                    .any(|it| it["newText"] == label)
            );
        }
    }
}

#[test]
fn all_instructions_are_offered() {
    for (case, more) in [("(func (nop (‸", 434), ("(func ‸", 436), ("(func (‸", 440)] {
        let found = Marked::new(case).result("completion", &Value::Null);
        assert_eq!(found.as_array().unwrap().len(), more, "{case}");
    }
}

#[test]
fn each_completion_has_the_kind_of_its_item() {
    let cases = [
        ("(func $f (call $‸", 3),
        ("(func (param $x i32) (local.get $‸", 6),
        ("(global $g i32) (func (global.get $‸", 6),
        ("(table $t 1 funcref) (func (table.get $‸", 12),
        ("(memory $m 1) (export \"\" (memory $‸", 12),
        ("(data $d \"\") (func (data.drop $‸", 12),
        ("(elem $e func) (func (elem.drop $‸", 12),
        ("(mod‸", 14),
        ("(func (i32.ad‸", 14),
        ("(func (block $l (br $‸", 18),
        ("(type $t (func)) (func (type $‸", 25),
        ("(func (param i3‸", 25),
    ];
    for (case, kind) in cases {
        let found = Marked::new(case).result("completion", &Value::Null);
        assert_eq!(found[0]["kind"], kind, "{case}");
        assert_eq!(found.as_array().unwrap().len(), 1, "{case}");
    }
}
