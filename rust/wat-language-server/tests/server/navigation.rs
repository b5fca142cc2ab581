//! Definitions, references, highlights and renaming.

use super::marked::{Marked, ranges_of};
use serde_json::{Value, json};
use wat_language_server::LONGEST_ANALYZED;

/// Texts with the position of a request, and the definition.
const DEFINITIONS: &[&str] = &[
    // The index spaces of a module, by identifier and by index.
    "(module (func «$f») (func (call $‸f)))",
    "(module (func) («func») (func (call 1‸)))",
    "(module (func «$f» (call ‸$f)))",
    "(module (import \"a\" \"b\" (func «$i»)) (func (call ‸0)))",
    "(func $g (import \"a\" \"b\")) (func «$f») (export \"f\" (func ‸1))",
    "(module (type «$t» (func)) (func (type ‸$t)))",
    "(type (func)) («type» (func)) (func (call_indirect (type ‸0x1)))",
    "(type «$t» (func)) (func (block (type ‸$t)))",
    "(table «$t» 1 funcref) (func (call_indirect ‸$t (type 0)))",
    "(table 1 funcref) (table «$t» 1 funcref) (func (table.get ‸1 (i32.const 0)))",
    "(table $a 1 funcref) (table «$b» 1 funcref) (func (table.copy $a ‸$b))",
    "(table «$t» 1 funcref) (elem $e func) (func (table.init ‸$t $e))",
    "(table $t 1 funcref) (elem «$e» func) (func (table.init $t ‸$e))",
    "(table $t 1 funcref) (elem «$e» func) (func (table.init ‸0))",
    "(table 1 funcref) (table funcref («elem» 0)) (func (elem.drop ‸0))",
    "(table $t funcref (elem $f)) (elem «$e» func) (func (elem.drop ‸1))",
    "(memory «$m» 1) (export \"m\" (memory $‸m))",
    "(memory «$m» 1) (data (memory ‸$m) (i32.const 0) \"\")",
    "(memory («data» \"\")) (func (data.drop ‸0))",
    "(data «$d» \"\") (func (memory.init ‸$d))",
    "(global «$g» i32 (i32.const 0)) (func (global.get ‸$g))",
    "(global $g i32 (i32.const 0)) («global» i32 (global.get 0)) (func (global.set ‸1))",
    "(global «$g» (import \"a\" \"b\") i32) (global i32 (global.get ‸$g))",
    "(table «$t» 1 funcref) (elem (table ‸$t) (i32.const 0) func)",
    "(func «$f») (elem (i32.const 0) func 0 ‸$f)",
    "(func «$f») (elem (i32.const 0) $f ‸$f)",
    "(func «$f») (table funcref (elem ‸$f))",
    "(func «$f») (elem funcref (ref.func ‸$f))",
    "(func «$f») (elem declare func ‸$f)",
    "(func «$f») (start ‸$f)",
    "(func «$f») (global funcref (ref.func ‸$f))",
    "(export \"f\" (func ‸$f)) (func «$f»)",
    "(export \"t\" (table ‸0)) («table» 1 funcref)",
    "(export \"g\" (global ‸$g)) (global «$g» i32 (i32.const 0))",
    // Quoted identifiers.
    "(func «$\"f\"») (func (call ‸$f))",
    "(func «$f») (func (call ‸$\"\\66\"))",
    // Locals.
    "(func (param «$x» i32) (local.get ‸$x))",
    "(func (param $x i32) (param i32 «i64») (local i32) (local.get ‸2))",
    "(func (param i32) (local «$y» i32) (local.set ‸1 (local.get 0)))",
    "(func $f (param $x i32)) (func (param «$x» i32) (drop (local.tee ‸$x)))",
    "(type $t (func (param i32 «i64»))) (func (type $t) (local i32) (local.get ‸1))",
    "(func (type $t) (local «i32») (local.get ‸2)) (type $t (func (param i32 i64)))",
    "(func (type 0) (param «$a» i32) (local.get ‸0)) (type (func (param i32)))",
    "(type (func (param «i64»))) (func (export \"f\") (type 0) (local.get ‸0))",
    "(type (func (param «i64»))) (func (import \"a\" \"b\") (type 0) (local.get ‸0))",
    // Labels.
    "(func block «$l» loop $m br ‸$l end end)",
    "(func i32.const 0 if «$l» else br ‸0 end)",
    "(«func» $f end br ‸0)",
    "(func (if $a (i32.const 0) (then (if «$b» (i32.const 1) (then (br ‸0))))))",
    "(func block $l «loop» br ‸0 end end)",
    "(func («block» (loop $m (br ‸1))))",
    "(func block «$l» block $m end br ‸$l end)",
    "(func («block» (block $m) (br_if ‸0)))",
    "(func (block «$a» (block $a) (br_table 0 ‸$a 0)))",
    "(func (block $a (block «$a» (br ‸$a))))",
    "(func (if «$l» (br_if $l) (then (br ‸$l)) (else)))",
    "(func (if «$l» (br_if $l) (then) (else (br ‸0))))",
    "(func («block» (if $l (i32.eqz (br ‸0)) (then))))",
    "(func if «$l» else $‸l end)",
    "(func loop «$l» end ‸$l)",
    "(func (if «$l» (then end (br ‸$l))))",
    "(«func» (block (br ‸1)))",
    "(module («func» block br ‸1 end) (func))",
    // At a definition.
    "(func «‸$f»)",
    "(func (param «$x‸» i32))",
    // Texts with errors.
    "(module (func «$f») (func (call ‸$f",
    "(module (func «$f» (call frob 1 é (func (call ‸$f)",
    "(module (func $a (block (export \"f\" (func ‸$f)) (func «$f»)",
    "(module (func $a (block (type $x (func)) (func (type ‸$t)) (type «$t» (func)))",
    "(module)) (func «$f») (func (call ‸$f))",
    "(@a (func $f)) (func «$f») (func (@a (call $g)) (call ‸$f))",
    "(func (@a) «$f») (func (call ‸$f))",
    // A script: names are those of the same module.
    "(module (func $f)) (module (func «$f») (start ‸$f))",
    "(assert_invalid (module (func «$f») (func (call ‸$f))) \"\")",
];

/// Texts with the position of a request for which there is no definition.
const UNDEFINED: &[&str] = &[
    "‸",
    "(module ‸)",
    "(func (call ‸$g))",
    "(func (call 1‸))",
    "(func (call ‸+0))",
    "(func (call -‸0))",
    "(func (call ‸4294967296))",
    "(func (i32.const ‸0))",
    "(func (local.get ‸$f)) (func $f)",
    "(func (br ‸2))",
    "(func (block $l) (br ‸$l))",
    "(func block $l end br ‸$l)",
    "(func (if $l (br ‸$l) (then)))",
    "(type $t (func (param $x i32))) (func (type $t) (local.get ‸$x))",
    "(func (call_indirect (param $x i32) (local.get ‸$x)))",
    "(memory 1) (func (i32.load ‸0))",
    "(func $f) (func (call $f 0 ‸0))",
    "(table 1 funcref) (func (table.get 0 ‸0))",
    "(global i32 (local.get ‸0))",
    "(module (func $f)) (module (start ‸$f))",
    ";; $f‸\n(func $f)",
    // Other tokens before the index, and labels that have ended.
    "(func $f) (func call \"a\" ‸$f)",
    "(func $f) (table 1 func ‸$f)",
    "(func $f) (elem funcref ‸$f)",
    "(global i32 (block $l (br ‸$l)))",
    "(func (if $a (i32.const 0) (then)) (then (br ‸$a)))",
    "(func (if $a (i32.const 0) (then (if $b (i32.const 1) (then)) (then (br ‸$b)))))",
    "(func block end ‸)",
];

/// Texts with the position of a request, and all tokens of the definition.
const REFERENCES: &[&str] = &[
    "(func «$f») (func (call «$‸f») (call «0») (call 1)) (start «$f»)",
    "(func «‸$f») (func (call «$f»))",
    "(«func» (call «‸0»))",
    "(import \"a\" \"b\" (func «$f»)) (export \"a\" (func «‸0»)) (elem func «0» «$f» 1)",
    "(type «$t» (func)) (func (type «‸$t») (call_indirect (type «0»)))",
    "(table «$t» 1 funcref) (func (table.copy «$t» «‸0»))",
    "(memory «$‸m» 1) (export \"m\" (memory «0»))",
    "(global «$g» i32 (i32.const 0)) (func (global.set «0» (global.get «$g‸»)))",
    "(elem «$e» func) (func (elem.drop «‸$e») (table.init «0»))",
    "(data «$d» \"\") (func (data.drop «‸$d») (memory.init «0»))",
    "(func (param «$x» i32) (local.set «‸0» (local.get «$x»)))",
    "(func (param $x i32)) (func (param «$x» i32) (local.get «‸$x»))",
    "(func block «$l» br «‸0» br_table «$l» 1 «0» end «$l»)",
    "(func block «$l» br «‸$l» end $m)",
    "(func (block «$l» (block (br «1») (br «‸$l»))))",
    "(type (func (param «i32»))) (func (type 0) (local.get «‸0»)) (func (type 0) (local.get «0»))",
    "(func «$f») (func (call «$\"f\"‸»))",
    "(module (func «$‸f») (start «0»)) (module (func $f) (start 0))",
];

fn locations(ranges: &[Value]) -> Value {
    ranges
        .iter()
        .map(|range| json!({ "uri": "u", "range": range }))
        .collect()
}

#[test]
fn definitions_are_found() {
    for case in DEFINITIONS {
        let marked = Marked::new(case);
        let found = marked.result("definition", &Value::Null);
        assert_eq!(found, locations(&marked.ranges)[0], "{case}");
    }
    for case in UNDEFINED {
        let found = Marked::new(case).result("definition", &Value::Null);
        assert_eq!(found, Value::Null, "{case}");
    }
}

#[test]
fn references_and_highlights_are_found() {
    for case in REFERENCES {
        let marked = Marked::new(case);
        let all = json!({ "context": { "includeDeclaration": true } });
        let found = marked.result("references", &all);
        assert_eq!(found, locations(&marked.ranges), "{case}");
        let highlights = marked.result("documentHighlight", &Value::Null);
        assert_eq!(ranges_of(&highlights), marked.ranges, "{case}");
        // Without the definition, which is the first in these texts.
        for context in [
            json!({ "context": { "includeDeclaration": false } }),
            Value::Null,
        ] {
            let found = marked.result("references", &context);
            assert_eq!(found, locations(&marked.ranges[1..]), "{case}");
        }
    }
}

#[test]
fn identifiers_are_renamed() {
    let cases = [
        "(func «‸$f») (func (call «$f») (call 0))",
        "(func «$f») (func (call «$f») (call ‸0))",
        "(func «$f») (func (call «‸$\"f\"»))",
        "(func (param «$x» i32) (local.get «$‸x»))",
        "(func block «$l» br «‸$l» end «$l»)",
        "(module (type «$t» (func)) (func (type «$t‸»)))",
        "(table «‸$t» 1 funcref) (func (table.copy «$t» «$t»))",
        "(memory «‸$m» 1) (data (memory «$m») (i32.const 0) \"\")",
        "(global «$g» i32 (i32.const 0)) (func (global.set «$g» (global.get «$‸g»)))",
        "(elem «$e» func) (func (elem.drop «‸$e»))",
        "(data «$d» \"\") (func (data.drop «‸$d»))",
        "(func «$f») (export \"f\" (func «$f‸»)) (start «$f»)",
        "(import \"a\" \"b\" (func «$f»)) (elem func «‸$f»)",
        "(func (block «$a» (block $b (br «$‸a») (br 1))))",
        "(func (block $a (block «$a» (br «‸$a»))))",
        "(import \"a\" \"b\" (type «‸$t»))",
        // The new name is another definition's, elsewhere.
        "(module (func «‸$f»)) (module (func $new))",
        "(func «‸$f») (table $new 1 funcref)",
        "(func (param «‸$x» i32)) (func (param $new i32)) (func $new)",
        "(func (block $new) (block «‸$a» (br «$a»)))",
        "(func (block $new (block «‸$a» (br «$a»))))",
        "(func (block «‸$a» (block $new (br $new))))",
        // The new name has no definition yet, or is the old one.
        "(func «‸$f») (start $new)",
        "(func «‸$new») (start «$new»)",
    ];
    for case in cases {
        let marked = Marked::new(case);
        for name in ["new", "$new"] {
            let renamed = marked.result("rename", &json!({ "newName": name }));
            let edits = &renamed["changes"]["u"];
            assert_eq!(ranges_of(edits), marked.ranges, "{case}");
            assert!(
                edits
                    .as_array()
                    .unwrap()
                    .iter()
                    .all(|it| it["newText"] == "$new"),
                "{case}"
            );
        }
    }
}

#[test]
fn other_tokens_and_to_other_names_nothing_is_renamed() {
    let marked = Marked::new("(func ‸$f)");
    for name in ["", "$", "a b", "a(", "é", "a;;", "\"a", "a\n", "(;"] {
        let renamed = marked.result("rename", &json!({ "newName": name }));
        assert_eq!(renamed, Value::Null, "{name}");
    }
    for more in [
        json!({}),
        json!({ "newName": 1 }),
        json!({ "newName": null }),
    ] {
        assert_eq!(marked.result("rename", &more), Value::Null);
    }
    let new = json!({ "newName": "new" });
    for case in [
        "(func) (func (call ‸0))",
        "(func (call ‸$f))",
        "(‸func $f)",
        "‸",
        // The new name is another definition's.
        "(func ‸$f) (func $new)",
        "(func $new) (func ‸$f)",
        "(func ‸$f) (func $\"new\")",
        "(import \"a\" \"b\" (func $new)) (func ‸$f)",
        "(func (param ‸$x i32) (local $new i32))",
        "(func (param $new i32) (local ‸$x i32))",
        "(func (block ‸$a (block $new (br $a))))",
        "(func (block $new (block ‸$a (br $new))))",
        "(func block $new loop ‸$a br $new end end)",
    ] {
        assert_eq!(
            Marked::new(case).result("rename", &new),
            Value::Null,
            "{case}"
        );
    }
    // The text would be too long.
    let long = Marked::new(&format!("(func ‸$f {})", "(call $f)".repeat(3_000)));
    let new = json!({ "newName": "x".repeat(LONGEST_ANALYZED / 3_000) });
    assert_eq!(long.result("rename", &new), Value::Null);
    let quoted = marked.result("rename", &json!({ "newName": "\"a b\"" }));
    assert_eq!(quoted["changes"]["u"][0]["newText"], "$\"a b\"");
}

#[test]
fn a_text_is_not_renamed_if_it_could_become_too_long() {
    for (surplus, is_renamed) in [(0, true), (1, false)] {
        let spaces = " ".repeat(LONGEST_ANALYZED + surplus - "(func $f)$new".len());
        let marked = Marked::new(&("(func ‸$f)".to_owned() + &spaces));
        let renamed = marked.result("rename", &json!({ "newName": "new" }));
        assert_eq!(renamed.is_object(), is_renamed, "{surplus}");
    }
}
