//! Document symbols.

use super::marked::Marked;
use serde_json::Value;
use std::fmt::Write;

/// Texts, and their symbols: kind, name, detail, and the symbols inside in braces. `«` and `»` mark the selected ranges.
const SYMBOLS: &[(&str, &str)] = &[
    ("", ""),
    ("(«module»)", "2 module"),
    ("(module «$m»)", "2 $m"),
    ("(«module» (func «$f»))", "2 module{12 $f}"),
    (
        "(func «$f») («func») (func «$g»)",
        "12 $f, 12 func 1, 12 $g",
    ),
    (
        "(type «$t» (func (param $x i32) (param i32))) («type» (func))",
        "11 $t{13 $x (i32)}, 11 type 1",
    ),
    (
        "(import \"a\" \"b\" (func «$f»)) (import \"a\" \"c\" («memory» 1))",
        "12 $f (import \"a\" \"b\"), 19 memory 0 (import \"a\" \"c\")",
    ),
    (
        "(func «$f» (param $x i32) (param i32) (local $y i64))",
        "12 $f{13 $x (i32), 13 $y (i64)}",
    ),
    ("(func «$f» (param $x) (local $y", "12 $f{13 $x, 13 $y}"),
    ("(func «$f» (block $l (call $f)))", "12 $f"),
    (
        "(table «$t» 1 funcref) («table» funcref (elem 0))",
        "18 $t, 18 table 1",
    ),
    ("(memory «$m» 1)", "19 $m"),
    (
        "(global «$g» i32 (i32.const 0)) («global» i32 (i32.const 0))",
        "13 $g, 13 global 1",
    ),
    (
        "(export «\"f\"» (func $f)) (export «\"m\"» (memory 0))",
        "7 \"f\" (func $f), 7 \"m\" (memory 0)",
    ),
    ("(«start» $f)", "24 start ($f)"),
    ("(elem «$e» func) («elem» func)", "18 $e, 18 elem 1"),
    ("(data «$d» \"\") («data» \"\")", "15 $d, 15 data 1"),
    (
        "(memory «$m» (data \"\")) («data» \"\")",
        "19 $m, 15 data 1",
    ),
    // Texts with errors.
    ("(«module» (func «$f» (call (i32.const", "2 module{12 $f}"),
    (
        "(«module» (func «$f» (call 1 (func «$g») («memory» 1",
        "2 module{12 $f, 12 $g, 19 memory 0}",
    ),
    (
        "(«module» (global «$g» i32 (i32.const 0) (table «$t» 1 funcref (memory «$m» 1 (elem «$e» (table $t) (data «$d» (memory 0) («start» 0 (func «$f»",
        "2 module{13 $g, 18 $t, 19 $m, 18 $e, 15 $d, 24 start (0), 12 $f}",
    ),
    (
        "(«module» (func «$a») (func «$b» (call 1 (func «$c»)",
        "2 module{12 $a, 12 $b, 12 $c}",
    ),
    (
        "(«module» (func «$a»)) (func «$b» (block (func «$c»)",
        "2 module{12 $a, 12 $b, 12 $c}",
    ),
    (
        "(table «$t» funcref (elem 0) (memory «$m» (data \"\")",
        "18 $t, 19 $m",
    ),
    (
        "(«module» (func «$f» é frob))) (func «$g»)",
        "2 module{12 $f, 12 $g}",
    ),
    (
        "(«import») («export») (frob) (@a (func)) («func»",
        "7 import (import), 7 export (), 12 func 0",
    ),
    ("(«export» ", "7 export ()"),
    (
        "(export «\"f\"» (func (param $x i32)))",
        "7 \"f\" (func){13 $x (i32)}",
    ),
    ("(func «$f»)@a (func «$g»)", "12 $f, 12 $g"),
    ("( @a func «$f»)", "12 $f"),
    (")) («func») \u{e9}", "12 func 0"),
    // A script.
    (
        "(module «$a» (func «$f»)) (assert_invalid («module» («func»)) \"\")",
        "2 $a{12 $f}, 2 module{12 func 0}",
    ),
    (
        "(module «$q» quote \"(func)\") (assert_return (invoke \"f\"))",
        "2 $q",
    ),
];

/// Writes the symbols of a list, and appends the ranges that they select.
fn write(symbols: &Value, text: &mut String, selected: &mut Vec<Value>) {
    for (i, symbol) in symbols.as_array().into_iter().flatten().enumerate() {
        text.push_str(if i > 0 { ", " } else { "" });
        write!(
            text,
            "{} {}",
            symbol["kind"],
            symbol["name"].as_str().unwrap()
        )
        .unwrap();
        if let Some(detail) = symbol["detail"].as_str() {
            write!(text, " ({detail})").unwrap();
        }
        let is_inner = symbol["kind"] == 13
            && symbol["name"]
                .as_str()
                .is_some_and(|it| ["$x", "$y"].contains(&it));
        if !is_inner {
            selected.push(symbol["selectionRange"].clone());
        }
        if let Some(children) = symbol.get("children").filter(|it| it[0].is_object()) {
            text.push('{');
            write(children, text, selected);
            text.push('}');
        }
    }
}

/// Returns a position as two integers.
fn position(position: &Value) -> (u64, u64) {
    (
        position["line"].as_u64().unwrap(),
        position["character"].as_u64().unwrap(),
    )
}

/// Asserts that each range contains the selected one, and those of the symbols inside.
fn assert_nested(symbols: &Value) {
    let ends = |range: &Value| (position(&range["start"]), position(&range["end"]));
    for symbol in symbols.as_array().into_iter().flatten() {
        let (start, end) = ends(&symbol["range"]);
        let children = symbol["children"].as_array().into_iter().flatten();
        let inner = children
            .map(|it| &it["range"])
            .chain([&symbol["selectionRange"]]);
        for (first, last) in inner.map(ends) {
            assert!(start <= first && first <= last && last <= end, "{symbol}");
        }
        assert_nested(&symbol["children"]);
    }
}

#[test]
fn symbols_are_nested() {
    for (case, wanted) in SYMBOLS {
        let marked = Marked::new(case);
        let found = marked.result("documentSymbol", &Value::Null);
        let (mut text, mut selected) = (String::new(), vec![]);
        write(&found, &mut text, &mut selected);
        assert_eq!(text, *wanted, "{case}");
        assert_eq!(selected, marked.ranges, "{case}");
        assert_nested(&found);
    }
}

#[test]
fn ranges_are_those_of_groups() {
    let whole = Marked::new(
        "«(module\n  «(func $f «(param $x i32)» «(local $y i32)»\n nop)» «(memory 1)»\n)»",
    );
    let found = whole.result("documentSymbol", &Value::Null);
    let [module] = found.as_array().unwrap().as_slice() else {
        panic!("{found}")
    };
    let (function, memory) = (&module["children"][0], &module["children"][1]);
    let found = [
        &function["children"][0],
        &function["children"][1],
        function,
        memory,
        module,
    ];
    let ranges: Vec<_> = found.iter().map(|it| it["range"].clone()).collect();
    assert_eq!(ranges, whole.ranges);
}
