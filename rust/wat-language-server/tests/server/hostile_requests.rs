//! Requests at positions, and texts, that no client should send. After each the server must respond to the next request.

use super::marked::{Marked, opened_as};
use super::{message, request, responses_when_initialized};
use serde_json::{Value, json};

/// The requests about an open document.
const METHODS: [&str; 7] = [
    "completion",
    "definition",
    "documentHighlight",
    "documentSymbol",
    "hover",
    "references",
    "rename",
];

/// Parameters without a document or a position.
const NOWHERE: &[&str] = &[
    "null",
    "1",
    "[]",
    "{}",
    r#"{"textDocument":null}"#,
    r#"{"textDocument":{"uri":"v"},"position":{"line":0,"character":0}}"#,
    r#"{"textDocument":{"uri":1},"position":{"line":0,"character":0}}"#,
    r#"{"textDocument":{"uri":"u"}}"#,
    r#"{"textDocument":{"uri":"u"},"position":null}"#,
    r#"{"textDocument":{"uri":"u"},"position":[0,0]}"#,
    r#"{"textDocument":{"uri":"u"},"position":{"line":0}}"#,
    r#"{"textDocument":{"uri":"u"},"position":{"line":-1,"character":0}}"#,
    r#"{"textDocument":{"uri":"u"},"position":{"line":0,"character":0.5}}"#,
    r#"{"textDocument":{"uri":"u"},"position":{"line":"0","character":0}}"#,
    r#"{"textDocument":{"uri":"u"},"position":{"line":0,"character":18446744073709551616}}"#,
    r#"{"position":{"line":0,"character":0}}"#,
];

/// Positions past the end of a line or of the text, or inside a surrogate pair.
const POSITIONS: &[(u64, u64)] = &[
    (0, 0),
    (0, 3),
    (0, u64::MAX),
    (1, u64::MAX),
    (99, 0),
    (u64::MAX, u64::MAX),
];

/// Returns the results of all requests with the same parameters, after a text is opened.
fn results(text: &str, params: &Value) -> Vec<Value> {
    let method = |method| request("1", &format!("textDocument/{method}"), params);
    let asked = METHODS.map(method).concat();
    let mut bodies = responses_when_initialized((opened_as("u", "wat", text) + &asked).as_bytes());
    assert_eq!(bodies.len(), METHODS.len() + 1);
    bodies.drain(..1);
    bodies.into_iter().map(|it| it["result"].clone()).collect()
}

fn params_at(line: u64, character: u64) -> Value {
    json!({
        "textDocument": { "uri": "u" },
        "position": { "line": line, "character": character },
        "newName": "new",
    })
}

#[test]
fn requests_without_a_position_have_no_result() {
    for params in NOWHERE {
        let params: Value = serde_json::from_str(params).unwrap();
        let found = results(";;\u{1f600} a\n(func $f)", &params);
        for (method, result) in METHODS.iter().zip(found) {
            let has_document = params["textDocument"]["uri"] == "u";
            let is_null = *method != "documentSymbol" || !has_document;
            assert_eq!(result.is_null(), is_null, "{method} {params}");
        }
    }
}

#[test]
fn requests_at_any_position_have_a_result() {
    for (line, character) in POSITIONS {
        let found = results(";;\u{1f600} a\n(func $f)", &params_at(*line, *character));
        assert!(
            found[0].is_array() && found[3].is_array(),
            "{line} {character}"
        );
    }
}

/// Texts that are nested, long, or cut anywhere.
fn texts() -> Vec<String> {
    let count = 2_000;
    let names = (0..count / 10).map(|i| format!("(func $f{i} (call $f{}))", i / 2));
    vec![
        "(".repeat(count),
        ")".repeat(count),
        "(module ".repeat(count),
        "(func ".repeat(count),
        format!("(func {}", "(block $a (br $a) ".repeat(count)),
        format!("(func {}", "block $a br $a ".repeat(count)),
        format!("(func {}", "(if (then ".repeat(count)),
        format!("(func block {}", "end ".repeat(count)),
        format!("(func (br_table {}", "0 ".repeat(count)),
        format!("(func (param {}", "i32 ".repeat(count)),
        format!("(elem {}", "(item ".repeat(count)),
        format!("(elem func {}", "0 ".repeat(count)),
        format!("(import {}", "(import ".repeat(count)),
        format!("({}", "(@a ".repeat(count)),
        format!("(func $f) (func {})", "(call $f)".repeat(count)),
        format!(
            "(type (func (param {}))) {}",
            "i32 ".repeat(1000),
            "(func (type 0))".repeat(1000)
        ),
        names.collect(),
        "$".repeat(count),
        "\"".repeat(count),
        "(;".repeat(count),
    ]
}

#[test]
fn no_text_ends_the_server() {
    for text in texts() {
        for character in [12, u64::MAX] {
            let found = results(&text, &params_at(0, character));
            assert!(found[3].is_array(), "{}", &text[..100]);
        }
    }
}

#[test]
fn no_end_of_a_text_ends_the_server() {
    let text = "(module $m (import \"a\" \"b\" (func $i)) (type $t (func (param $x i32))) (table $t funcref (elem $i 0)) \
        (func $f (export \"f\") (type $t) (local $y i32) (block $l (result i32) (br_table $l 0 (local.get $y))) \
        if $k else $k end $k (call_indirect $t (type 0)) table.init $t 0 ref.null func) (global (mut i32) i32.const 0) \
        (elem (table $t) (i32.const 0) func $i) (data (memory 0) (offset i32.const 0) \"\\00\") (start $f) (@a (;é;) $b))";
    for end in (0..text.len()).filter(|end| text.is_char_boundary(*end)) {
        let found = results(&text[..end], &params_at(0, end as u64));
        assert!(
            found[0].is_array() && found[3].is_array(),
            "{}",
            &text[..end]
        );
    }
    for start in (0..text.len()).filter(|start| text.is_char_boundary(*start)) {
        let found = results(&text[start..], &params_at(0, 0));
        assert!(
            found[0].is_array() && found[3].is_array(),
            "{}",
            &text[start..]
        );
    }
}

#[test]
fn requests_follow_changes() {
    let change = r#"{"method":"textDocument/didChange","params":{"textDocument":{"uri":"u"},"contentChanges":[{"range":{"start":
        {"line":0,"character":6},"end":{"line":0,"character":8}},"text":"(; 😀 ;) $g"}]}}"#;
    let marked = Marked::new("(func (; 😀 ;) «$g») (start ‸0)");
    let params = params_at(0, 26);
    let asked = request("1", "textDocument/definition", &params);
    let sent = [
        opened_as("u", "wat", "(func $f) (start 0)"),
        message(change),
        asked,
    ]
    .concat();
    let bodies = responses_when_initialized(sent.as_bytes());
    assert_eq!(
        bodies[2]["result"],
        json!({ "uri": "u", "range": marked.ranges[0] })
    );
}
