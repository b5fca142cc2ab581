//! The errors that the server sends: lexical errors, or that of the compiler or of validation.

use super::marked::{Marked, opened_as, ranges_of};
use super::responses_when_initialized;
use serde_json::Value;
use wat_language_server::LONGEST_ANALYZED;

/// Modules without lexical errors, with the range of the error of the compiler or of validation. At the end of the text that is the last significant
/// token.
const MODULES: &[&str] = &[
    "",
    "(module)",
    "(module (func $f (call $f)))",
    "(func) (memory 1)",
    "(module (@a frob) (func))",
    "(module (func «frob»))",
    "(«module»",
    "(module (func«)»\n",
    "(module (func «)» ;; unclosed\n",
    "(module (func (call «$g»)))",
    "(module (func) «$x»)",
    "(module)«)»",
    ";; 😀\n(module (; 😀 ;) (func «nope»))",
    "(func (i32.const «0x1_0000_0000_0»))",
    "(func (i32.add «1»))",
    "(import \"a\" \"b\"«)»",
    "(func «local.gett» 0)",
    "(func (local $x i32) (local.set «$y»))",
    "(table 1 «i32»)",
    // Modules that are not valid: an instruction, or the field.
    "(func (result i32) i32.const 1)",
    "(func (result i32) i32.const 1 «i64.eqz»)",
    "(func (result i32) («i64.eqz» (i32.const 1)))",
    "(;;) (module\n (func)\n (func (drop (i32.add (i32.const 1)\n («local.get» 0)))))",
    "(func (local i64) (drop («i32.add» (i32.const 1)\n (local.get 0))))",
    "(func block (result i32) «end» drop)",
    "(func (block (result i32)«)» drop)",
    "(func («if» (i64.const 1) (then)))",
    "(func (if (result i32) (i32.const 1) (then) («else» (i32.const 2))) drop)",
    "(func (if (result i32) (i32.const 1) (then (i32.const 2)) (else)«)» drop)",
    "(«func» (result i32))",
    "(module (func) («func» (result i32) nop) (func drop))",
    // A syntax error precedes them.
    "(module (func) (func (result i32) nop) (func «frob»))",
    "(func (type «0»))",
    "(memory 1) («memory» 1)",
    "(func) («export» \"a\" (func 1))",
    "(func (export \"a\")) («export» \"a\" (func 0))",
    "(func $f (param i32)) («start» $f)",
    "(global i32 («i64.const» 1))",
    "(memory 1) (data («i64.const» 1) \"\")",
    "(«data» (i32.const 1) \"\")",
    "(«table» 2 1 funcref)",
];

/// Returns the diagnostics of a document.
fn diagnostics(uri: &str, language: &str, text: &str) -> Value {
    let bodies = responses_when_initialized(opened_as(uri, language, text).as_bytes());
    bodies[0]["params"]["diagnostics"].clone()
}

#[test]
fn the_compiler_reports_an_error_at_its_token() {
    for case in MODULES {
        let marked = Marked::new(case);
        let found = diagnostics("u", "wat", &marked.text);
        assert_eq!(ranges_of(&found), marked.ranges, "{case}");
        let error = wat_modules::parse_valid_str(&marked.text).err();
        let message = error.map(|error| error.message());
        assert_eq!(found[0]["message"].as_str(), message.as_deref(), "{case}");
    }
}

#[test]
fn lexical_errors_are_reported_instead_of_the_error_of_the_compiler() {
    let cases = [
        "(module (func frob «é»))",
        "(data «\"a)»\n «é»",
        "(func $f (i32.add 1)) «(;» ;; \n",
        "«\u{301}» (module",
    ];
    for case in cases {
        let marked = Marked::new(case);
        let found = diagnostics("u", "wat", &marked.text);
        assert_eq!(ranges_of(&found), marked.ranges, "{case}");
        assert!(
            found
                .as_array()
                .unwrap()
                .iter()
                .all(|it| it["source"] == "wat" && it["severity"] == 1)
        );
    }
}

#[test]
fn a_script_is_not_compiled() {
    let script = "(module) (assert_return (invoke \"f\"))";
    let cases = [
        ("file:///a.wast", "wat", script, 0),
        ("file:///a.wat", "wast", script, 0),
        ("file:///a.wast", "", "(module é)", 1),
        ("file:///a.wat", "wat", script, 1),
        ("file:///wast", "webassembly", script, 1),
        ("file:///a.wast.wat", "wat", script, 1),
    ];
    for (uri, language, text, count) in cases {
        let found = diagnostics(uri, language, text);
        assert_eq!(found.as_array().unwrap().len(), count, "{uri} {language}");
    }
}

#[test]
fn a_longer_text_is_not_compiled() {
    for (surplus, count) in [(0, 1), (1, 0)] {
        let spaces = " ".repeat(LONGEST_ANALYZED + surplus - "(frob)".len());
        let found = diagnostics("u", "wat", &(spaces + "(frob)"));
        assert_eq!(found.as_array().unwrap().len(), count, "{surplus}");
    }
}
