//! The tokens that the server analyzes, and the types that it sends.

use super::marked::Marked;
use serde_json::{Value, json};
use wat_language_server::syntax::Syntax;
use wat_lex::Document;

#[test]
fn only_significant_tokens_are_analyzed() {
    for (text, count) in [
        ("", 0),
        (" ;; a\n(; b ;)", 0),
        ("(@a b (c))", 0),
        ("(", 1),
        ("(func $f (; a ;))", 4),
    ] {
        let document = Document::new(text).unwrap();
        let syntax = Syntax::new(&document);
        assert_eq!(syntax.len(), count, "{text}");
        assert_eq!(syntax.is_empty(), count == 0, "{text}");
    }
}

/// Names of the types of semantic tokens, by their indices in the legend.
const TYPES: [&str; 7] = [
    "comment",
    "string",
    "keyword",
    "number",
    "variable",
    "decorator",
    "operator",
];

#[test]
fn each_token_has_the_type_of_its_kind() {
    for (text, wanted) in [
        (";; a", "comment"),
        ("(; a ;)", "comment"),
        ("\"a\"", "string"),
        ("func", "keyword"),
        ("1", "number"),
        ("nan", "number"),
        ("$a", "variable"),
        ("@a", "decorator"),
        ("1a", "operator"),
    ] {
        let found = Marked::new(text).result("semanticTokens/full", &Value::Null);
        let wanted = TYPES.iter().position(|it| *it == wanted);
        assert_eq!(
            found["data"],
            json!([0, 0, text.len(), wanted, 0]),
            "{text}"
        );
    }
    for text in [" ", "(", ")"] {
        let found = Marked::new(text).result("semanticTokens/full", &Value::Null);
        assert_eq!(found["data"], json!([]), "{text}");
    }
}
