//! Texts in which `‸` marks the position of a request, and `«` and `»` the ranges of its result.

use super::{notification, request, responses_when_initialized};
use serde_json::{Value, json};

/// A text without its marks.
pub struct Marked {
    pub text: String,
    /// The position of `‸`.
    position: Value,
    /// The ranges between `«` and `»`.
    pub ranges: Vec<Value>,
}

impl Marked {
    pub fn new(marked: &str) -> Marked {
        let (mut text, mut position, mut starts, mut ranges) =
            (String::new(), Value::Null, vec![], vec![]);
        for c in marked.chars() {
            match c {
                '‸' => position = end_of(&text),
                '«' => starts.push(end_of(&text)),
                '»' => {
                    let start = starts.pop().unwrap();
                    ranges.push(json!({ "start": start, "end": end_of(&text) }));
                }
                _ => text.push(c),
            }
        }
        Marked {
            text,
            position,
            ranges,
        }
    }

    /// Opens the text as a document, and returns the result of a request at the marked position, with more parameters.
    pub fn result(&self, method: &str, more: &Value) -> Value {
        let mut params = json!({ "textDocument": { "uri": "u" }, "position": self.position });
        let more = more.as_object().cloned().unwrap_or_default();
        params.as_object_mut().unwrap().extend(more);
        let asked = request("1", &format!("textDocument/{method}"), &params);
        let sent = opened_as("u", "wat", &self.text) + &asked;
        let bodies = responses_when_initialized(sent.as_bytes());
        assert_eq!(bodies[1]["id"], "1");
        bodies[1]["result"].clone()
    }
}

/// Returns the position of the end of a text.
fn end_of(text: &str) -> Value {
    let last = text.rsplit('\n').next().unwrap();
    let line = text.matches('\n').count();
    json!({ "line": line, "character": last.encode_utf16().count() })
}

pub fn opened_as(uri: &str, language: &str, text: &str) -> String {
    let document = json!({ "uri": uri, "languageId": language, "version": 1, "text": text });
    notification("textDocument/didOpen", &json!({ "textDocument": document }))
}

/// Returns the ranges of a list of locations, highlights or edits.
pub fn ranges_of(items: &Value) -> Vec<Value> {
    let items = items.as_array().into_iter().flatten();
    items.map(|item| item["range"].clone()).collect()
}
