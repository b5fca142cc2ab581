//! Messages that no client should send. After each the server must respond to the next request.

use super::{asked, message, opened, request, responses_when_initialized};
use Effect::{Exact, Inexact, Rejected};
use serde_json::{Value, json};

/// The text of the open document `u`.
const TEXT: &str = ";;\u{1f600} a\n(;\u{e9};)\n";

/// Bodies of messages, each with the kinds of the server's messages.
const BODIES: &[(&str, &str)] = &[
    // Not JSON.
    ("", "-32700"),
    ("{", "-32700"),
    ("[1,", "-32700"),
    ("{\"method\":\"", "-32700"),
    ("nonsense", "-32700"),
    ("{} {}", "-32700"),
    ("{'method':'exit'}", "-32700"),
    ("\u{feff}{}", "-32700"),
    ("\"a\nb\"", "-32700"),
    (r#""\x""#, "-32700"),
    (r#""\ud8""#, "-32700"),
    (r#"{"id":1e999}"#, "-32700"),
    // Not a message.
    ("null", "-32600"),
    ("true", "-32600"),
    ("-1.5", "-32600"),
    (r#""exit""#, "-32600"),
    ("[]", "-32600"),
    (r#"[{"id":1,"method":"shutdown"}]"#, "-32600"),
    ("{}", "-32600"),
    (r#"{"id":1}"#, "-32600"),
    (r#"{"method":null}"#, "-32600"),
    (r#"{"method":["exit"]}"#, "-32600"),
    (r#"{"id":null,"method":"shutdown"}"#, "-32600"),
    (r#"{"id":{},"method":"shutdown"}"#, "-32600"),
    (r#"{"id":[1],"method":"shutdown"}"#, "-32600"),
    // A response, for which there was no request.
    (r#"{"id":1,"result":null}"#, ""),
    (r#"{"id":1,"error":{"code":1,"message":""}}"#, ""),
    // Methods.
    (r#"{"id":1,"method":"nonsense"}"#, "-32601"),
    (r#"{"id":1,"method":""}"#, "-32601"),
    (r#"{"id":-1.5,"method":"$/nonsense"}"#, "-32601"),
    (r#"{"id":18446744073709551616,"method":"exit"}"#, "-32601"),
    (r#"{"id":"\ud800","method":"\udc00"}"#, "-32601"),
    (r#"{"method":"nonsense"}"#, ""),
    (r#"{"method":"$/cancelRequest","params":{"id":1}}"#, ""),
    (r#"{"method":"initialized"}"#, ""),
    (r#"{"method":"initialize"}"#, ""),
    (r#"{"method":"shutdown"}"#, ""),
    (r#"{"id":1,"method":"initialize"}"#, "-32600"),
    // Requests about no document.
    (r#"{"id":1,"method":"textDocument/formatting"}"#, "result"),
    (
        r#"{"id":1,"method":"textDocument/formatting","params":[1]}"#,
        "result",
    ),
    (
        r#"{"id":1,"method":"textDocument/foldingRange","params":{"textDocument":"u"}}"#,
        "result",
    ),
    (
        r#"{"id":1,"method":"textDocument/foldingRange","params":{"textDocument":{"uri":1}}}"#,
        "result",
    ),
    (
        r#"{"id":1,"method":"textDocument/semanticTokens/full","params":{"textDocument":{"uri":"v"}}}"#,
        "result",
    ),
    // Documents.
    (r#"{"method":"textDocument/didOpen"}"#, "logMessage"),
    (
        r#"{"method":"textDocument/didOpen","params":{"textDocument":{"uri":"v"}}}"#,
        "logMessage",
    ),
    (
        r#"{"method":"textDocument/didOpen","params":{"textDocument":{"uri":"v","text":1}}}"#,
        "logMessage",
    ),
    (
        r#"{"method":"textDocument/didOpen","params":{"textDocument":{"uri":{},"text":""}}}"#,
        "logMessage",
    ),
    (
        r#"{"method":"textDocument/didOpen","params":{"textDocument":{"uri":"u","text":"again"}}}"#,
        "publishDiagnostics",
    ),
    (
        r#"{"method":"textDocument/didOpen","params":{"textDocument":{"uri":"\ud800","text":"\udc00\ud800"}}}"#,
        "publishDiagnostics",
    ),
    (
        r#"{"method":"textDocument/didClose","params":{"textDocument":{"uri":"u"}}}"#,
        "publishDiagnostics",
    ),
    (
        r#"{"method":"textDocument/didClose","params":{"textDocument":{"uri":"v"}}}"#,
        "logMessage",
    ),
    (
        r#"{"method":"textDocument/didClose","params":null}"#,
        "logMessage",
    ),
    (
        r#"{"method":"textDocument/didChange","params":{"textDocument":{"uri":"v"},"contentChanges":[]}}"#,
        "logMessage",
    ),
    (
        r#"{"method":"textDocument/didChange","params":{"textDocument":{"uri":"u"}}}"#,
        "logMessage",
    ),
    (
        r#"{"method":"textDocument/didChange","params":{"textDocument":{"uri":"u"},"contentChanges":{}}}"#,
        "logMessage",
    ),
    (
        r#"{"method":"textDocument/didChange","params":{"textDocument":{"uri":"u"},"contentChanges":[]}}"#,
        "publishDiagnostics",
    ),
    (
        r#"{"method":"textDocument/didChange","params":{"textDocument":{"uri":"u"},"contentChanges":[1]}}"#,
        "logMessage",
    ),
    (
        r#"{"method":"textDocument/didChange","params":{"textDocument":{"uri":"u"},"contentChanges":[{}]}}"#,
        "logMessage",
    ),
    (
        r#"{"method":"textDocument/didChange","params":{"textDocument":{"uri":"u"},"contentChanges":[{"text":null}]}}"#,
        "logMessage",
    ),
];

/// The effect of a change on a document: the text after it.
enum Effect {
    /// The text equals the client's.
    Exact(&'static str),
    /// The text differs from the client's in lone surrogates, and is not formatted.
    Inexact(&'static str),
    /// The text is unchanged and not formatted, and the error is logged.
    Rejected,
}

/// Changes of the open document `u`.
const CHANGES: &[(&str, Effect)] = &[
    (r#"{"range":null,"text":"b"}"#, Exact("b")),
    // Ranges that end before they begin, or lie outside of the text.
    (
        r#"{"range":{"start":{"line":0,"character":6},"end":{"line":0,"character":5}},"text":"b"}"#,
        Exact(";;\u{1f600} b\n(;\u{e9};)\n"),
    ),
    (
        r#"{"range":{"start":{"line":1,"character":0},"end":{"line":0,"character":0}},"text":""}"#,
        Exact("(;\u{e9};)\n"),
    ),
    (
        r#"{"range":{"start":{"line":0,"character":99},"end":{"line":1,"character":0}},"text":""}"#,
        Exact(";;\u{1f600} a(;\u{e9};)\n"),
    ),
    (
        r#"{"range":{"start":{"line":3,"character":0},"end":{"line":4,"character":4}},"text":"b"}"#,
        Exact(";;\u{1f600} a\n(;\u{e9};)\nb"),
    ),
    (
        r#"{"range":{"start":{"line":18446744073709551615,"character":18446744073709551615},
        "end":{"line":0,"character":18446744073709551615}},"text":""}"#,
        Exact(";;\u{1f600} a"),
    ),
    // Positions that are not two nonnegative integers.
    (r#"{"range":{},"text":"b"}"#, Rejected),
    (r#"{"range":[0,1],"text":"b"}"#, Rejected),
    (
        r#"{"range":{"start":{"line":-1,"character":0},"end":{"line":0,"character":0}},"text":"b"}"#,
        Rejected,
    ),
    (
        r#"{"range":{"start":{"line":0,"character":0.5},"end":{"line":0,"character":1}},"text":"b"}"#,
        Rejected,
    ),
    (
        r#"{"range":{"start":{"line":0,"character":0},"end":{"line":"0","character":0}},"text":"b"}"#,
        Rejected,
    ),
    (
        r#"{"range":{"start":{"line":0,"character":0},"end":{"line":18446744073709551616,"character":0}},"text":"b"}"#,
        Rejected,
    ),
    // Lone surrogates.
    (r#"{"text":";;\ud800"}"#, Inexact(";;\u{fffd}")),
    (
        r#"{"text":";;\udc00\ud800"}"#,
        Inexact(";;\u{fffd}\u{fffd}"),
    ),
    (
        r#"{"text":";;\ud83d\ude00\ud800"}"#,
        Inexact(";;\u{1f600}\u{fffd}"),
    ),
    (
        r#"{"text":";;\ud800\ud83d\ude00\n;;\ud800\u0041\\ud800"}"#,
        Inexact(";;\u{fffd}\u{1f600}\n;;\u{fffd}A\\ud800"),
    ),
    (
        r#"{"range":{"start":{"line":0,"character":3},"end":{"line":0,"character":4}},"text":""}"#,
        Inexact(";;\u{fffd} a\n(;\u{e9};)\n"),
    ),
    // The halves of a pair, each in a change.
    (
        r#"{"range":{"start":{"line":1,"character":2},"end":{"line":1,"character":2}},"text":"\ud83d"},
        {"range":{"start":{"line":1,"character":3},"end":{"line":1,"character":3}},"text":"\ude00"}"#,
        Inexact(";;\u{1f600} a\n(;\u{fffd}\u{fffd}\u{e9};)\n"),
    ),
];

/// Headers, in which `{}` is the length of the body of a request. Each precedes that body.
const HEADERS: &[&str] = &[
    "content-length: {}\r\n\r\n",
    "CONTENT-LENGTH:{}\r\n\r\n",
    "Content-Length :\t {} \t\r\n\r\n",
    "Content-Length: {}\n\n",
    "\r\n\r\nContent-Length: {}\r\n\r\n",
    "Content-Type: application/vscode-jsonrpc; charset=utf-8\r\nContent-Length: {}\r\n\r\n",
    "Content-Length: {}\r\nX-Unknown\r\nX-Other: Content-Length\r\n\r\n",
    "Content-Length: 5\r\nContent-Length: {}\r\n\r\n",
];

/// Headers that are errors, with the bytes after them.
const BAD_HEADERS: &[&[u8]] = &[
    b"\xff\xfe: 5\r\n\r\n{}",
    b"nonsense\r\n\r\n",
    b"Content-Type: text\r\n\r\n{}",
    b"Content-Length\r\n\r\n{}",
    b"Content-Length:\r\n\r\n{}",
    b"Content-Length: x\r\n\r\n{}",
    b"Content-Length: \xff\r\n\r\n{}",
    b"Content-Length: -2\r\n\r\n{}",
    b"Content-Length: 2.0\r\n\r\n{}",
    b"Content-Length: 0x2\r\n\r\n{}",
    b"Content-Length: 67108865\r\n\r\n{}",
    b"Content-Length: 70368744177664\r\n\r\n{}",
    b"Content-Length: 9223372036854775808\r\n\r\n{}",
    b"Content-Length: 18446744073709551615\r\n\r\n{}",
    b"Content-Length: 99999999999999999999999999\r\n\r\n{}",
    // The rest of the body precedes the next header.
    b"Content-Length: 0\r\n\r\n{}",
    b"Content-Length: 1\r\n\r\n{\"method\":\"exit\"}",
    b"Content-Length: 20\r\n\r\n{\"method\":\"\xff\"      }",
];

/// Asserts that an error, or an entry of the log, says something.
fn assert_has_text(message: &Value) {
    let is_entry = message["method"] == "window/logMessage";
    let entry = &message[if is_entry { "params" } else { "error" }];
    if is_entry || entry.is_object() {
        let text = entry["message"].as_str().unwrap();
        assert!(!text.is_empty() && !text.ends_with(": "), "{message}");
        assert!(!is_entry || entry["type"] == 1, "{message}");
    }
}

/// Returns the kind of a message of the server: the code of an error, the name of a notification, or `result`.
fn kind_of(message: &Value) -> String {
    assert_has_text(message);
    let method = message["method"]
        .as_str()
        .and_then(|it| it.rsplit('/').next());
    let code = message["error"].get("code").map(Value::to_string);
    code.or(method.map(str::to_owned))
        .unwrap_or("result".to_owned())
}

/// Sends bytes after `initialize` and the opening of a document. Returns the kinds of the server's messages, without that of the last one, which must
/// be the response to a later request.
fn kinds_after(input: &[u8]) -> Vec<String> {
    let (open, last) = (
        opened(TEXT),
        request("last", "textDocument/foldingRange", &json!({})),
    );
    let mut bodies =
        responses_when_initialized(&[open.as_bytes(), input, last.as_bytes()].concat());
    let last = bodies.pop().map(|it| it["id"].clone());
    assert_eq!(last, Some(json!("last")), "{}", input.escape_ascii());
    bodies[1..].iter().map(kind_of).collect()
}

fn assert_kinds(input: &[u8], wanted: &str) {
    let shown = &input[..input.len().min(300)];
    assert_eq!(
        kinds_after(input).join(" "),
        wanted,
        "{}",
        shown.escape_ascii()
    );
}

#[test]
fn no_body_ends_the_server() {
    for (body, wanted) in BODIES {
        assert_kinds(message(body).as_bytes(), wanted);
    }
}

#[test]
fn no_depth_ends_the_server() {
    for depth in [200, 1_000_000] {
        for part in ["[", "{\"a\":"] {
            assert_kinds(message(&part.repeat(depth)).as_bytes(), "-32700");
        }
        let closed = format!("{}{}", "[".repeat(depth), "]".repeat(depth));
        assert_kinds(message(&closed).as_bytes(), "-32700");
    }
}

#[test]
fn no_header_ends_the_server() {
    let body = r#"{"id":1,"method":"nonsense"}"#;
    for header in HEADERS {
        let header = header.replace("{}", &body.len().to_string());
        assert_kinds((header + body).as_bytes(), "-32601");
    }
    // The name of the header begins in one part of a long line, and ends in the next.
    let long = format!("{}Content-Length: {}", "x".repeat(4_091), body.len());
    assert_kinds(format!("{long}\r\n\r\n{body}").as_bytes(), "-32601");
    for input in BAD_HEADERS {
        assert_kinds(input, "-32700");
    }
    // A length that reaches into the next message.
    let input = b"Content-Length: 9\r\n\r\n{}Content-Length: 2\r\n\r\n{}";
    assert_kinds(input, "-32700 -32700");
    assert_kinds(&b"x".repeat(10_000_000), "");
    let input = [&b"x".repeat(10_000_000)[..], b"\n\n"].concat();
    assert_kinds(&input, "-32700");
    assert_kinds(&b"\r\n".repeat(1_000_000), "");
}

#[test]
fn no_change_ends_the_server() {
    for (changes, effect) in CHANGES {
        let (text, kind, is_formatted) = match effect {
            Exact(text) => (*text, "publishDiagnostics", true),
            Inexact(text) => (*text, "publishDiagnostics", false),
            Rejected => (TEXT, "logMessage", false),
        };
        let params = format!(r#"{{"textDocument":{{"uri":"u"}},"contentChanges":[{changes}]}}"#);
        let change = format!(r#"{{"method":"textDocument/didChange","params":{params}}}"#);
        let change = message(&change);
        assert_kinds(change.as_bytes(), kind);
        let bodies = responses_when_initialized((opened(TEXT) + &change + &asked()).as_bytes());
        let fresh = responses_when_initialized((opened(text) + &asked()).as_bytes());
        // Semantic tokens and folding ranges, then the formatted text.
        assert_eq!(bodies[2..4], fresh[1..3], "{changes}");
        let is_same = bodies[4] == fresh[3];
        assert!(is_same || !is_formatted, "{changes}");
        assert!(is_formatted || bodies[4]["result"].is_null(), "{changes}");
    }
}

#[test]
fn a_lost_message_ends_formatting_until_the_whole_text_is_sent() {
    let lost = message("{");
    let whole = r#"{"method":"textDocument/didChange","params":{"textDocument":{"uri":"u"},"contentChanges":[{"text":"( b )"}]}}"#;
    let sent = [
        opened("( a )"),
        asked(),
        lost,
        asked(),
        message(whole),
        asked(),
    ]
    .concat();
    let bodies = responses_when_initialized(sent.as_bytes());
    let edits: Vec<_> = bodies
        .iter()
        .filter_map(|it| it["result"][0]["newText"].as_str())
        .collect();
    assert_eq!(edits, ["(a)\n", "(b)\n"]);
}
