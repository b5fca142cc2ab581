//! Tests of the language server: a golden session of the program with a client; messages that no client should send, after each of which the server
//! responds to the next request; random changes, after each of which the server must respond as for a document that was opened with the changed text;
//! and tables of texts for each request.

mod completions;
mod diagnostics;
mod hostile;
mod hostile_requests;
mod hovers;
mod instructions;
mod marked;
mod navigation;
mod symbols;
mod syntax;

use serde_json::{Value, json};
use std::io::Write;
use std::process::{Command, Stdio};

/// A session: the bodies of the client's messages after `>`, and those of the server's after `<`.
const SESSION: &str = include_str!("session.txt");

/// Returns a message with its header.
fn message(body: &str) -> String {
    format!("Content-Length: {}\r\n\r\n{body}", body.len())
}

fn notification(method: &str, params: &Value) -> String {
    message(&json!({ "method": method, "params": params }).to_string())
}

fn request(id: &str, method: &str, params: &Value) -> String {
    message(&json!({ "id": id, "method": method, "params": params }).to_string())
}

/// Returns the server's messages, and `true` if the client sent `shutdown`.
fn responses(input: &[u8]) -> (Vec<Value>, bool) {
    let mut output = Vec::new();
    let has_shut_down = wat_language_server::serve(input, &mut output).unwrap();
    (bodies(output), has_shut_down)
}

/// Returns the messages of the program, and `true` if its status is 0.
fn responses_of_program(input: &[u8]) -> (Vec<Value>, bool) {
    let mut program = Command::new(env!("CARGO_BIN_EXE_wat_language_server"))
        .stdin(Stdio::piped())
        .stdout(Stdio::piped())
        .spawn()
        .unwrap();
    program.stdin.take().unwrap().write_all(input).unwrap();
    let ended = program.wait_with_output().unwrap();
    (bodies(ended.stdout), ended.status.success())
}

fn bodies(output: Vec<u8>) -> Vec<Value> {
    let (output, mut bodies) = (String::from_utf8(output).unwrap(), Vec::new());
    let mut rest = output.as_str();
    while let Some((head, after)) = rest.split_once("\r\n\r\n") {
        let length = head.strip_prefix("Content-Length: ").unwrap();
        let (body, next) = after.split_at(length.parse().unwrap());
        bodies.push(serde_json::from_str(body).unwrap());
        rest = next;
    }
    bodies
}

/// Returns the server's messages after its response to `initialize`.
fn responses_when_initialized(input: &[u8]) -> Vec<Value> {
    let start = request("start", "initialize", &json!({}));
    let mut bodies = responses(&[start.as_bytes(), input].concat()).0;
    assert_eq!(bodies.remove(0)["id"], "start");
    bodies
}

#[test]
fn a_session_has_the_golden_responses() {
    let side = |mark: &str| {
        let lines = SESSION.lines();
        lines
            .filter_map(|line| line.strip_prefix(mark))
            .collect::<Vec<_>>()
    };
    let sent: String = side("> ").into_iter().map(message).collect();
    let (bodies, has_shut_down) = responses_of_program(sent.as_bytes());
    for (body, wanted) in bodies.iter().zip(side("< ")) {
        assert_eq!(*body, serde_json::from_str::<Value>(wanted).unwrap());
    }
    assert_eq!((bodies.len(), has_shut_down), (side("< ").len(), true));
}

#[test]
fn requests_are_errors_before_initialize_and_after_shutdown() {
    let open = opened("(a)");
    let fold = || request("f", "textDocument/foldingRange", &json!({}));
    let start = || request("start", "initialize", &json!({}));
    let stop = || request("stop", "shutdown", &Value::Null);
    let sent = [
        fold(),
        stop(),
        open,
        start(),
        start(),
        asked(),
        stop(),
        stop(),
        fold(),
    ]
    .concat();
    let (bodies, has_shut_down) = responses(sent.as_bytes());
    let codes: Vec<_> = bodies
        .iter()
        .map(|it| it["error"]["code"].as_i64())
        .collect();
    let (early, late) = (Some(-32002), Some(-32600));
    assert_eq!(
        codes,
        [early, early, None, late, None, None, None, None, late, late]
    );
    // The document was opened too early.
    assert!(bodies[4..7].iter().all(|it| it["result"].is_null()));
    assert!(has_shut_down);
}

#[test]
fn a_session_ends_with_its_input() {
    for input in ["", "Content-Length: 9", "Content-Length: 9\r\n\r\n{}"] {
        assert_eq!(responses(input.as_bytes()), (vec![], false), "{input}");
    }
    let exit = notification("exit", &Value::Null);
    let after = request("1", "initialize", &json!({}));
    assert_eq!(responses((exit + &after).as_bytes()), (vec![], false));
}

#[test]
fn diagnostics_are_limited() {
    let most = wat_language_server::MOST_DIAGNOSTICS;
    for (faults, wanted) in [(most - 1, most - 1), (most, most), (most + 1, most)] {
        let bodies = responses_when_initialized(opened(&"é ".repeat(faults)).as_bytes());
        let sent = bodies[0]["params"]["diagnostics"].as_array().unwrap();
        assert_eq!(sent.len(), wanted);
    }
}

/// A generator of pseudorandom numbers, a linear congruential one.
struct Random(u64);

impl Random {
    fn below(&mut self, count: usize) -> usize {
        self.0 = self
            .0
            .wrapping_mul(6_364_136_223_846_793_005)
            .wrapping_add(1);
        (self.0 >> 33) as usize % count
    }

    fn text(&mut self) -> String {
        const PARTS: [&str; 14] = [
            "(",
            ")",
            "(;",
            ";)",
            ";; é",
            "\"",
            "\n",
            "\r\n",
            " ",
            "a",
            "$\u{1f600}",
            "1",
            "漢",
            "@x",
        ];
        let count = self.below(6);
        (0..count).map(|_| PARTS[self.below(PARTS.len())]).collect()
    }
}

fn opened(text: &str) -> String {
    let params = json!({ "textDocument": { "uri": "u", "text": text } });
    notification("textDocument/didOpen", &params)
}

/// Returns a notification of one change of a range, whose ends are counted in UTF-16 code units of the text.
fn changed(text: &[u16], [start, end]: [usize; 2], with: &str) -> String {
    let position = |end: usize| {
        let mut lines = text[..end].rsplit(|unit| *unit == u16::from(b'\n'));
        let column = lines.next().unwrap().len();
        json!({ "line": lines.count(), "character": column })
    };
    let range = json!({ "start": position(start), "end": position(end) });
    let params = json!({ "textDocument": { "uri": "u" }, "contentChanges": [{ "range": range, "text": with }] });
    notification("textDocument/didChange", &params)
}

/// Returns the requests whose results depend on the text of a document.
fn asked() -> String {
    let document = json!({ "textDocument": { "uri": "u" } });
    ["semanticTokens/full", "foldingRange", "formatting"]
        .map(|method| request("1", &format!("textDocument/{method}"), &document))
        .concat()
}

/// Compares the responses after each of 500 random changes with those for an opened document. `is_boundary` returns `true` if a change can begin or
/// end at an offset in UTF-16 code units.
fn compare_changed(
    is_boundary: impl Fn(&[u16], usize) -> bool,
    is_compared: impl Fn(&Value) -> bool,
) {
    let (mut random, mut text) = (Random(1), Vec::new());
    let (mut session, mut fresh) = (opened(""), Vec::new());
    for _ in 0..500 {
        let boundaries: Vec<_> = (0..=text.len())
            .filter(|at| is_boundary(&text, *at))
            .collect();
        let (first, with) = (random.below(boundaries.len()), random.text());
        let last = (boundaries.len() - 1).min(first + random.below(4));
        let range = [boundaries[first], boundaries[last]];
        session += &(changed(&text, range, &with) + &asked());
        let parts = [
            &text[..range[0]],
            &with.encode_utf16().collect::<Vec<_>>(),
            &text[range[1]..],
        ];
        let whole = parts.map(String::from_utf16_lossy).concat();
        fresh.extend(responses_when_initialized(
            (opened(&whole) + &asked()).as_bytes(),
        ));
        text = whole.encode_utf16().collect();
    }
    let bodies = responses_when_initialized(session.as_bytes());
    assert_eq!(bodies.len(), fresh.len() + 1);
    for (body, wanted) in bodies[1..].iter().zip(&fresh) {
        assert!(body == wanted || !is_compared(wanted), "{body} {wanted}");
    }
    assert!(text.len() > 100);
}

#[test]
fn a_changed_document_is_as_one_that_is_opened() {
    let is_second = |unit: &u16| (0xdc00..0xe000).contains(unit);
    compare_changed(|text, at| !text.get(at).is_some_and(is_second), |_| true);
}

#[test]
fn a_change_within_a_surrogate_pair_leaves_the_other_half() {
    // A document whose text may differ from the client's is not formatted.
    let is_formatted = |body: &Value| body["result"][0].get("newText").is_some();
    compare_changed(|_, _| true, |body| !is_formatted(body));
}
