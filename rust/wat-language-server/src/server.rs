//! The server's responses to messages of the Language Server Protocol.

use crate::completion::completion;
use crate::definitions::{definition, highlights, references, rename};
use crate::diagnostics::diagnostics;
use crate::document::OpenDocument;
use crate::hover::hover;
use crate::messages::{self, Error, Message};
use crate::semantic_tokens::{TOKEN_TYPES, folding_ranges, semantic_tokens};
use crate::symbols::document_symbols;
use serde_json::{Value, json};
use std::collections::HashMap;
use std::io::{self, BufRead, Write};
use std::path::Path;

/// Responds to messages until `exit` or the end of the input. Returns `true` if the client sent `shutdown` before. No message ends the server: it
/// responds to a malformed one with an error, and logs a notification that it cannot handle.
///
/// # Errors
///
/// Returns an error if a read or write fails.
pub fn serve(mut input: impl BufRead, output: impl Write) -> io::Result<bool> {
    let mut server = Server {
        output,
        documents: HashMap::new(),
        phase: Phase::Starting,
    };
    while let Some(message) = messages::read(&mut input)? {
        match message {
            Ok(message) if is_exit(&message.json) => break,
            Ok(message) => server.handle(&message)?,
            Err(error) => server.report_lost(&error)?,
        }
    }
    Ok(server.phase == Phase::ShutDown)
}

fn is_exit(message: &Value) -> bool {
    message["method"] == "exit" && message.get("id").is_none()
}

/// The phase of a session.
#[derive(Clone, Copy, PartialEq, Eq)]
enum Phase {
    /// Before `initialize`.
    Starting,
    Running,
    /// After `shutdown`.
    ShutDown,
}

/// A connection to a client, and the state of the server.
struct Server<W> {
    output: W,
    /// The open documents, by their URIs.
    documents: HashMap<String, OpenDocument>,
    phase: Phase,
}

impl<W: Write> Server<W> {
    fn send(&mut self, message: Value) -> io::Result<()> {
        messages::write(&mut self.output, message)
    }

    fn send_error(&mut self, id: &Value, error: &Error) -> io::Result<()> {
        let error = json!({ "code": error.code, "message": error.message });
        self.send(json!({ "id": id, "error": error }))
    }

    /// Sends the error of a message that could not be read. It may have been a change of any document.
    fn report_lost(&mut self, error: &Error) -> io::Result<()> {
        let documents = self.documents.values_mut();
        documents.for_each(OpenDocument::lose_change);
        self.send_error(&Value::Null, error)
    }

    /// Responds to a request, or handles a notification, which has no `id`. Ignores responses, because the server sends no requests.
    fn handle(&mut self, message: &Message) -> io::Result<()> {
        let json = &message.json;
        let params = &json["params"];
        match (json["method"].as_str(), json.get("id")) {
            (Some(method), None) => self.handle_notification(method, params, message.is_lossy),
            (Some(method), Some(id)) if id.is_number() || id.is_string() => {
                match self.result(method, params) {
                    Ok(result) => self.send(json!({ "id": id, "result": result })),
                    Err(error) => self.send_error(id, &error),
                }
            }
            (None, Some(_)) if json.get("result").or(json.get("error")).is_some() => Ok(()),
            _ => {
                let error = Error::invalid_request("neither a request nor a notification");
                self.send_error(&Value::Null, &error)
            }
        }
    }

    /// Returns the result of a request.
    fn result(&mut self, method: &str, params: &Value) -> Result<Value, Error> {
        match (self.phase, method) {
            (Phase::Starting, "initialize") => {
                self.phase = Phase::Running;
                Ok(capabilities())
            }
            (Phase::Starting, _) => Err(Error::not_initialized()),
            (Phase::Running, "shutdown") => {
                self.phase = Phase::ShutDown;
                Ok(Value::Null)
            }
            (Phase::ShutDown, _) => Err(Error::invalid_request("a request after `shutdown`")),
            (Phase::Running, "initialize") => Err(Error::invalid_request("a second `initialize`")),
            (Phase::Running, _) => self.document_result(method, params),
        }
    }

    /// Returns the result of a request about a document, which is `null` if the document is not open, or if the position is malformed.
    fn document_result(&self, method: &str, params: &Value) -> Result<Value, Error> {
        let result = match method {
            "textDocument/completion" => completion,
            "textDocument/definition" => definition,
            "textDocument/documentHighlight" => highlights,
            "textDocument/documentSymbol" => document_symbols,
            "textDocument/foldingRange" => folding_ranges,
            "textDocument/formatting" => OpenDocument::formatting,
            "textDocument/hover" => hover,
            "textDocument/references" => references,
            "textDocument/rename" => rename,
            "textDocument/semanticTokens/full" => semantic_tokens,
            _ => return Err(Error::method_not_found()),
        };
        let uri = params["textDocument"]["uri"].as_str();
        let document = uri.and_then(|uri| self.documents.get(uri));
        Ok(document.map_or(Value::Null, |document| result(document, params)))
    }

    /// Handles a notification: updates a document and sends its errors. Ignores other notifications, and all before `initialize`.
    fn handle_notification(
        &mut self,
        method: &str,
        params: &Value,
        is_lossy: bool,
    ) -> io::Result<()> {
        let update = match method {
            _ if self.phase != Phase::Running => return Ok(()),
            "textDocument/didOpen" => Self::open,
            "textDocument/didChange" => Self::change,
            "textDocument/didClose" => Self::close,
            _ => return Ok(()),
        };
        let uri = params["textDocument"]["uri"].as_str();
        let result = uri.ok_or_else(|| "no URI".to_owned());
        match result.and_then(|uri| update(self, uri, params, is_lossy).map(|()| uri)) {
            Ok(uri) => self.publish(uri),
            Err(message) => self.log(&format!("{method}: {message}")),
        }
    }

    fn open(&mut self, uri: &str, params: &Value, is_lossy: bool) -> Result<(), String> {
        let text = params["textDocument"]["text"].as_str().ok_or("no text")?;
        let is_script = params["textDocument"]["languageId"] == "wast"
            || Path::new(uri).extension().is_some_and(|it| it == "wast");
        let document = OpenDocument::new(text, is_script, is_lossy)?;
        self.documents.insert(uri.to_owned(), document);
        Ok(())
    }

    fn change(&mut self, uri: &str, params: &Value, is_lossy: bool) -> Result<(), String> {
        let document = self
            .documents
            .get_mut(uri)
            .ok_or("the document is not open")?;
        let changes = params["contentChanges"].as_array().ok_or("no changes")?;
        document.apply(changes, is_lossy)
    }

    fn close(&mut self, uri: &str, _: &Value, _: bool) -> Result<(), String> {
        self.documents
            .remove(uri)
            .map(drop)
            .ok_or_else(|| "the document is not open".to_owned())
    }

    /// Sends the errors of a document, or an empty list if it is closed.
    fn publish(&mut self, uri: &str) -> io::Result<()> {
        let document = self.documents.get(uri);
        let diagnostics = document.map_or(json!([]), diagnostics);
        let params = json!({ "uri": uri, "diagnostics": diagnostics });
        self.send(json!({ "method": "textDocument/publishDiagnostics", "params": params }))
    }

    /// Sends an error for the client's log.
    fn log(&mut self, message: &str) -> io::Result<()> {
        let params = json!({ "type": 1, "message": message });
        self.send(json!({ "method": "window/logMessage", "params": params }))
    }
}

/// Returns the result of `initialize`: positions count UTF-16 code units, changes are incremental, and a semantic token's type is an index into
/// `tokenTypes`.
fn capabilities() -> Value {
    let legend = json!({ "tokenTypes": TOKEN_TYPES, "tokenModifiers": [] });
    json!({ "capabilities": {
        "positionEncoding": "utf-16",
        "textDocumentSync": 2,
        "completionProvider": { "triggerCharacters": ["(", "$", "."] },
        "definitionProvider": true,
        "documentFormattingProvider": true,
        "documentHighlightProvider": true,
        "documentSymbolProvider": true,
        "foldingRangeProvider": true,
        "hoverProvider": true,
        "referencesProvider": true,
        "renameProvider": true,
        "semanticTokensProvider": { "legend": legend, "full": true },
    }})
}
