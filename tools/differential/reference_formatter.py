#!/usr/bin/env python3
"""Formats a source text as crates/wat_format/specs/Layout.antt specifies: a second implementation, with its own lexer, for comparison with the crate.

`tools/differential/reference_formatter.py < TEXT` writes the formatted text, and exits with status 1 if the text has a lexical error.
"""
import re
import sys

HEX = "[0-9a-fA-F]"
ESCAPE = rf"\\(?:[tnr\"'\\]|{HEX}{HEX}|u\{{(?P<number>{HEX}[{HEX[1:-1]}_]*)\}})"
CONFUSING = "\u202a\u202b\u202d\u202e\u2066\u2067\u2068\u2069\u206c"
ELEMENT = re.compile(rf"[^\x00-\x1f\x7f\"\\{CONFUSING}]|{ESCAPE}")
IDCHARS = re.compile(r"[0-9A-Za-z!#$%&'*+\-./:<=>?@\\^_`|~]+")
WHITE = re.compile(r"[ \n\r\t]+")
LINE_COMMENT = re.compile(r";;[^\n\r]*")
MOST = 50
BLOCK_WORDS = {"block": "begins", "loop": "begins", "if": "begins", "try": "begins", "try_table": "begins"}
BLOCK_WORDS.update({"end": "ends", "delegate": "ends", "else": "parts", "catch": "parts", "catch_all": "parts"})


class Fault(Exception):
    """A lexical error of the text."""


def string_end(text, at):
    """Returns the index after the string whose opening quote is at `at`. Raises `Fault` if the string is invalid or not terminated."""
    at += 1
    while at < len(text) and text[at] != '"':
        element = ELEMENT.match(text, at)
        if element is None:
            raise Fault
        number = element["number"]
        if number is not None:
            value = int(number.replace("_", ""), 16)
            if number.endswith("_") or value > 0x10FFFF or 0xD800 <= value < 0xE000:
                raise Fault
        at = element.end()
    if at == len(text):
        raise Fault
    return at + 1


def block_comment_end(text, at):
    """Returns the index after the block comment that begins at `at`. Raises `Fault` if it is not terminated."""
    depth = 0
    while True:
        if text.startswith("(;", at):
            depth, at = depth + 1, at + 2
        elif text.startswith(";)", at):
            depth, at = depth - 1, at + 2
            if depth == 0:
                return at
        elif at >= len(text):
            raise Fault
        else:
            at += 1


def run_end(text, at):
    """Returns the index after a run of idchars and strings."""
    while at < len(text):
        word = IDCHARS.match(text, at)
        if word is not None:
            at = word.end()
        elif text[at] == '"':
            at = string_end(text, at)
        else:
            break
    return at


def raw_tokens(text):
    """Returns the raw tokens of a text, each as its kind and its text. Raises `Fault` at a lexical error."""
    at, tokens = 0, []
    while at < len(text):
        start, first = at, text[at]
        white = WHITE.match(text, at)
        comment = LINE_COMMENT.match(text, at)
        if white is not None:
            kind, at = "white", white.end()
        elif comment is not None:
            kind, at = "comment", comment.end()
        elif text.startswith("(;", at):
            kind, at = "other", block_comment_end(text, at)
        elif first in "()":
            kind, at = first, at + 1
        elif first in ",;[]{}":
            kind, at = "mark", at + 1
        else:
            at = run_end(text, at)
            kind = "at" if first == "@" else "word"
        if at == start:
            raise Fault
        word = text[start:at]
        if kind in ("comment", "other") and any(c in CONFUSING for c in word):
            raise Fault
        tokens.append((kind, word))
    return tokens


def gap_of(white):
    """Classifies whitespace between two tokens: its length in characters if it has no line end, `end` for one line end, `empty` for more."""
    ends = len(re.findall(r"\r\n|\r|\n", white))
    if ends > 1:
        return "empty"
    return "end" if ends == 1 else len(white)


def settled(before, kind, gap):
    """Returns the gap that is written between two tokens, given the kinds of both and the gap of the input."""
    is_break = gap in ("end", "empty")
    kept = 0 if gap == 0 else 1
    if before == "comment":
        return "end" if kind == ")" else gap
    if kind == "comment":
        return 1 if gap == 0 or (before == "(" and is_break) else gap
    if before == "(":
        return kept if kind in ("mark", "at") else 0
    if is_break:
        return "end" if kind == ")" else gap
    if "mark" in (before, kind):
        return kept
    return 0 if kind == ")" else 1


def layout(text):
    """Returns the formatted text. Raises `Fault` at a lexical error."""
    out, before, white = [], None, ""
    line, floor, blocks, around = 0, 0, 0, []
    for kind, word in raw_tokens(text):
        if kind == "white":
            white = word
            continue
        part = BLOCK_WORDS.get(word) if kind == "word" and before != "(" else None
        level = floor + blocks
        if kind == ")":
            level = max(floor - 1, 0)
        elif part in ("ends", "parts"):
            level = floor + max(blocks - 1, 0)
        gap = 0 if before is None else settled(before, kind, gap_of(white))
        if gap in ("end", "empty"):
            line = level
            out.append(("\n\n" if gap == "empty" else "\n") + "  " * min(line, MOST))
        else:
            out.append(" " * gap)
        out.append(word)
        if kind == "(":
            around.append((floor, blocks))
            floor, blocks = line + 1, 0
        elif kind == ")" and around:
            floor, blocks = around.pop()
        elif part == "begins":
            blocks += 1
        elif part == "ends":
            blocks = max(blocks - 1, 0)
        before, white = kind, ""
    return "".join(out) + ("\n" if out else "")


def main():
    """Formats standard input."""
    text = sys.stdin.buffer.read().decode()
    try:
        sys.stdout.buffer.write(layout(text).encode())
    except Fault:
        sys.exit(1)


if __name__ == "__main__":
    main()
