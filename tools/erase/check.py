#!/usr/bin/env python3
"""Checks the output of tools/erase/erase.py by independent means: it walks over the tokens of a source and of the file that is generated from it in
parallel, and explains each difference by a rule of docs/erasure.md. A difference that no rule explains is a fault. It has its own scanner and its own
list, and uses from the tool only the output to check and the names of the files.

usage: tools/erase/check.py               checks the tool's current output for each source
       tools/erase/check.py --committed   also checks the committed files: each is the tool's current output, and is explained
       tools/erase/check.py --self-test   checks that faults seeded into the tool's output, and into the tool, are reported
"""
import collections
import pathlib
import re
import shutil
import sys

import erase

Token = collections.namedtuple("Token", "kind text line")
CLOSERS = {"(": ")", "[": "]", "{": "}"}
# A comma before one of these is a matter of formatting.
CLOSING = (")", "]", "}", ">")
# A parenthesis after one of these does not begin a call.
NO_CALLS = ("as", "break", "else", "if", "in", "let", "match", "mut", "ref", "return", "while")
SAME_IN_CORE = ("cmp", "fmt", "hash", "marker", "mem", "result", "str", "{")
# Modules of `std` that `core` does not have: the sources of the formatter and of the program use them.
STREAMS = ("env", "fs", "io", "os", "path", "process", "rt")

# The closed list of rewritten tokens: those of the source, and those that must replace them.
WRITTEN = [
    *((f"std::{name}", f"SHIM::{name}") for name in ("alloc", "borrow", "collections", "simd")),
    *((f"std::{name}", f"STD::{name}") for name in SAME_IN_CORE + STREAMS),
    ("fast_float::", "SHIM::fast_float::"),
    ("itoa::", "SHIM::itoa::"),
    ("BY_SHUFFLE: bool = true", "BY_SHUFFLE: bool = SHIM::simd::HAS_SHUFFLE"),
    ("smallvec::", "SHIM::smallvec::"),
    ("unicode_width::", "SHIM::unicode_width::"),
    ("vec![in", "try_vec!["),
    ("format!(in", "try_format!("),
    ("<W: fmt::Write>", ""),
    ("fmt::Formatter<W>", "fmt::Formatter<'_>"),
    (".join(alloc,", ".join_in(alloc,"),
    (".kind.clone()?", ".kind.clone()"),
    ("pub(crate) offset: usize", "#[doc(hidden)] pub offset: usize"),
    ("fn main(rt:", "pub fn main(rt:"),
    ("let text = unsafe { str::from_utf8_unchecked(text) };", "// SAFETY: rule 2 of wat.h.\nlet text = unsafe { str::from_utf8_unchecked(text) };"),
    # Tokens that are erased.
    ("#[cfg(test)] mod tests;", ""),
    ("use std::marker::Model;", ""),
    ("+ Drop", ""),
    (": Drop,", ","),
    (": Drop>", ">"),
]
# The path of each crate for the other crates, and for itself.
PLACES = {
    "wat_lex": ("wat_lex::proved", "crate::proved"),
    "wat_words": ("wat_parser::words", "crate::words"),
    "wat_floats": ("wat_parser::floats", "crate::floats"),
    "wat_lexer_parser": ("wat_parser::proved", "crate::proved"),
    "wat_c_records": ("", "crate::rows"),
    "wat_c": ("", "crate::proved"),
    "wat_wasm": ("", "crate::page"),
    "wat_format": ("wat_format::proved", "crate::proved"),
    "wat_tokens_io": ("wat_format::lines", "crate::lines"),
    "wat_tokens_output": ("wat_tokens::lists", "crate::lists"),
    "wat_types": ("wat_modules::types", "crate::types"),
    "wat_tokens_args": ("wat_tokens::options", "crate::options"),
    "wat_tokens_run": ("wat_tokens::commands", "crate::commands"),
    "wat_tokens": ("wat_tokens::program", "crate::program"),
    "wat_module_tokens": ("", "crate::tokens"),
    "wat_module_lexer": ("", "crate::lexer"),
    "wat_module_ast": ("", "crate::ast"),
    "wat_module_instructions": ("", "crate::instructions"),
    "wat_module_parser": ("", "crate::parser"),
    "wat_module_custom": ("", "crate::custom"),
    "wat_module_annotations": ("", "crate::annotations"),
    "wat_module_encoder": ("", "crate::encoder"),
    "wat_valid": ("", "crate::validation"),
    "wat_module_places": ("", "crate::places"),
    "wat_modules": ("wat_modules::proved", "crate::proved"),
    "example_imports": ("", "crate::imports"),
}
# Crates that are compiled together use the same paths for each other as for themselves.
FORMATTER = {"wat_format", "wat_tokens_io"}
PROGRAM = {"wat_tokens_output", "wat_tokens_args", "wat_tokens_run", "wat_tokens"}
MODULES = {
    "wat_module_tokens", "wat_module_lexer", "wat_module_ast", "wat_module_instructions", "wat_module_parser", "wat_module_custom",
    "wat_module_annotations", "wat_module_encoder", "wat_module_places", "wat_valid",
    "wat_modules", "wat_types",
}
TOGETHER = [{"wat_words", "wat_floats", "wat_lexer_parser"}, {"wat_c_records", "wat_c"}, FORMATTER, PROGRAM, MODULES]
# For a function that C calls, with a space between tokens: the parameters for C of a slice, and the statements at the beginning of its body.
PASSED = re.compile(r"(\w+) : \* (const|mut) (\w+) , \1_len : usize")
MADE = re.compile(
    r"// SAFETY: `(?P<slice>\w+)` points to `(?P=slice)_len` values, by rules? 1(?P<buffer> and 5)? of wat\.h\. let (?P=slice) = unsafe "
    r"{ core : : slice : : from_raw_parts(?P<mut>_mut)? \( (?P=slice) , (?P=slice)_len \) } ;|let (?P<handle>\w+) = Global ;"
)

# On some targets a `usize` has 32 bits. An integer above `u32::MAX`, and one that is shifted by 32 bits or more, must have one of these types.
WIDE_TYPES = {"u64", "i64", "u128", "i128"}
INTEGER = re.compile(r"(?P<digits>0[box][0-9A-Fa-f_]+?|[0-9][0-9_]*?)_?(?P<type>[iu](?:8|16|32|64|128|size))?")
OPERATORS = set("<>=!|&^+-*/%")
# The functions with such an integer whose type the tokens before it do not determine, each with the reason why it is wide.
WIDE = {
    ("crates/wat_floats/src/hexadecimal.rt", "with_digit"): "the field `count` is a u64",
    ("crates/wat_floats/src/precision.rt", "exponent_bit"): "it returns a u64",
    ("crates/wat_floats/src/precision.rt", "infinity"): "it returns a u64",
    ("crates/wat_floats/src/precision.rt", "sign_bit"): "it returns a u64",
    ("crates/wat_module_instructions/src/memory.rt", "number_of"): "`magnitude` returns a u64",
    ("crates/wat_module_instructions/src/reading.rt", "index_among"): "the field of `Piece::Integer` is a u64",
    ("crates/wat_module_instructions/src/reading.rt", "number_64"): "the parameter of `integer_range` is a u64",
    ("crates/wat_module_instructions/src/vector_arguments.rt", "add_lane"): "the parameter of `integer` is a u64",
    ("crates/wat_lexer_parser/src/token/integers.rt", "parse"): "the parameter of `parse_signed` is a u64",
    ("crates/wat_c/src/numbers.rt", "half_range"): "it returns a u64",
}


def place(crate, seen_from):
    own = crate == seen_from or any({crate, seen_from} <= some for some in TOGETHER)
    return PLACES[crate][own]


def shim_place(crate):
    return "crate::shim" if crate in {"wat_lex"} | FORMATTER | PROGRAM else "wat_lex::shim"


def std_place(crate):
    """Returns the path of the rest of Rattle's `std`. The shims of the formatter and of the program have all of it."""
    return "crate::shim" if crate in FORMATTER | PROGRAM else "core"


class Fault(Exception):
    pass


def scan(text):
    """Returns the tokens of a text. Each punctuation character is one token."""
    tokens, at, line = [], 0, 1
    while at < len(text):
        end = end_of_token(text, at)
        piece = text[at:end]
        if not piece.isspace():
            tokens.append(Token(kind_of(piece), " ".join(piece.split()) if piece.startswith("//") else piece, line))
        line += piece.count("\n")
        at = end
    return tokens


def kind_of(piece):
    if piece.startswith(("///", "//!")):
        return "doc"
    if piece.startswith("//"):
        return "comment"
    return "word" if piece[0].isalpha() or piece[0] == "_" else "other"


def end_of_token(text, at):
    first = text[at]
    if first.isspace():
        return at + 1
    if text.startswith("//", at):
        return (text + "\n").index("\n", at)
    if first == '"' or text.startswith('b"', at):
        return end_of_quoted(text, text.index('"', at) + 1, '"')
    if first == "'" or text.startswith("b'", at):
        inner = text.index("'", at) + 1
        if text[inner] == "\\" or text[inner + 1 : inner + 2] == "'":
            return end_of_quoted(text, inner, "'")
        at = inner
    end = at
    while end < len(text) and (text[end].isalnum() or text[end] == "_"):
        end += 1
    return max(end, at + 1)


def end_of_quoted(text, at, quote):
    while text[at] != quote:
        at += 2 if text[at] == "\\" else 1
    return at + 1


def contract_lines(text):
    """Returns the lines of a contract, with each run of whitespace as one space."""
    return [" ".join(line.split()) for line in text.split("\n")]


class Walk:
    """A walk over a source and the file that is generated from it, in parallel."""

    def __init__(self, source, made, crate, name):
        self.source, self.made = scan(source), scan(made)
        self.lines = source.split("\n")
        self.crate, self.root, self.shim = crate, place(crate, crate), shim_place(crate)
        self.written = collections.defaultdict(list)
        others = [(f"{other}::", f"{place(other, crate)}::") for other in PLACES]
        for before, after in [*WRITTEN, ("crate::", f"{self.root}::"), *others]:
            before = scan(before)
            self.written[before[0].text].append((before, scan(after.replace("SHIM", self.shim).replace("STD", std_place(crate)))))
        self.name = name
        self.contracts = {}
        self.at = self.there = 0
        self.function = None
        # The index after the statements at the beginning of the body of a function that C calls, by the index of the body.
        self.bodies = {}
        self.unwrapped, self.wrapped = set(), set()
        # For each group that is open in the source: whether a comma at its end is a matter of formatting.
        self.groups = []

    def fault(self, what):
        here = self.source[min(self.at, len(self.source) - 1)]
        there = self.made[min(self.there, len(self.made) - 1)]
        raise Fault(f"{self.name}:{here.line}: {what}: `{here.text}` in the source, `{there.text}` in line {there.line} of what was made")

    def check(self):
        self.take_mark()
        self.take_contracts()
        while self.at < len(self.source) and self.source[self.at].text.startswith("//!"):
            self.equal()
        while self.is_taken_away():
            pass
        self.take_prelude()
        while self.at < len(self.source):
            if not self.is_taken_away() and not self.is_laid_out() and not self.is_written_otherwise() and not self.is_called_by_c():
                self.equal()
        while self.there < len(self.made) and self.made[self.there].text == ",":
            self.fault("a sign too many")
        if self.there != len(self.made):
            self.fault("what was made goes on")
        if self.contracts:
            self.fault("documentation of a contract that is no function's")

    # The three additions of the generated file.

    def take_mark(self):
        if self.made[:1] != [Token("comment", f"// @generated by tools/erase from {self.name}; do not edit.", 1)]:
            self.fault("no mark in the first line")
        self.made = self.made[1:]

    def take_prelude(self):
        wanted = [token.text for token in scan(f"use {self.shim}::prelude::*;")]
        if [token.text for token in self.made[self.there : self.there + len(wanted)]] != wanted:
            self.fault("no import of the shim's prelude")
        self.there += len(wanted)

    def take_contracts(self):
        """Removes each contract from the doc comments, and records it by the index of its function."""
        kept, contract = [], None
        for place, token in enumerate(self.made):
            if contract is not None and token.kind != "doc":
                self.fault("documentation of a contract has no end")
            if token.text == "/// # Proved":
                contract = []
                if kept and kept[-1].text == "///":
                    kept.pop()
            elif contract is None:
                kept.append(token)
            elif token.text == "/// ```":
                self.contracts[self.next_function(len(kept), place)] = contract[2:]
                contract = None
            else:
                contract.append(token.text[3:].strip())
        self.made = kept

    def next_function(self, kept, place):
        for more, token in enumerate(self.made[place + 1 :]):
            if token.text == "fn":
                return kept + more
            if token.text in ("{", ";", "}") or token.text == "/// # Proved":
                break
        self.fault("documentation of a contract before no function")

    # Rules.

    def equal(self):
        here, there = self.source[self.at], self.made[self.there] if self.there < len(self.made) else None
        wanted = here.text
        if here.kind == "doc":
            # The path of a link begins at a crate's root.
            wanted = wanted.replace("](crate::", f"]({self.root}::")
            for crate in PLACES:
                wanted = wanted.replace(f"]({crate}::", f"]({place(crate, self.crate)}::")
        if there is None or (here.kind, wanted) != (there.kind, there.text):
            self.fault("no rule explains the difference")
        if here.text == "fn":
            self.function = self.there
        elif here.text == "{":
            self.function = None
        self.note(self.at)
        self.at += 1
        self.there = self.bodies.pop(self.there + 1, self.there + 1)

    def note(self, at):
        """Tracks open groups. In parentheses that are not those of a call, one comma makes a tuple."""
        text = self.text(at)
        if text in CLOSERS:
            before, last = self.source[max(at - 2, 0)].text, self.source[max(at - 1, 0)]
            is_call = last.kind == "word" and last.text not in NO_CALLS or last.text in (")", "]", "!") or last.text == ">" and before not in "-="
            self.groups.append(text != "(" or is_call)
        elif text in CLOSERS.values():
            self.groups.pop()
        elif text == "," and self.groups:
            self.groups[-1] = True

    def begins(self, tokens, at, wanted):
        return [token.text for token in tokens[at : at + len(wanted)]] == [token.text for token in wanted]

    def text(self, at):
        return self.source[at].text if at < len(self.source) else ""

    def after_group(self, at, tokens=None):
        """Returns the index after a group, in the source if no tokens are given."""
        tokens = self.source if tokens is None else tokens
        open_groups = []
        while True:
            text = tokens[at].text
            if text in CLOSERS:
                open_groups.append(CLOSERS[text])
            elif open_groups and text == open_groups[-1]:
                open_groups.pop()
            elif text in CLOSERS.values():
                self.fault("a bracket that closes none")
            at += 1
            if not open_groups:
                return at

    def is_taken_away(self):
        """Skips an item that is erased. Returns `True` if there is one."""
        if self.at >= len(self.source):
            return False
        rules = (self.documented, self.ghost, self.contract, self.model, self.erased_attribute, self.derive)
        return any(rule() for rule in rules)

    def documented(self):
        """Skips the doc comments of a ghost item or a model, which are in the lines directly before it. Returns `True` if there are any."""
        at = self.at
        while at < len(self.source) and self.source[at].text.startswith("///"):
            at += 1
            if at < len(self.source) and self.source[at].line != self.source[at - 1].line + 1:
                return False
        if at == self.at or at == len(self.source) or not (self.text(at) == "ghost" or self.is_model(at)):
            return False
        self.at = at
        return True

    def ghost(self):
        if self.source[self.at].text != "ghost":
            return False
        while self.text(self.at) not in (";", ","):
            if self.text(self.at)[:1] == '"':
                self.fault("a quote in a ghost item")
            self.at = self.after_group(self.at)
        self.at += 1
        return True

    def clause_end(self, at):
        if self.text(at) not in ("requires", "ensures"):
            return None
        at += 1 + (self.source[at + 1].kind == "word")
        return self.after_group(at) if self.text(at) == "{" else None

    def contract(self):
        """Skips a contract, which must be in the doc comments of its function, except for that of a closure in a function's body.

        Returns `True` if there is a contract.
        """
        begin, end, at = self.at, None, self.at
        while (after := self.clause_end(at)) is not None:
            at = end = after
            while at < len(self.source) and self.source[at].kind == "comment":
                at += 1
        if end is None:
            return False
        lines = self.lines[self.source[begin].line - 1 : self.source[end - 1].line]
        lines[-1] = lines[-1].rstrip().removesuffix(";")
        if self.function is not None and self.contracts.pop(self.function, None) != contract_lines("\n".join(lines)):
            self.fault("the documentation is not the function's contract")
        self.at = end
        return True

    def is_model(self, at):
        if self.text(at) != "impl":
            return False
        at += 1
        if self.text(at) == "<":
            while self.text(at) != ">":
                at += 1
            at += 1
        return self.text(at) == "Model" and self.text(at + 1) == "for"

    def model(self):
        if not self.is_model(self.at):
            return False
        while self.text(self.at) != "{":
            self.at += 1
        self.at = self.after_group(self.at)
        return True

    def attribute(self, name):
        """Returns the indices of the bracket and of the end of an attribute of this name, or `None` if there is none."""
        bracket = self.at + 1 + (self.text(self.at + 1) == "!")
        if self.text(self.at) == "#" and self.text(bracket) == "[" and self.text(bracket + 1) == name:
            return bracket, self.after_group(bracket)
        return None

    def erased_attribute(self):
        found = self.attribute("tactic") or self.attribute("rattlefmt")
        if found:
            self.at = found[1]
        return bool(found)

    def derive(self):
        """Skips a derive, which must have the same names in the same order except `Drop`, or be erased if none is left.

        Returns `True` if there is one.
        """
        found = self.attribute("derive")
        if not found:
            return False
        names = [token.text for token in self.source[found[0] + 3 : found[1]] if token.kind == "word" and token.text != "Drop"]
        wanted = scan(f"#[derive({', '.join(names)})]") if names else []
        if not self.begins(self.made, self.there, wanted):
            self.fault("not the same names in a derive")
        self.at = found[1]
        self.there += len(wanted)
        return True

    def is_written_otherwise(self):
        """Skips an entry of the closed list, whose replacement must be in the generated file. Returns `True` if there is one."""
        rooted = self.at == 0 or self.source[self.at - 1].text != ":"
        for before, after in self.written.get(self.text(self.at), ()):
            if not self.begins(self.source, self.at, before) or before[0].kind == "word" and not rooted:
                continue
            if not self.begins(self.made, self.there, after):
                self.fault("not written as the closed list has it")
            for at in range(self.at, self.at + len(before)):
                self.note(at)
            self.at += len(before)
            self.there += len(after)
            return True
        return False

    def is_called_by_c(self):
        """Skips the signature of a function that C calls. Its parameters for C and the beginning of its body must correspond to its parameters.

        Returns `True` if there is one.
        """
        if [token.text for token in self.source[self.at : self.at + 3]] != ["extern", '"C"', "fn"]:
            return False
        end, wanted = self.parameters(self.source, self.at + 4)
        if "[" in wanted:
            if self.made[self.there].text != "unsafe":
                self.fault("who passes a pointer is not warned")
            self.there += 1
        for _ in range(4):
            self.equal()
        self.there, passed = self.parameters(self.made, self.there)
        self.at = end
        read = PASSED.sub(lambda part: f"{part[1]} : & {'mut ' * (part[2] == 'mut')}[ {part[3]} ]", passed)
        if read != re.sub(r"\w+ : Global( , )?", "", wanted):
            self.fault("what C passes are other parameters")
        if self.read_body() != re.findall(r"(\w+) : (Global|& \[|& mut \[)", wanted):
            self.fault("the body begins with other parameters")
        return True

    def parameters(self, tokens, at):
        """Returns the index after a function's parameters, and their tokens as one string."""
        end = self.after_group(at, tokens)
        return end, " ".join(token.text for token in tokens[at + 1 : end - 1]).removesuffix(" ,")

    def read_body(self):
        """Returns the parameters that are constructed at the beginning of the body after the current position, in the order of the statements."""
        texts = [*(token.text for token in self.made), "{", ";"]
        body = at = texts.index("{", self.there) + 1
        read = []
        while found := MADE.fullmatch(" ".join(texts[at : (end := texts.index(";", at) + 1)])):
            if (found["buffer"] is None) != (found["mut"] is None):
                self.fault("a rule that is not the buffer's")
            read.append((found["handle"], "Global") if found["handle"] else (found["slice"], "& mut [" if found["mut"] else "& ["))
            at = end
        self.bodies[body] = at
        return read

    def is_laid_out(self):
        """Skips a difference of formatting: a comma before a closing bracket, or an arm's braces around one expression.

        Returns `True` if there is one.
        """
        here, there = self.source[self.at].text, self.made[self.there].text if self.there < len(self.made) else ""
        is_layout = not self.groups or self.groups[-1]
        if self.there in self.wrapped and here == ",":
            self.at += 1
            self.there += 1
        elif here == "," and there in CLOSING and self.text(self.at + 1) == there and is_layout:
            self.at += 1
        elif there == "," and here in CLOSING and is_layout and self.there + 1 < len(self.made) and self.made[self.there + 1].text == here:
            self.there += 1
        elif here == "{" != there and self.is_arm(self.source, self.at):
            self.unwrapped.add(self.after_group(self.at) - 1)
            self.at += 1
        elif self.at in self.unwrapped and there == ",":
            self.at += 1 + (self.text(self.at + 1) == ",")
            self.there += 1
        elif there == "{" != here and self.is_arm(self.made, self.there):
            self.wrapped.add(self.after_group(self.there, self.made) - 1)
            self.there += 1
        elif there == ";" and self.there + 1 in self.wrapped:
            self.there += 1
        else:
            return False
        return True

    def is_arm(self, tokens, at):
        """Returns `True` if an arm's braces around one expression are at `at`. They contain no statement, except for the `;` that ends a `return`."""
        if [token.text for token in tokens[at - 2 : at]] != ["=", ">"]:
            return False
        end = self.after_group(at, tokens) - 1
        at += 1
        is_return = tokens[at].text == "return"
        while at < end and tokens[at].text != ";":
            at = self.after_group(at, tokens)
        return at == end - (is_return and tokens[end - 1].text == ";")


def value(text):
    """Returns the value and the suffix of an integer literal; 0 and `None` for any other token."""
    found = INTEGER.fullmatch(text)
    if not found:
        return 0, None
    digits = found["digits"].replace("_", "")
    return int(digits, 0 if digits[1:2].isalpha() else 10), found["type"]


def is_large(texts, at):
    """Returns `True` if a literal is above `u32::MAX`, or shifts by 32 bits or more, and has no suffix of a wide type."""
    number, suffix = value(texts[at])
    is_shift = texts[at - 2 : at] in (["<", "<"], [">", ">"]) and number >= 32
    return suffix not in WIDE_TYPES and (number > 0xFFFF_FFFF or is_shift)


def is_wide(texts):
    """Returns `True` if an integer after these tokens of a function has a wide type: that of the operand or the declaration before it."""
    end = len(texts)
    while end and (texts[end - 1] in OPERATORS or INTEGER.fullmatch(texts[end - 1])):
        end -= 1
    is_group = texts[end - 1 : end] == [")"]
    before, last = texts[end - is_group - 2 : end - is_group] if end - is_group >= 2 else ("", "")
    if last in WIDE_TYPES:
        return before in ("as", ":")
    return not is_group and before != "." and has_wide_type(" ".join(texts), re.escape(last))


def has_wide_type(text, name):
    """Returns `True` if these tokens declare the name with a wide type, or with a value that ends in a cast to one."""
    wide = "|".join(sorted(WIDE_TYPES))
    return re.search(rf"(?<!\S){name} : (?:{wide})(?!\S)|(?<!\S)let (?:mut )?{name} = [^;]* as (?:{wide}) ;", text) is not None


def narrow_integers(made):
    """Yields the integers that 32 bits do not hold and whose type may be a `usize`, each after the name of its function."""
    tokens = [token for token in made if token.kind not in ("doc", "comment")]
    texts, begin = [token.text for token in tokens], 0
    for at, token in enumerate(tokens):
        if token.text == "fn":
            begin = at
        elif is_large(texts, at) and not is_wide(texts[begin:at]):
            yield texts[begin + 1], token


def narrow_faults(made, name):
    """Yields a fault for each integer that 32 bits may not hold and `WIDE` does not except, and for each exception that nothing needs."""
    needed = set()
    for function, token in narrow_integers(made):
        needed.add((name, function))
        if (name, function) not in WIDE:
            yield f"{name}: line {token.line} of what was made: `{token.text}` may be a usize, which has 32 bits on some targets"
    for _, function in sorted({entry for entry in WIDE if entry[0] == name} - needed):
        yield f"{name}: the exception of {function} is not needed"


def faults_of(source, made, crate, name):
    walk = Walk(source, made, crate, name)
    try:
        walk.check()
    except Fault as fault:
        return [str(fault)]
    except IndexError:
        return [f"{name}: a text ends too early"]
    return list(narrow_faults(walk.made, name))


def made_today():
    """Yields for each source its text, its crate, its name, the committed file and the tool's current output."""
    for source, crate, target in erase.sources():
        yield source.read_text(encoding="utf-8"), crate, str(source.relative_to(erase.PROJECT)), target, erase.made(source, crate)


def committed_faults():
    """Yields the faults of the committed files: each must be the tool's current output, byte for byte if rustfmt is installed.

    A committed file that is not generated from a source is also a fault.
    """
    wanted, has_rustfmt = set(), shutil.which("rustfmt") is not None
    for source, crate, name, target, made in made_today():
        wanted.add(target)
        if not target.exists():
            yield f"{name}: {target.name} is not committed"
            continue
        committed = target.read_text(encoding="utf-8")
        yield from faults_of(source, committed, crate, name)
        if has_rustfmt and committed != erase.laid_out(made):
            yield f"{name}: what is committed is not what the tool makes"
    for folder in sorted({erase.module_of(crate).parent for crate in erase.MODULES}):
        for path in folder.rglob("*"):
            if path.is_file() and path not in wanted:
                yield f"{path}: made of no source"
    if not has_rustfmt:
        print("check.py: the layout is left out, as no rustfmt is here")


def made_faults():
    """Yields the faults of the tool's current output, unformatted."""
    for source, crate, name, _, made in made_today():
        yield from faults_of(source, made, crate, name)


# Seeded faults of the output: a file, the old text and the new text.
PLANTED = [
    ("a statement is dropped", "wat_lex/src/lexer.rt", "*pos = start + token.len as usize;", ""),
    ("an attribute is dropped", "wat_lex/src/lexer.rt", "#[cold]", ""),
    (
        "a name of a derive is dropped",
        "wat_lex/src/gensym.rt",
        "#[derive(Clone, Copy, Debug, PartialEq, Eq)]",
        "#[derive(Clone, Copy, Debug, PartialEq)]",
    ),
    ("a mut is dropped", "wat_lex/src/lexer/scan/plain.rt", "let mut i = 0;", "let i = 0;"),
    (
        "a ghost item is kept",
        "wat_lex/src/lexer/scan/starts.rt",
        "use crate::proved::lexer::kinds::Sign;",
        "use crate::proved::lexer::kinds::Sign;\nghost use Rattle.wat_lex;",
    ),
    ("a clause is kept", "wat_lex/src/token.rt", "pub fn offset(&self) -> usize", "pub fn offset(&self) -> usize ensures { result ≡ self.now }"),
    (
        "a clause is another function's",
        "wat_lex/src/token.rt",
        "/// ensures { result.now ≡ self.now.name }",
        "/// ensures { result ≡ self.now.span }",
    ),
    ("a requires is left out of the documentation", "wat_lex/src/lexer.rt", "/// requires { length input.now < 2 ^ 32 }\n", ""),
    ("a contract is not shown", "wat_words/src/lib.rt", "/// # Proved\n///\n/// ```text\n/// ensures { result.now ≡ text }\n/// ```\n", ""),
    ("a literal is another one", "wat_lex/src/lexer/scan/classes.rt", "const WHITESPACE: u8 = 8;", "const WHITESPACE: u8 = 9;"),
    ("a text has another space", "wat_lex/src/error/text.rt", 'Piece::Text(" | ")', 'Piece::Text(" |  ")'),
    ("arguments are swapped", "wat_lex/src/error/text.rt", "columns(source, column)", "columns(column, source)"),
    ("a ? is lost", "wat_lex/src/token.rt", "id.clone(alloc)?", "id.clone(alloc)"),
    ("an unsafe is lost", None, "pub unsafe fn of(x: u8)", "pub fn of(x: u8)"),
    ("a tuple of one is no tuple", None, "(1,)", "(1)"),
    ("a value is a tuple", None, "= (2)", "= (2,)"),
    ("an unsafe is gained", "wat_lex/src/token.rt", "pub fn offset(", "pub unsafe fn offset("),
    ("an arm is dropped", "wat_lex/src/lexer/scan/starts.rt", "b'$' => Start::Id,", ""),
    ("a function is public", "wat_lex/src/token.rt", "pub(crate) fn gensym", "pub fn gensym"),
    ("a bound is lost", "wat_lex/src/encode.rt", "pub fn slice_fits<T: Encode>", "pub fn slice_fits<T>"),
    ("a path has another root", "wat_lex/src/token.rt", "use core::hash::", "use crate::shim::hash::"),
    ("a link leads elsewhere", "wat_lex/src/token.rt", "](crate::proved::gensym::Gensym)", "](crate::gensym::Gensym)"),
    ("a link to another crate leads elsewhere", None, "](wat_parser::proved::token)", "](wat_parser::token)"),
    ("an operator is another one", "wat_lex/src/token.rt", "self.name() == other.name() && self", "self.name() == other.name() || self"),
    ("a function is there twice", "wat_words/src/table.rt", "fn entry_at", "fn entry_at() {}\nfn entry_at"),
    ("a comment is dropped", "wat_lex/src/lexer/scan/starts.rt", "// Neighboring bytes are", "// Bytes are"),
    ("a line goes to the other stream", "wat_tokens/src/report.rt", "match print(&mut rt.stdout(),", "match print(&mut rt.stderr(),"),
    ("files are Rust's own", "wat_tokens/src/replace.rt", "use crate::shim::fs::{File", "use std::fs::{File"),
    ("a bound is gained", "wat_tokens_run/src/respond.rt", "type Input: Source", "type Input: Source + Copy"),
    ("a block is smaller", "wat_tokens_io/src/block.rt", "const BLOCK: usize = 65_536;", "const BLOCK: usize = 65_535;"),
    ("the end is lost", "wat_lex/src/gensym.rt", "Ok(Id::gensym(span, self.generation))\n    }\n}", ""),
    ("C passes the length first", "wat_c/src/lib.rt", "(text: *const u8, text_len: usize)", "(text_len: usize, text: *const u8)"),
    ("C passes no length", "wat_c/src/lib.rt", "out: *mut TokenRow, out_len: usize)", "out: *mut TokenRow)"),
    ("C passes a length of another type", "wat_c/src/lib.rt", "text_len: usize, pos", "text_len: u32, pos"),
    ("C passes an allocator", "wat_c/src/lib.rt", "wat_string(text: *const u8", "wat_string(alloc: Global, text: *const u8"),
    ("C passes values of another type", "wat_c/src/looks.rt", "out: *mut Row", "out: *mut Kind"),
    ("C passes what is constant for a buffer", "wat_c/src/looks.rt", "wat_links(rows: *mut Row", "wat_links(rows: *const Row"),
    ("C passes a buffer for what is constant", "wat_c/src/looks.rt", "wat_after(rows: *const Row", "wat_after(rows: *mut Row"),
    ("a parameter is not made", "wat_c/src/looks.rt", "let names = unsafe { core::slice::from_raw_parts(names, names_len) };", ""),
    ("a buffer is made with another's length", "wat_c/src/words.rt", "from_raw_parts(text, text_len)", "from_raw_parts(text, row_len)"),
    ("a buffer is made of what is constant", "wat_c/src/looks.rt", "from_raw_parts_mut(rows, rows_len)", "from_raw_parts(rows, rows_len)"),
    ("a parameter is made twice", "wat_c/src/looks.rt", "let alloc = Global;", "let alloc = Global;\nlet alloc = Global;"),
    ("the allocator is not made", "wat_c/src/by_row.rt", "let alloc = Global;", ""),
    ("a parameter is made after the first statement", "wat_c/src/version.rt", "100\n", "let alloc = Global;\n100\n"),
    ("no rule is named", "wat_c/src/words.rt", "// SAFETY: `text` points to `text_len` values, by rule 1 of wat.h.\n", ""),
    ("another rule is named", "wat_c/src/messages.rt", "by rules 1 and 5 of", "by rule 1 of"),
    ("who passes a pointer is not warned", "wat_c/src/words.rt", "pub unsafe extern", "pub extern"),
    ("a function of no pointer is unsafe", "wat_c/src/version.rt", "pub extern", "pub unsafe extern"),
    ("a function has no C convention", "wat_c/src/version.rt", 'extern "C" ', ""),
]
# Seeded faults of the sources, with integers that a `usize` of 32 bits does not hold: a file, the old text and the new text.
NARROW = [
    ("a module's length is compared as a usize", "wat_modules/src/lib.rt", "(bytes.len() as u64) <", "bytes.len() <"),
    ("a table's length is compared as a usize", "wat_module_parser/src/elements.rt", "elements.len() as u64 >=", "elements.len() >="),
    ("a count of pages is compared as a usize", "wat_module_parser/src/segments.rt", "pages as u64 >=", "pages >="),
    ("a cast is to a usize", "wat_module_parser/src/segments.rt", "pages as u64 >=", "pages as usize >="),
    ("a constant is above u32::MAX", "wat_format/src/format.rt", "usize = 4_294_967_295", "usize = 4_294_967_296"),
    ("a usize is shifted by 32 bits", "wat_format/src/format.rt", "usize = 4_294_967_295", "usize = 1 << 32"),
    ("a literal has the suffix usize", "wat_format/src/format.rt", "usize = 4_294_967_295", "usize = 0x1_0000_0000_usize"),
    ("a u64 is a usize", "wat_module_instructions/src/reading.rt", "fn signed_32(sign: Sign, size: u64)", "fn signed_32(sign: Sign, size: usize)"),
    ("a sum is no u64", "wat_lex/src/lexer/scan/strings.rt", "* 16 + hex_digit(digit) as u64;", "* 16 + hex_digit(digit) as usize;"),
]
# A source with constructs that the sources do not have.
OTHERS = "/// It is [one](wat_lexer_parser::token).\npub unsafe fn of(x: u8)\n    ensures { ⊤ }\n{\n    let one = (1,);\n    let two = (2);\n}\n"


def planted_faults(name, file, before, after):
    """Returns the faults of the output with a seeded fault, or `None` if it cannot be seeded or the output has other faults."""
    source, crate = OTHERS, "wat_lex"
    path = f"crates/{file}"
    if file is not None:
        source, crate = (erase.PROJECT / path).read_text(encoding="utf-8"), file.split("/")[0]
    made = f"// @generated by tools/erase from {path}; do not edit.\n" + erase.Eraser(source, crate).erased()
    if faults_of(source, made, crate, path):
        return None
    planted = made.replace(before, after, 1)
    return None if planted == made else faults_of(source, planted, crate, path)


def faults_of_file(name, before="", after=""):
    """Returns the faults of the output for a source with a replaced text, or `None` if the text does not occur."""
    source, crate = (erase.PROJECT / name).read_text(encoding="utf-8"), name.split("/")[1]
    planted = source.replace(before, after, 1)
    if before and planted == source:
        return None
    made = f"// @generated by tools/erase from {name}; do not edit.\n" + erase.Eraser(planted, crate).erased()
    return faults_of(planted, made, crate, name)


def narrow_bugs():
    """Yields the results of faults seeded into sources, and of faults seeded into `WIDE`: a missing exception, and one that is not needed."""
    for bug, file, before, after in NARROW:
        faults = faults_of_file(f"crates/{file}", before, after)
        yield bug, faults and all("may be a usize" in fault for fault in faults)
    for entry, reason in list(WIDE.items()):
        del WIDE[entry]
        yield f"no exception of {entry[1]}", faults_of_file(entry[0])
        WIDE[entry] = reason
    unneeded = "crates/wat_words/src/lib.rt", "matches"
    WIDE[unneeded] = "nothing"
    yield "an exception that nothing needs", faults_of_file(unneeded[0])
    del WIDE[unneeded]


def bugs_of_eraser():
    """Yields the results of faults seeded into the tool itself: a rule that does nothing, or a missing entry of the closed list."""
    for rule in ("ghost", "contract", "attribute", "model", "drop_docs", "exported", "body"):
        kept = getattr(erase.Eraser, rule)
        setattr(erase.Eraser, rule, lambda self, at=None: None)
        yield f"the tool has no rule {rule}", next(made_faults(), None)
        setattr(erase.Eraser, rule, kept)
    for entry in list(erase.WRITTEN):
        kept = dict(erase.WRITTEN)
        del erase.WRITTEN[entry]
        yield f"the tool's list has no {entry}", next(made_faults(), None)
        erase.WRITTEN.clear()
        erase.WRITTEN.update(kept)
    for form in list(erase.PASSED):
        place = erase.PASSED.index(form)
        del erase.PASSED[place]
        yield f"the tool passes to C as it is {form[0]}", next(made_faults(), None)
        erase.PASSED.insert(place, form)


def self_test():
    bugs = [(name, planted_faults(name, *rest)) for name, *rest in PLANTED]
    bugs += narrow_bugs()
    bugs += bugs_of_eraser()
    unseen = [name for name, faults in bugs if not faults]
    for name in unseen:
        print(f"check.py: not seen: {name}")
    print(f"check.py: {len(bugs) - len(unseen)} of {len(bugs)} planted bugs are seen")
    return bool(unseen)


def main():
    if "--self-test" in sys.argv:
        return self_test()
    faults = list(made_faults())
    if "--committed" in sys.argv:
        faults += committed_faults()
    for fault in faults:
        print(fault)
    print(f"check.py: {len(list(erase.sources()))} sources, {len(faults)} faults")
    return bool(faults)


if __name__ == "__main__":
    sys.exit(main())
