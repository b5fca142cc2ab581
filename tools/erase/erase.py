#!/usr/bin/env python3
"""Generates Rust from the proved sources: it erases ghost code, and rewrites a closed list of tokens. docs/erasure.md says what is erased, what is
rewritten, and what is trusted.

It writes the modules of the packages below rust/ that MODULES names, formatted by rustfmt: for each crate the file `generated/CRATE.rs` and the files
below `generated/CRATE`.

usage: tools/erase/erase.py
"""
import pathlib
import re
import subprocess

PROJECT = pathlib.Path(__file__).resolve().parents[2]
RUST = PROJECT / "rust"
# For each crate: the folder whose `generated` holds its module, and the module's path from the root of the compiled target.
MODULES = {
    "wat_lex": ("wat-lex/src", "proved"),
    "wat_words": ("wat-parser/src", "words"),
    "wat_floats": ("wat-parser/src", "floats"),
    "wat_lexer_parser": ("wat-parser/src", "proved"),
    "wat_c_records": ("wat-c/src", "rows"),
    "wat_c": ("wat-c/src", "proved"),
    "wat_wasm": ("wat-page/src", "page"),
    "wat_format": ("wat-format/src", "proved"),
    "wat_tokens_io": ("wat-format/src", "lines"),
    "wat_tokens_output": ("wat-tokens/src", "lists"),
    "wat_tokens_args": ("wat-tokens/src", "options"),
    "wat_tokens_run": ("wat-tokens/src", "commands"),
    "wat_tokens": ("wat-tokens/src", "program"),
    "wat_module_tokens": ("wat-modules/src", "tokens"),
    "wat_module_lexer": ("wat-modules/src", "lexer"),
    "wat_module_ast": ("wat-modules/src", "ast"),
    "wat_module_instructions": ("wat-modules/src", "instructions"),
    "wat_module_parser": ("wat-modules/src", "parser"),
    "wat_module_custom": ("wat-modules/src", "custom"),
    "wat_module_annotations": ("wat-modules/src", "annotations"),
    "wat_module_encoder": ("wat-modules/src", "encoder"),
    "wat_valid": ("wat-modules/src", "validation"),
    "wat_module_places": ("wat-modules/src", "places"),
    "wat_modules": ("wat-modules/src", "proved"),
    "wat_types": ("wat-modules/src", "types"),
    "example_imports": ("wat-tokens/tests/requests", "imports"),
}
# The targets that are compiled with their own shim.
WITH_SHIM = [("wat-lex", "src"), ("wat-format", "src"), ("wat-tokens", "src")]
# The closed list of rewritten tokens. The first entry that matches is used. SHIM is the path of the shim, STD that of the parts of `std` that the
# shim leaves to Rust, and SELF that of the source's crate.
WRITTEN = {
    # The package has its own tests.
    "#[cfg(test)] mod tests;": "",
    # Rust has no models, and drops each value.
    "use std::marker::Model;": "",
    "+ Drop": "",
    ": Drop,": ",",
    ": Drop>": ">",
    # Everything that allocates from an allocator, and can fail, is in the shim.
    "std::alloc": "SHIM::alloc",
    "std::borrow": "SHIM::borrow",
    "std::collections": "SHIM::collections",
    "std::simd": "SHIM::simd",
    "fast_float::": "SHIM::fast_float::",
    "itoa::": "SHIM::itoa::",
    "BY_SHUFFLE: bool = true": "BY_SHUFFLE: bool = SHIM::simd::HAS_SHUFFLE",
    "smallvec::": "SHIM::smallvec::",
    "unicode_width::": "SHIM::unicode_width::",
    "format!(in": "try_format!(",
    "vec![in": "try_vec![",
    ".join(alloc,": ".join_in(alloc,",
    # In Rust a clone of any type cannot return an allocation failure.
    ".kind.clone()?": ".kind.clone()",
    # A formatter has its writer as a type parameter in Rattle, but not in Rust.
    "<W: fmt::Write>": "",
    "fmt::Formatter<W>": "fmt::Formatter<'_>",
    # Effects outside of the process need a handle, which a program receives as an argument.
    "fn main(rt:": "pub fn main(rt:",
    # A caller from C must ensure what a caller from Rattle has proved: the text is valid UTF-8.
    "let text = unsafe { str::from_utf8_unchecked(text) };": "// SAFETY: rule 2 of wat.h.\nlet text = unsafe { str::from_utf8_unchecked(text) };",
    # The syntax trees of `wast` write a `Span` by its field.
    "pub(crate) offset: usize": "#[doc(hidden)]\npub offset: usize",
    # The roots of all other paths. Those of the other crates are given by `path_of`.
    "std::": "STD::",
    "crate::": "SELF::",
}
# The parameters of a function that C calls: a pattern of the source, the parameters for C, and the statement that constructs the first from these.
PASSED = [
    (
        r"(\w+): &\[(\w+)\]",
        r"\1: *const \2, \1_len: usize",
        "// SAFETY: `\\1` points to `\\1_len` values, by rule 1 of wat.h.\nlet \\1 = unsafe { core::slice::from_raw_parts(\\1, \\1_len) };\n",
    ),
    (
        r"(\w+): &mut \[(\w+)\]",
        r"\1: *mut \2, \1_len: usize",
        "// SAFETY: `\\1` points to `\\1_len` values, by rules 1 and 5 of wat.h.\nlet \\1 = unsafe { core::slice::from_raw_parts_mut(\\1, \\1_len) };\n",
    ),
    (r"(\w+): Global", "", "let \\1 = Global;\n"),
]
PRELUDE = "use SHIM::prelude::*;\n"


def target_of(crate):
    """Returns the target in which a crate is compiled: its package's library, or one of the package's tests."""
    package, kind, *inside = MODULES[crate][0].split("/")
    return package, inside[0] if kind == "tests" else kind


def path_of(crate, seen_from):
    """Returns the path of a crate's module, seen from another crate."""
    package, kind = target_of(crate)
    root = "crate" if target_of(seen_from) == (package, kind) else package.replace("-", "_")
    return f"{root}::{MODULES[crate][1]}"


def module_of(crate):
    """Returns the path of the module that is generated from a crate: its file without an extension, and the folder of the files below it."""
    return RUST / MODULES[crate][0] / "generated" / crate


def shim_of(crate):
    return "crate::shim" if target_of(crate) in WITH_SHIM else "wat_lex::shim"


def std_of(crate):
    """Returns the path of the rest of `std`: the shim in wat-format and wat-tokens, as readers, files and streams are not part of Rust's `core`."""
    return shim_of(crate) if target_of(crate)[0] in ("wat-format", "wat-tokens") else "core"


TOKEN = re.compile(
    r"""
    (?P<doc>//[/!][^\n]*)
  | (?P<comment>//[^\n]*)
  | (?P<string>b?"(?:\\.|[^"\\])*")
  | (?P<char>b?'(?:\\(?:u\{[^}]*\}|x..|.)|[^'\\\n])')
  | (?P<life>'[A-Za-z_]\w*)
  | (?P<word>[^\W\d]\w*)
  | (?P<number>\d\w*)
  | (?P<space>\s+)
  | (?P<sign>::|.)
    """,
    re.X | re.S,
)
CLOSING = {"(": ")", "[": "]", "{": "}"}


class Refused(Exception):
    """A construct in a source that the tool does not know."""


def tokens_of(text):
    return [(found.lastgroup, found.group()) for found in TOKEN.finditer(text)]


def solid_of(text):
    """Returns the tokens of a text except whitespace."""
    return [token for kind, token in tokens_of(text) if kind != "space"]


class Source:
    """The tokens of a source. A method that finds the end of a construct returns the index after it, or `None` if the construct is not there."""

    def __init__(self, text):
        # Two empty tokens at the end, so that lookahead needs no bounds checks.
        self.tokens = tokens_of(text) + [("end", "")] * 2

    def is_token(self, at, text):
        return self.tokens[at][1] == text

    def solid(self, at):
        """Returns the first index from `at` on that is neither whitespace nor a comment."""
        while self.tokens[at][0] in ("space", "comment", "doc"):
            at += 1
        return at

    def next(self, at):
        return self.solid(at + 1)

    def are(self, at, texts):
        """Returns the end of these tokens, or `None` if they are not at `at`."""
        for text in texts:
            at = self.solid(at)
            if not self.is_token(at, text):
                return None
            at += 1
        return at

    def group(self, at):
        """Returns the end of the group that begins with an opening bracket at `at`. Raises `Refused` if the brackets do not match."""
        wanted = []
        for place in range(at, len(self.tokens)):
            text = self.tokens[place][1]
            if text in CLOSING:
                wanted.append(CLOSING[text])
            elif text in CLOSING.values() and wanted.pop() != text:
                break
            if not wanted:
                return place + 1
        raise Refused(f"brackets that do not fit: {self.tokens[at:at + 20]}")

    def ghost(self, at):
        """Returns the end of a ghost item, after its `;` or `,`. Raises `Refused` if it has a quote or no end."""
        while not (self.is_token(at, ";") or self.is_token(at, ",")):
            kind, text = self.tokens[at]
            if kind in ("string", "char", "end"):
                raise Refused(f"a ghost item with a quote or without an end: {text}")
            at = self.group(at) if text in CLOSING else at + 1
        return at + 1

    def clause(self, at):
        """Returns the end of a clause of a contract, or `None` if there is none."""
        if not (self.is_token(at, "requires") or self.is_token(at, "ensures")):
            return None
        at = self.next(at)
        at = self.next(at) if self.tokens[at][0] == "word" else at
        return self.group(at) if self.is_token(at, "{") else None

    def contract(self, at):
        """Returns the end of all the clauses of a contract, with the comments between them, or `None` if there is none."""
        end = None
        while (after := self.clause(at)) is not None:
            end, at = after, self.solid(after)
        return end

    def model(self, at):
        """Returns the end of an `impl Model for`, or `None` if there is none."""
        at = self.next(at)
        if self.is_token(at, "<"):
            while not self.is_token(at, ">"):
                at += 1
            at = self.next(at)
        if self.are(at, ["Model", "for"]) is None:
            return None
        while not self.is_token(at, "{"):
            at += 1
        return self.group(at)


def contract_docs(text):
    """Returns a contract as doc comments, without its common indentation."""
    first, *others = text.split("\n")
    margin = min((len(line) - len(line.lstrip()) for line in others if line.strip()), default=0)
    lines = [f"/// {line}".rstrip() for line in [first] + [line[margin:] for line in others]]
    return "\n".join(["/// # Proved", "///", "/// ```text", *lines, "/// ```", ""])


class Eraser:
    """The generation of Rust from one source."""

    def __init__(self, text, crate):
        self.source = Source(text)
        self.out = []
        self.root, self.shim, self.std = path_of(crate, crate), shim_of(crate), std_of(crate)
        others = {f"{other}::": f"{path_of(other, crate)}::" for other in MODULES}
        self.written = [(solid_of(before), self.rooted(after)) for before, after in (WRITTEN | others).items()]
        self.links = {f"]({before}": f"]({self.rooted(after)}" for before, after in ({"crate::": "SELF::"} | others).items()}
        # The statements at the beginning of the body of a function that C calls.
        self.beginning = ""
        self.rules = {"ghost": self.ghost, "requires": self.contract, "ensures": self.contract, "#": self.attribute, "impl": self.model}
        self.rules |= {"extern": self.exported, "{": self.body}

    def rooted(self, text):
        return text.replace("SELF", self.root).replace("SHIM", self.shim).replace("STD", self.std)

    def erased(self):
        at = 0
        while self.source.tokens[at][0] != "end":
            at = self.step(at)
        text = "".join(text for _, text in self.out)
        head = re.match(r"(//![^\n]*\n|\s)*", text).end()
        return text[:head] + self.rooted(PRELUDE) + text[head:]

    def step(self, at):
        """Writes the replacement of the token at `at`, and returns the index of the next one."""
        kind, text = self.source.tokens[at]
        if kind in ("word", "sign"):
            after = self.rules[text](at) if text in self.rules else None
            after = self.otherwise(at) if after is None else after
            if after is not None:
                return after
        if kind == "doc":
            # A link has a path too.
            for before, after in self.links.items():
                text = text.replace(before, after)
        self.out.append((kind, text))
        return at + 1

    def otherwise(self, at):
        """Writes an entry of the closed list, and returns the index after it, or `None` if none matches. A word within a path does not match."""
        kind, text = self.source.tokens[at]
        if kind == "word" and self.out and self.out[-1][1] in ("::", "."):
            return None
        for before, after in self.written:
            if before[0] == text and (end := self.source.are(at, before)) is not None:
                self.out += tokens_of(after)
                return end + (after.endswith(("(", "[")) and self.source.tokens[end][0] == "space")
        return None

    def ghost(self, at):
        self.drop_docs()
        return self.source.ghost(at)

    def model(self, at):
        end = self.source.model(at)
        if end is not None:
            self.drop_docs()
        return end

    def drop_docs(self):
        """Removes the doc comments of an erased item, which are in the lines directly before it."""
        while self.out and (self.out[-1][0] == "space" and self.out[-1][1].count("\n") < 2 or self.out[-1][1].startswith("///")):
            self.out.pop()
        self.out.append(("space", "\n"))

    def attribute(self, at):
        inner = self.source.next(at)
        inner = self.source.next(inner) if self.source.is_token(inner, "!") else inner
        if not self.source.is_token(inner, "["):
            return None
        end, name = self.source.group(inner), self.source.next(inner)
        line = end + (self.source.tokens[end][0] == "space")
        if self.source.is_token(name, "tactic") or self.source.is_token(name, "rattlefmt"):
            return line
        if self.source.is_token(name, "derive"):
            kept = [text for kind, text in self.source.tokens[name + 1 : end] if kind == "word" and text != "Drop"]
            self.out += tokens_of(f"#[derive({', '.join(kept)})]" if kept else "")
            return end if kept else line
        return None

    def contract(self, at):
        end = self.source.contract(at)
        # The contract of a closure is in a function's body, so it has no doc comment to be in.
        if end is not None and ("sign", "{") not in self.out[self.last("fn", len(self.out)) :]:
            place = self.start_of_function()
            documented = any(kind == "doc" for kind, _ in self.out[max(place - 2, 0) : place])
            self.out[place:place] = tokens_of("///\n" * documented + contract_docs(self.text(at, end)))
        return end

    def exported(self, at):
        """Writes the signature of a function that C calls, with its parameters for C. Returns the index after it, or `None` if there is none.

        The function is `unsafe` if it has a pointer, whose validity the caller must ensure.
        """
        name = self.source.are(at, ["extern", '"C"', "fn"])
        if name is None:
            return None
        opening = self.source.next(self.source.solid(name))
        end = self.source.group(opening)
        parameters = " ".join(self.text(opening + 1, end - 1).split()).split(", ")
        passed = ", ".join(filter(None, map(self.passed, parameters)))
        self.out += tokens_of("unsafe " * ("unsafe" in self.beginning) + f"{self.text(at, opening)}({passed})")
        return end

    def text(self, at, end):
        return "".join(text for _, text in self.source.tokens[at:end])

    def passed(self, parameter):
        """Returns the parameters for C of a parameter of the source, and adds the statement that constructs it to `beginning`."""
        for form, passed, statement in PASSED:
            if found := re.fullmatch(form, parameter.rstrip(",")):
                self.beginning += found.expand(statement)
                return found.expand(passed)
        return parameter.rstrip(",")

    def body(self, at):
        """Writes the beginning of the body of a function that C calls, and returns the index after its brace, or `None` for any other block."""
        if not self.beginning:
            return None
        self.out += [("sign", "{"), ("space", "\n"), *tokens_of(self.beginning)]
        self.beginning = ""
        return at + 1

    def last(self, text, at):
        """Returns the last index before `at` at which the token was written."""
        while self.out[at - 1][1] != text:
            at -= 1
        return at - 1

    def start_of_function(self):
        """Returns the index at which the function begins whose signature was just written: at its attributes and comments, after its doc comments."""
        at = begins = self.last("fn", len(self.out))
        while at > 0:
            at -= 1
            kind, text = self.out[at]
            if text == "]":
                at = begins = self.last("#", at)
            elif text in ("pub", "const", "unsafe", "extern", '"C"', "crate", "(", ")"):
                begins = at
            elif kind not in ("space", "comment"):
                break
        return begins


def sources():
    """Yields each source, its crate and the file that is generated from it. Nothing is generated from tests."""
    for crate in MODULES:
        folder, module = PROJECT / "crates" / crate / "src", module_of(crate)
        for source in sorted(path for path in folder.rglob("*.rt") if path.name != "tests.rt"):
            inside = source.relative_to(folder).with_suffix(".rs")
            yield source, crate, module.with_suffix(".rs") if str(inside) in ("lib.rs", "main.rs") else module / inside


def made(source, crate):
    """Returns the Rust that is generated from a source, unformatted."""
    mark = f"// @generated by tools/erase from {source.relative_to(PROJECT)}; do not edit.\n"
    return mark + Eraser(source.read_text(encoding="utf-8"), crate).erased()


def laid_out(text):
    """Returns the text formatted by rustfmt, with the settings of the packages."""
    return subprocess.run(["rustfmt", "--edition", "2024"], input=text, cwd=RUST, check=True, capture_output=True, encoding="utf-8").stdout


def main():
    for source, crate, target in sources():
        target.parent.mkdir(parents=True, exist_ok=True)
        target.write_text(laid_out(made(source, crate)), encoding="utf-8")


if __name__ == "__main__":
    main()
