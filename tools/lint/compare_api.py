#!/usr/bin/env python3
"""Compares the public names of the modules `lexer`, `parser`, `token`, `gensym` and of `Error` of the crate `wast` with those of rust/wat-lex and
rust/wat-parser: types, fields, variants, functions with their signatures, traits and derives.

usage: tools/lint/compare_api.py FOLDER     the folder has the crate's sources, as lexer.rs or lexer.rs.txt
       tools/lint/compare_api.py --self-test

Lifetimes, parameter names, `mut` and what a macro generates are ignored. Prints a line for each name that is missing or differs, and exits with
status 1 if there is one. The names in the table of docs/compatibility.md are exempt, and each of them must differ. Names that only these crates
have are not reported.
"""
import pathlib
import re
import sys

sys.path.append(str(pathlib.Path(__file__).resolve().parents[1] / "lib"))

from rattle_source import ROOT, items_of, past_group, split_at, tokens_of, written

LEX, PARSER = ROOT / "rust/wat-lex/src", ROOT / "rust/wat-parser/src"
PROVED = LEX / "generated/wat_lex"
# The files of each module, with the names to take from a file; an empty tuple takes all of them.
OURS = {
    "lexer": {LEX / "lexer.rs": (), LEX / "token.rs": (), LEX / "number.rs": (), LEX / "traits.rs": (), LEX / "error.rs": ("LexError",),
              PROVED / "lexer/kinds.rs": ("TokenKind", "IntegerKind", "FloatKind", "SignToken"), PROVED / "lexer/faults.rs": ("LexError",),
              PROVED / "lexer/read/numbers.rs": ("Integer",)},
    "parser": {PARSER / "parser.rs": (), PARSER / "parser/annotations.rs": (), PARSER / "parser/buffer.rs": (), PARSER / "parser/cursor.rs": (),
               PARSER / "parser/lookahead.rs": (), PARSER / "parser/traits.rs": ()},
    "token": {PARSER / "token.rs": (), PARSER / "token/float.rs": (), PROVED / "token.rs": ("Span",)},
    "error": {LEX / "error.rs": ("Error",)},
    "gensym": {PARSER / "gensym.rs": ()},
}
DIFFERENCES = ROOT / "docs/compatibility.md"
HEADING = "### Names and signatures"


def plain(tokens):
    """Returns tokens as one line, without lifetimes and without the paths of Rust's own names."""
    line = written([token for token in tokens if token.kind != "lifetime"])
    line = re.sub(r"\b(?:std|core|alloc|crate|fmt|super|cmp|hash)::(?=\w)|for<>", "", line)
    previous = None
    while previous != line:
        previous, line = line, re.sub(r"<>|,(?=[>)}])|\+(?=[,>){]|$)|(?<=<),|,$", "", line)
    return line


def parameter(tokens):
    """Returns the type of a parameter, or the form of `self`."""
    words = [token.text for token in tokens]
    if "self" in words[:4] and ":" not in words:
        return plain([token for i, token in enumerate(tokens) if token.text != "mut" or "&" in words[:i]])
    return plain(tokens[words.index(":") + 1 :])


def bounds_of(item):
    """Returns the bounds of a `where` clause, except those of lifetimes alone."""
    parts = split_at(item.value[1:], ",") if item.value else []
    return ",".join(plain(part) for part in parts if part and part[0].kind != "lifetime")


def signature(item):
    generics = f"<{plain(item.generics)}>" if plain(item.generics) else ""
    parameters = ",".join(parameter(part) for part in split_at(item.head, ",") if part)
    answer = f"->{plain(item.answer)}" if item.answer else ""
    return f"fn{generics}({parameters}){answer}" + (f" where {bounds_of(item)}" if bounds_of(item) else "")


def without_attributes(tokens):
    kept, at = [], 0
    while at < len(tokens):
        if tokens[at].text == "#":
            at = past_group(tokens, at + 1)
        else:
            kept.append(tokens[at])
            at += 1
    return kept


def of_type(item):
    """Yields a type, its public fields or its variants, and its derives."""
    yield item.name, item.kind
    for name in sorted(item.derives):
        yield f"{item.name}: {name}", "trait"
    inside = without_attributes(item.body[1:-1])
    for part in split_at(inside, ",") if item.body and item.body[0].text == "{" else []:
        if item.kind == "enum":
            yield f"{item.name}::{part[0].text}", plain(part[1:])
        elif part[0].text == "pub" and part[1].text != "(":
            yield f"{item.name}.{part[1].text}", plain(part[3:])


def of_items(items, names):
    """Yields each public name among the items, with its signature or kind."""
    for item in items:
        owner = re.sub(r"<.*", "", plain(item.head))
        if item.is_test or names and (owner if item.kind == "impl" else item.name) not in names:
            continue
        if item.kind == "impl" and item.trait and "$" not in plain(item.trait + item.head):
            yield f"{plain(item.head).split('where')[0]}: {plain(item.trait)}", "trait"
        elif item.kind == "impl" and not item.trait:
            for inner in items_of(item.body):
                if inner.kind == "fn" and inner.public:
                    yield f"{owner}::{inner.name}", signature(inner)
        elif item.public and item.kind in ("struct", "enum"):
            yield from of_type(item)
        elif item.public and item.kind == "trait":
            yield item.name, f"trait{plain(item.bounds)}"
            for inner in items_of(item.body):
                yield f"{item.name}::{inner.name}", signature(inner)
        elif item.public and item.kind == "fn":
            yield item.name, signature(item)
        elif item.public and item.kind == "type":
            yield item.name, plain(item.value)


def names_of(text, names=()):
    return dict(of_items(items_of(tokens_of(text)), names))


def known(page):
    """Returns the names in the table of the known differences."""
    table = page.split(HEADING, 1)[1].split("\n#", 1)[0]
    return re.findall(r"^\| `([^`]+)` \|", table, re.M)


def differences(module, theirs, ours):
    for name, said in theirs.items():
        if name not in ours:
            yield f"{module}::{name}", f"missing: {said}"
        elif ours[name] != said:
            yield f"{module}::{name}", f"{said} is {ours[name]} here"


def compare(folder):
    count, found = 0, {}
    for module, files in OURS.items():
        source = next(file for file in (folder / f"{module}.rs", folder / f"{module}.rs.txt") if file.exists())
        theirs = names_of(source.read_text(encoding="utf-8"))
        ours = {}
        for file, names in files.items():
            ours |= names_of(file.read_text(encoding="utf-8"), names)
        count += len(theirs)
        found |= dict(differences(module, theirs, ours))
    listed = known(DIFFERENCES.read_text(encoding="utf-8"))
    faults = [f"{name}: {what}" for name, what in found.items() if name not in listed]
    faults += [f"{name}: no difference" for name in listed if name not in found]
    print("".join(f"{fault}\n" for fault in faults) + f"compare_api.py: {count} names, {len(found)} differ, {len(faults)} faults")
    return faults


def self_test():
    """Checks that a difference of each kind is found, and none between equal sources. Returns the names of the failed cases."""
    ours = names_of("""#[derive(Clone, Debug)] pub struct A<'a> { pub b: u8, c: &'a str } pub enum E { V(u8), W { x: char } }
        impl<'a> A<'a> { pub fn f<T: P<'a>>(mut self, s: &'a str) -> Option<&'a T> where T: Q { g() } fn hidden() {} }
        impl fmt::Debug for E {} pub trait P<'a>: Sized { fn read(p: A<'a>) -> Self; } pub type R<T, X = E> = Result<T, X>;""")
    same = """#[derive(Debug, Clone)] pub struct A<'x> { pub b: u8 } pub enum E { V(u8), W { x: char } }
        impl<'x> A<'x> { pub fn f<T: P<'x>>(self, text: &str) -> Option<&T> where T: Q { h() } }
        impl std::fmt::Debug for E {} pub trait P<'x>: Sized { fn read(parser: A<'x>) -> Self; } pub type R<T, X = E> = Result<T, X>;"""
    planted = {"none": ("", ""), "a derived trait": ("Debug, Clone", "Debug, Copy"), "a field": ("pub b: u8", "pub b: u16"), "a variant": ("V(u8)", "U(u8)"),
               "a variant's field": ("x: char", "x: u32"), "a parameter": ("text: &str", "text: &[u8]"), "an answer": ("Option<&T>", "&T"),
               "a bound": ("T: Q", "T: R"), "a method": ("pub fn f", "pub fn g"), "a trait": ("Debug for E", "Display for E"),
               "a trait's method": ("fn read", "fn write"), "an alias": ("= Result<T, X>", "= Result<X, T>")}
    missed = [name for name, (a, b) in planted.items() if bool(dict(differences("m", names_of(same.replace(a, b)), ours))) != (name != "none")]
    print("".join(f"not as wanted: {name}\n" for name in missed) + f"compare_api.py --self-test: {len(planted)} sources, {len(missed)} not as wanted")
    return missed


if __name__ == "__main__":
    sys.exit(bool(self_test() if sys.argv[1:] == ["--self-test"] else compare(pathlib.Path(sys.argv[1]))))
