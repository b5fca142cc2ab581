#!/usr/bin/env python3
"""Compares the declarations of the C header with those of the library, both in Rattle and in the Rust that tools/erase generates from it. It compares
the names and types of parameters and of struct fields, in order, the return types, and the codes of lexical errors, token kinds, signs, and the
reasons why a reader or `wat_shown` has no result. A slice of Rattle is a pointer and a length in C and in Rust, and an allocator parameter of Rattle
does not occur there.

usage: compare_declarations.py
"""
import re
import sys
from pathlib import Path

PROJECT = Path(__file__).resolve().parents[2]
HEADER = PROJECT / "include/wat.h"
RUST = sorted((PROJECT / "rust/wat-c/src").rglob("*.rs"))
RATTLE = sorted(path for name in ("wat_c", "wat_c_records") for path in (PROJECT / "crates" / name / "src").rglob("*.rt"))
NUMBERS = {"uint8_t": "u8", "uint32_t": "u32", "uint64_t": "u64", "size_t": "usize", "bool": "bool"}
# Structs whose name in the library is not the C name without `wat_`.
STRUCTS = {"wat_token": "TokenRow", "wat_kind": "KindRow", "wat_range": "Word"}
# The C name of a variant's code, without `WAT_` and underscores, if it is not the variant's name.
CODES = {"Refusal::Memory": "NOMEMORY", "NotVisible::Memory": "LOOKNOMEMORY"}
# The C name of a slice's length, if it is not the slice's name followed by `_len`.
LENGTHS = {"text": "len", "out": "room", "rows": "count", "ends": "names_count", "marks": "marks_count", "feeds": "feeds_count"}


def in_rust(c_type):
    """Returns a C type as Rust writes it."""
    words = c_type.replace("*", " * ").split()
    name = [word for word in words if word not in ("const", "struct", "*")][0]
    name = NUMBERS.get(name) or STRUCTS.get(name) or name.removeprefix("wat_").capitalize()
    if "*" not in words:
        return name
    return ("*const " if "const" in words else "*mut ") + name


def of_c(declared):
    """Returns a C parameter or field as Rust writes it."""
    c_type, name = re.fullmatch(r"(.*?)(\w+)", declared.strip(), re.S).groups()
    return f"{name}: {in_rust(c_type)}"


def read_header(text):
    numbers = {name.replace("_", ""): int(number) for name, number in re.findall(r"\bWAT_(\w+)(?: =)? (\d+)\b", text)}
    text = re.sub(r"/\*.*?\*/", "", text, flags=re.S)
    functions = {}
    for answer, name, parameters in re.findall(r"^((?:struct )?\w+) (wat_\w+)\(([^)]*)\);", text, re.M):
        passed = [of_c(parameter) for parameter in parameters.split(",") if parameter != "void"]
        functions[name] = (passed, None if answer == "void" else in_rust(answer))
    structs = {}
    for name, fields in re.findall(r"^struct (wat_\w+) \{([^}]*)\}", text, re.M):
        structs[in_rust(name)] = [of_c(field) for field in fields.split(";") if field.strip()]
    return functions, structs, numbers


def of_slice(declared):
    """Returns the Rust parameters of a Rattle parameter, with the C name of a slice's length."""
    name, declared_type = declared.split(": ")
    reference, slice_of, bare = re.fullmatch(r"(&mut |&|\*const |\*mut )?(\[)?(\w+)\]?", declared_type).groups()
    if bare == "Global":
        return []
    pointer = {None: "", "&": "*const ", "&mut ": "*mut "}.get(reference, reference)
    length = [f"{LENGTHS.get(name, name + '_len')}: usize"] if slice_of else []
    owner = name.removesuffix("_len")
    return [f"{LENGTHS.get(owner, name) if owner != name else name}: {pointer}{bare}"] + length


def listed(text):
    return [item.strip().removeprefix("pub ") for item in text.split(",") if item.strip()]


def read_library(text):
    """Returns the functions, structs and codes that the library declares, in Rattle or in Rust."""
    text = re.sub(r"//.*", "", text)
    functions = {}
    exported = re.findall(r'#\[unsafe\(no_mangle\)\]\npub (?:unsafe )?extern "C" fn (\w+)\((.*?)\)(?: -> (\w+))?\s', text, re.S)
    for name, parameters, answer in exported:
        functions[name] = ([part for item in listed(parameters) for part in of_slice(item)], answer or None)
    structs = re.findall(r"#\[repr\(C\)\]\n(?:#.*\n)*pub struct (\w+) \{([^}]*)\}", text)
    numbers = {name.upper(): int(code) for name, code in re.findall(r"LexError::(\w+).* => (\d+),", text)}
    tags = re.findall(r"TokenKind::(\w+) => (\d),", text)
    numbers |= {name.upper(): int(tag) + 1 for name, tag in tags}
    codes = re.findall(r"\b((?:Refusal|NotVisible|SignToken)::(\w+)).*=> (?:\(\w+, )?(\d+)\b", text)
    numbers |= {CODES.get(path, name.upper()): int(code) for path, name, code in codes}
    return functions, {name: listed(fields) for name, fields in structs}, numbers


def compare(language, library, header):
    """Prints the declarations that differ from the header's, and returns their number."""
    differ = 0
    for kind, of_header in zip(library[:2], header[:2]):
        for name in sorted(of_header.keys() | kind.keys()):
            if kind.get(name) != of_header.get(name):
                differ += 1
                print(f"{name}: {kind.get(name)} in {language}, {of_header.get(name)} in C")
    for name, number in library[2].items():
        if number != header[2].get(name):
            differ += 1
            print(f"{name}: {number} in {language}, {header[2].get(name)} in C")
    counts = [len(kind) for kind in library]
    if 0 in counts:
        sys.exit(f"compare_declarations.py: nothing was found in {language} to compare")
    print("compare_declarations.py: {} functions, {} structs and {} numbers of".format(*counts), f"{language} compared with wat.h, {differ} differ")
    return differ


def main():
    header = read_header(HEADER.read_text())
    libraries = {language: read_library("\n".join(path.read_text() for path in paths)) for language, paths in (("Rust", RUST), ("Rattle", RATTLE))}
    differ = sum(compare(language, library, header) for language, library in libraries.items())
    sys.exit(1 if differ else 0)


main()
