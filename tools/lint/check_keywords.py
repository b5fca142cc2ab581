#!/usr/bin/env python3
"""Checks the standard keywords and annotation names. The tables of wat_words must be those of standard_keywords.txt, whose first paragraph has the
keywords and whose second has the annotation names. Each word must have one type, at its index in the table, with the word's name and comment. It is
proved that the type of an index reads the word at that index; the words themselves, and the name for each index, are not proved.

usage: tools/lint/check_keywords.py
"""
import pathlib
import re
import sys

TOOLS = pathlib.Path(__file__).resolve().parents[1]
CRATES = TOOLS.parent / "crates"
TABLE = CRATES / "wat_words/src/table.rt"
TYPES = CRATES / "wat_lexer_parser/src"
# Words that are reserved, or have another meaning, in Rust: a type's name gets a trailing `_`.
KEPT = set(
    "abstract as async await become box break const continue crate do dyn else enum extern false final fn for gen if impl in let loop macro "
    "match mod move mut override priv pub ref return self static struct super trait true try type typeof unsafe unsized use virtual where "
    "while yield bool core".split()
)
TYPE = re.compile(r"/// The (?:keyword|annotation) `(@?)([^`]*)`\.\npub type (\w+) = (\w+)<(\w+)<(\d+)>>;\n")


def words_of(macro):
    """Returns the words of a table in order, without the prefix that is its first string."""
    body = re.search(rf"macro_rules! {macro} \{{.*?\$entries! \{{(.*?)\}}", TABLE.read_text(encoding="utf-8"), re.DOTALL)
    return re.findall(r'"([^"]*)"', body[1])[1:]


def name_of(word):
    """Returns the name of a word's type."""
    name = re.sub(r"[-.:+]", "_", word.replace("string-encoding=", "string_"))
    return name + "_" if name in KEPT else name


def faults(file, macro, wanted):
    """Yields the differences between the types of a file and the words of a table."""
    words = words_of(macro)
    text = (TYPES / file).read_text(encoding="utf-8")
    found = TYPE.findall(text)
    if len(found) != text.count("pub type "):
        yield f"{file}: a type is not written as the others are"
    if len(found) != len(words):
        yield f"{file}: {len(found)} types for {len(words)} words"
    for place, (word, (sign, said, name, kind, std, at)) in enumerate(zip(words, found)):
        if (sign, kind, std, int(at)) != (*wanted, place):
            yield f"{file}: {name} is {kind}<{std}<{at}>>, and is at place {place}"
        if (said, name) != (word, name_of(word)):
            yield f"{file}: {name}, said to be `{said}`, is for `{word}`"


def main():
    tables = [words_of("standard"), words_of("annotations")]
    listed = [it.split() for it in (TOOLS / "lint/standard_keywords.txt").read_text(encoding="utf-8").split("\n\n")]
    wrong = ["table.rt: its words are not those of standard_keywords.txt"] * (tables != listed)
    wrong += faults("kw.rt", "standard", ("", "Keyword", "Std"))
    wrong += faults("annotation.rt", "annotations", ("@", "AnnotationWord", "StdAnnotation"))
    for fault in wrong:
        print(fault)
    print(f"check_keywords.py: {len(tables[0])} keywords and {len(tables[1])} annotations, {len(wrong)} faults")
    return bool(wrong)


if __name__ == "__main__":
    sys.exit(main())
