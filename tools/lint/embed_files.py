#!/usr/bin/env python3
"""Writes the files of crates/example_sums and the lemmas about readings into docs/tutorial.md, and lines of the examples for C and Rust into
README.md and the README of wat-c.

usage: tools/lint/embed_files.py [--check | --self-test]

A file, or some lines of it, is written between `<!-- file PATH [FIRST-LAST] -->` and `<!-- end -->`, and all files of a folder that are not empty,
each after its name, between `<!-- files FOLDER -->` and `<!-- end -->`. Between `<!-- laws -->` and `<!-- end -->` is a table of readings, each with
the input that it parses; its last column is the lemma about the reading in the specs. With --check nothing is written, and the exit status is 1 if a
page differs from the files. It is also 1 if the table lacks a reading that has a lemma, or if a file of the crate is neither included as a whole nor
linked. --self-test checks that each file of the crate is reported if its part or its link is removed from the page, or if its part is cut.
"""
import pathlib
import re
import sys
import textwrap

ROOT = pathlib.Path(__file__).resolve().parents[2]
PAGES = ["README.md", "docs/tutorial.md", "rust/wat-c/README.md"]
CRATE, ITS_PAGE = "crates/example_sums", "docs/tutorial.md"
LAWS = ROOT / "crates/wat_lexer_parser/specs/lemmas"
PART = re.compile(r"<!-- (file (?P<path>\S+)( (?P<first>\d+)-(?P<last>\d+))?|files (?P<folder>\S+)|laws) -->\n(?P<body>.*?)<!-- end -->\n", re.S)
LAW = re.compile(r"^pub (?P<name>advances_\w+) : (.* → )?Advances \(?(?P<word>\w+)[^→\n]*$", re.M)
ROW = re.compile(r"^\| `(?P<term>(?P<word>\w+)[^`]*)` \| (?P<reads>[^|]+) \|")
LANGUAGES = {".rt": "rust", ".rs": "rust", ".c": "c", ".antt": "", ".edit": ""}


def fenced(path, first=None, last=None):
    """Returns the file, or the lines from `first` to `last`, as a code block of Markdown."""
    lines = (ROOT / path).read_text().rstrip().split("\n")
    part = lines[int(first) - 1 : int(last)] if first else lines
    text = textwrap.dedent("\n".join(part))
    return f"```{LANGUAGES[pathlib.Path(path).suffix]}\n{text}\n```\n"


def files_of(path):
    """Returns all files of a folder that are not empty, by their paths from the root, except its README and the build output."""
    files = sorted(file.relative_to(ROOT) for file in (ROOT / path).rglob("*") if file.is_file() and file.stat().st_size)
    return [file for file in files if "out" not in file.parts and file.name != "README.md" and (ROOT / file).read_text().strip()]


def folder(path):
    """Returns all files of a folder as code blocks, each after its name."""
    named = ((file.relative_to(path).as_posix(), file) for file in files_of(path))
    return "\n".join(f"`{pathlib.Path(path).name}/{name}`:\n\n{fenced(file)}" for name, file in named)


def shown_whole(text):
    """Returns the files that a page includes as a whole."""
    shown = set()
    for match in PART.finditer(text):
        if match["folder"]:
            shown.update(map(str, files_of(match["folder"])))
        elif match["path"] and not match["first"]:
            shown.add(match["path"])
    return shown


def missed(text):
    """Returns the files of the crate that its page neither includes as a whole nor links."""
    linked = {str(file) for file in files_of(CRATE) if f"](../{file})" in text}
    return sorted({str(file) for file in files_of(CRATE)} - shown_whole(text) - linked)


def self_test():
    """Checks that a file is reported as missing if its part or its link is removed from the page, or if its part has only its first line."""
    page = (ROOT / ITS_PAGE).read_text()
    parts = [match for match in PART.finditer(page) if str(match["path"] or match["folder"]).startswith(CRATE + "/") and not match["first"]]
    links = [str(file) for file in files_of(CRATE) if f"](../{file})" in page]
    for match in parts:
        wanted = sorted(map(str, files_of(match["folder"]))) if match["folder"] else [match["path"]]
        assert missed(page.replace(match[0], "")) == wanted, f"{match[1]} is taken out, and {wanted} are not all that is missed"
        if match["path"]:
            cut = match[0].replace(match["path"] + " -->", match["path"] + " 1-1 -->")
            assert missed(page.replace(match[0], cut)) == wanted, f"{match[1]} is cut, and not missed"
    for file in links:
        assert missed(page.replace(f"](../{file})", "")) == [file], f"{file} is neither shown nor linked, and not missed"
    assert missed(page) == [] and len(parts) > 1, "the page lacks a file of its crate"
    print(f"embed_files.py: each of {len(parts)} parts and {len(links)} links of {CRATE} is missed where it is not there")


def laws():
    """Returns the name of the lemma about each reading that has one, by the name of the reading."""
    return {law["word"]: law["name"] for path in sorted(LAWS.glob("*.antt")) for law in LAW.finditer(path.read_text())}


def row(line, found):
    """Returns a row of the table with the lemma about its reading."""
    cells = ROW.match(line)
    if not cells:
        sys.exit(f"embed_files.py: no row of the table: {line}")
    name = found.get(cells["word"])
    return f"| `{cells['term']}` | {cells['reads']} | {f'`{name}`' if name else ''} |\n"


def table(body):
    """Returns the table of readings with their lemmas. Exits with a message if the table lacks a reading that has a lemma."""
    head, lines = body.splitlines(keepends=True)[:2], body.splitlines()[2:]
    found = laws()
    missing = found.keys() - {ROW.match(line)["word"] for line in lines if ROW.match(line)}
    if missing:
        sys.exit(f"embed_files.py: the table lacks {', '.join(sorted(missing))}")
    return "".join(head + [row(line, found) for line in lines])


def part(match):
    """Returns a marked part of the page with its current contents."""
    start = match[0].split("\n", 1)[0]
    if match["path"]:
        body = fenced(match["path"], match["first"], match["last"])
    else:
        body = folder(match["folder"]) if match["folder"] else table(match["body"])
    return f"{start}\n{body}<!-- end -->\n"


def main():
    if sys.argv[1:] not in ([], ["--check"], ["--self-test"]):
        sys.exit(__doc__.split("\n\n")[1])
    if sys.argv[1:] == ["--self-test"]:
        return self_test()
    lacks = missed((ROOT / ITS_PAGE).read_text())
    if lacks:
        sys.exit(f"embed_files.py: {ITS_PAGE} neither shows whole nor links: {', '.join(lacks)}")
    for name in PAGES:
        page = ROOT / name
        old = page.read_text()
        new, parts = PART.subn(part, old)
        if sys.argv[1:] == []:
            page.write_text(new)
        elif new != old:
            sys.exit(f"embed_files.py: {name} is not what the files make of it; run tools/lint/embed_files.py")
        print(f"embed_files.py: {parts} parts of {name}")


if __name__ == "__main__":
    main()
