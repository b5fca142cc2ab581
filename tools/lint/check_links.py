#!/usr/bin/env python3
"""Checks the documents: each link must lead to a file, and to a heading if it has an anchor, and a link of a package for a registry must stay in the
package; README must lead to each document in at most 2 links; a table cell may have at most 12 words; and README may have at most 110 lines.

usage: tools/lint/check_links.py

Prints a line for each fault, and exits with status 1 if there is one. Code blocks are ignored.
"""
import pathlib
import re
import subprocess
import sys

ROOT = pathlib.Path(__file__).resolve().parents[2]
LINK = re.compile(r"\]\((?!https?:)([^)#\s]*)(?:#([^)\s]+))?\)")


def plain(text):
    """Returns the text without its code blocks."""
    return re.sub(r"^```.*?^```$", "", text, flags=re.S | re.M)


def links(path, text):
    """Returns the target files of a document's links, each with its anchor or `None`."""
    return [((path.parent / name).resolve() if name else path, anchor) for name, anchor in LINK.findall(plain(text))]


def anchors(text):
    """Returns the anchors of a document's headings."""
    return [re.sub(r"[^\w\- ]", "", head.lower()).replace(" ", "-") for head in re.findall(r"^#+ (.*)$", plain(text), re.M)]


def cells(text):
    """Returns the cells of all tables."""
    lines = [line for line in plain(text).split("\n") if line.startswith("|")]
    return [cell.strip() for line in lines for cell in re.split(r"(?<!\\)\|", line)[1:-1]]


def is_of_a_package(path):
    """Returns `True` if the document is part of a package that is published to a registry."""
    manifest = path.parent / "Cargo.toml"
    return manifest.exists() and "\ndocumentation" in manifest.read_text(encoding="utf-8")


def faults(texts):
    for path, text in texts.items():
        for target, anchor in links(path, text):
            if is_of_a_package(path) and not target.is_relative_to(path.parent):
                yield f"{path}: a link out of its package, to {target}"
            if not target.exists() or anchor and (target not in texts or anchor not in anchors(texts[target])):
                yield f"{path}: a link to {target}#{anchor or ''} leads nowhere"
        yield from (f"{path}: a cell of {len(cell.split())} words: {cell}" for cell in cells(text) if len(cell.split()) > 12)
    near = {target for target, _ in links(ROOT / "README.md", texts[ROOT / "README.md"])}
    near |= {target for path in near if path in texts for target, _ in links(path, texts[path])}
    yield from (f"{path}: more than two links from README" for path in texts.keys() - near - {ROOT / "README.md"})
    if texts[ROOT / "README.md"].count("\n") > 110:
        yield "README.md: more than 110 lines"


files = subprocess.run(["git", "ls-files", "*.md"], cwd=ROOT, check=True, capture_output=True, text=True).stdout.split()
found = list(faults({ROOT / name: (ROOT / name).read_text(encoding="utf-8") for name in files if (ROOT / name).exists()}))
print("".join(fault.replace(f"{ROOT}/", "") + "\n" for fault in found) + f"check_links.py: {len(files)} documents, {len(found)} faults")
sys.exit(bool(found))
