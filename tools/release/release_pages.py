#!/usr/bin/env python3
"""Writes the documents of a release, and checks the links of its documents.

usage: tools/release/release_pages.py write DIST TARGET VERSION
       tools/release/release_pages.py check DIST

`write` copies docs/releasing.md to README.md, with TARGET, the version and the sizes of the release's files filled in, and the guides to `docs`. A
link to a file that the release has leads to that file; any other link becomes plain text. `check` prints each link that leads to no file or heading
of the release, and exits with status 1 if there is one. Third-party documents in `rust/vendor` are not read.
"""
import os
import pathlib
import re
import sys

ROOT = pathlib.Path(__file__).resolve().parents[2]
README = "docs/releasing.md"
PAGE = "page/README.md"
# Patterns of the paths in the release of files that have a different path in the repository, empty for a file that the release does not have.
MOVED = {
    README: "README.md",
    "README.md": "",
    PAGE: "docs/page.md",
    "include/wat.h": "c/*/include/wat.h",
    "tools/test/c/compile.c": "c/compile.c",
    "tools/test/c/identifiers.c": "c/identifiers.c",
}
GUIDES = ["cli", "formatter", "compatibility", "erasure", "verification"]
IMAGES = ["page-light.png", "page-dark.png"]
LINK = re.compile(r"(?P<image>!?)\[(?P<text>[^]]*)\]\((?!https?:)(?P<path>[^)#\s]*)(?P<anchor>#[^)\s]+)?\)")
CODE = re.compile(r"^```.*?^```$", re.S | re.M)
VERSION = re.compile(r"\b(wat(?:-[a-z]+)?-)\d+\.\d+\.\d+\b")


def outside_code(text, change):
    """Returns the text with `change` applied to everything except its code blocks."""
    blocks = CODE.findall(text)
    parts = [change(part) for part in CODE.split(text)]
    return "".join(part + block for part, block in zip(parts, blocks + [""]))


def anchors(text):
    """Returns the anchors of the headings of a document."""
    heads = re.findall(r"^#+ (.*)$", CODE.sub("", text), re.M)
    return {re.sub(r"[^\w\- ]", "", head.lower()).replace(" ", "-") for head in heads}


def in_release(dist, path):
    """Returns the path in the release of a file of the repository, or `None` if the release does not have it."""
    if not path.is_relative_to(ROOT) or path.is_dir():
        return None
    name = path.relative_to(ROOT).as_posix()
    pattern = MOVED.get(name, name)
    return next((file for file in sorted(dist.glob(pattern)) if file.is_file()), None) if pattern else None


def relink(dist, source, target, text):
    """Returns the text of `source` with its links as they must be in `target`."""

    def link(found):
        if not found["path"]:
            return found[0]
        goal = in_release(dist, (source.parent / found["path"]).resolve())
        if goal is None:
            return found["text"]
        return f"{found['image']}[{found['text']}]({os.path.relpath(goal, target.parent)}{found['anchor'] or ''})"

    return outside_code(text, lambda part: LINK.sub(link, part))


def weight(path):
    """Returns the size in bytes of a file, or of all files of a folder."""
    files = path.rglob("*") if path.is_dir() else [path]
    return sum(file.stat().st_size for file in files if file.is_file() and not file.is_symlink())


def sizes(dist):
    """Returns a table of the sizes of the files and folders that a user downloads."""
    patterns = ["crates/*.crate", "rust/vendor", "bin/*/*", "c/*/lib/libwat.a", "c/*/lib/libwat.so.*", "python/*", "npm/*", "page/*"]
    files = [file for pattern in patterns for file in sorted(dist.glob(pattern))]
    rows = "".join(f"| `{file.relative_to(dist)}` | {weight(file):,} |\n" for file in files)
    return f"\n## Sizes\n\n| file or folder | bytes |\n|---|---|\n{rows}"


def write(dist, target, version):
    sources = [README, "CHANGELOG.md", PAGE, *(f"docs/{name}.md" for name in GUIDES)]
    pages = {ROOT / name: dist / MOVED.get(name, name) for name in sources}
    pages |= {ROOT / file.relative_to(dist): file for file in (dist / "rust").glob("wat-*/README.md")}
    (dist / "docs").mkdir(exist_ok=True)
    for name in IMAGES:
        (dist / "docs" / name).write_bytes((ROOT / "docs" / name).read_bytes())
    for page in pages.values():
        page.touch()
    for source, page in pages.items():
        page.write_text(relink(dist, source, page, source.read_text(encoding="utf-8")), encoding="utf-8")
    readme = dist / "README.md"
    text = VERSION.sub(rf"\g<1>{version}", readme.read_text(encoding="utf-8"))
    text = re.sub(r"(?<=/)TARGET\b", target, text)
    readme.write_text(text + sizes(dist), encoding="utf-8")


def faults(pages):
    """Yields each link that leads to no file or heading."""
    for page, text in pages.items():
        for found in LINK.finditer(CODE.sub("", text)):
            goal = (page.parent / found["path"]).resolve() if found["path"] else page
            if not goal.exists():
                yield f"{page}: {found[0]} leads to no file"
            elif found["anchor"] and found["anchor"][1:] not in anchors(pages.get(goal, "")):
                yield f"{page}: {found[0]} leads to no heading"


def check(dist):
    files = [file for file in sorted(dist.rglob("*.md")) if dist / "rust/vendor" not in file.parents]
    pages = {file: file.read_text(encoding="utf-8") for file in files}
    found = list(faults(pages))
    links = sum(len(LINK.findall(CODE.sub("", text))) for text in pages.values())
    print("".join(f"{fault}\n" for fault in found) + f"release_pages.py: {len(pages)} documents, {links} links, {len(found)} lead nowhere")
    return bool(found) or not links


if __name__ == "__main__":
    command, dist = sys.argv[1], pathlib.Path(sys.argv[2]).resolve()
    sys.exit(check(dist) if command == "check" else write(dist, *sys.argv[3:]))
