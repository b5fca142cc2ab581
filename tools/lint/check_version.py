#!/usr/bin/env python3
"""Compares each copy of this project's version with `version` in rust/Cargo.toml, which is the one to change.

usage: check_version.py [--self-test]
"""
import pathlib
import re
import sys

PROJECT = pathlib.Path(__file__).resolve().parents[2]
SOURCE = ("rust/Cargo.toml", r'^version = "(.*)"$')
PROGRAM = r'"wat_tokens ([^ ]*), of '
# The files with a copy of the version, each with a pattern that finds it.
IN_RELEASE = r"wat-(\d+\.\d+\.\d+)/rust"
TEXTS = [
    ("rust/Cargo.lock", r'^name = "wat-.*"\nversion = "(.*)"$'),
    ("rust/wat-format/Cargo.toml", r'^wat-lex = \{ version = "=([^"]*)"'),
    ("rust/wat-language-server/Cargo.toml", r'^wat-(?:format|lex|modules) = \{ version = "=([^"]*)"'),
    ("rust/wat-modules/Cargo.toml", r'^wat-(?:lex|parser) = \{ version = "=([^"]*)"'),
    ("rust/wat-parser/Cargo.toml", r'^wat-lex = \{ version = "=([^"]*)"'),
    ("rust/wat-tokens/Cargo.toml", r'^wat-(?:format|lex|modules|parser) = \{ version = "=([^"]*)"'),
    ("page/wat-lex/package.json", r'^  "version": "(.*)",$'),
    ("python/pyproject.toml", r'^version = "(.*)"$'),
    ("include/wat.h", r'^#define WAT_VERSION_TEXT "(.*)"$'),
    ("docs/releasing.md", r"\bwat-(\d+\.\d+\.\d+)"),
    ("rust/wat-lex/README.md", IN_RELEASE),
    ("rust/wat-parser/README.md", IN_RELEASE),
    ("rust/wat-modules/README.md", IN_RELEASE),
    ("crates/wat_tokens_args/src/help.rt", PROGRAM),
    ("crates/wat_tokens_args/specs/Help.antt", PROGRAM),
    ("rust/wat-tokens/src/generated/wat_tokens_args/help.rs", PROGRAM),
]
# The files in which the version is one integer.
NUMBERS = [
    ("include/wat.h", r"^#define WAT_VERSION (\d+)$"),
    ("crates/wat_c/src/version.rt", r"ensures \{ result ≡ (\d+) \}"),
    ("crates/wat_c/src/version.rt", r"^    (\d+)$"),
    ("rust/wat-c/src/generated/wat_c/version.rs", r"^    (\d+)$"),
]


def read(path):
    return (PROJECT / path).read_text(encoding="utf-8")


def number(version):
    """Returns a version as an integer: 10000 times its first part, plus 100 times its second, plus its third."""
    first, second, third = (int(part) for part in version.split("."))
    return str(10000 * first + 100 * second + third)


def found(text, pattern):
    return re.findall(pattern, text, re.M)


def faults(read):
    """Returns a message for each file in which a version is missing or differs."""
    versions = found(read(SOURCE[0]), SOURCE[1])
    if len(versions) != 1:
        return [f"{SOURCE[0]} has the versions {versions}"]
    places = [(*place, versions[0]) for place in TEXTS] + [(*place, number(versions[0])) for place in NUMBERS]
    return [f"{path} has {found(read(path), pattern)}, not {wanted}" for path, pattern, wanted in places if set(found(read(path), pattern)) != {wanted}]


def changed(path, pattern):
    """Returns a reader that behaves like `read`, except that the last version which the pattern finds in `path` is changed."""
    def with_another(other):
        text = read(other)
        if other != path:
            return text
        last = list(re.finditer(pattern, text, re.M))[-1]
        return text[: last.start(1)] + "7" + text[last.start(1) :]

    return with_another


def self_test():
    """Checks that a changed version is found in each file. Returns `True` if one is missed."""
    places = [SOURCE, *TEXTS, *NUMBERS]
    unseen = [path for path, pattern in places if not faults(changed(path, pattern))]
    for path in unseen:
        print(f"check_version.py: another version is not seen in {path}")
    print(f"check_version.py: another version is seen at {len(places) - len(unseen)} of {len(places)} places")
    return bool(unseen)


def main():
    if sys.argv[1:] == ["--self-test"]:
        return self_test()
    wrong = faults(read)
    for fault in wrong:
        print(f"check_version.py: {fault}")
    print(f"check_version.py: {1 + len(TEXTS) + len(NUMBERS)} places, {len(wrong)} faults")
    return bool(wrong)


if __name__ == "__main__":
    sys.exit(main())
