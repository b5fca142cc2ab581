#!/usr/bin/env python3
"""Checks the wording of documents, of the C header, and of the comments of sources, definitions, hand-written Rust, tools and the page: none of the
words below, which the glossary replaces, may occur except where tools/lint/allowed_words.txt allows it. Code in backquotes and quoted words are
ignored.

In `.rt` files also: at least 9 of 10 doc comments of functions begin with a verb in the third person, or with `Theorem` or `Lemma`; and a line has
at most 100 columns. Longer are `ghost use`, `#[tactic` lines, rows of a macro or of constants, and lines that a string literal makes longer.

usage: tools/lint/check_wording.py [--self-test | --count]

Prints a line for each fault, and exits with status 1 if there is one. `--count` prints counts by kind of file and by top folder instead.
A line of tools/lint/allowed_words.txt is `GLOB | PATTERN | REASON`: a phrase that contains the word, and the files in which it may occur.
"""
import collections
import fnmatch
import io
import pathlib
import re
import subprocess
import sys
import tokenize

ROOT = pathlib.Path(__file__).resolve().parents[2]
ALLOWED = "tools/lint/allowed_words.txt"
COLUMNS = 100

# Each word, as a pattern in which a space is any whitespace, and what to write instead.
WORDS = [
    (r"places?", "offset, position, location"),
    (r"answer(s|ed|ing)?", "return, result"),
    (r"refus(e|es|ed|al|als|ing)", "reject; fail to allocate; kill a mutant"),
    (r"(want|requests?) (of|for) memory|ask(s|ed|ing)? (for )?(no |some |its )?memory|takes? (no |some )?memory", "allocate, allocation failure"),
    (r"wrong bod(y|ies)", "mutant"),
    (r"plant(s|ed|ing)?", "seed, seeded fault"),
    (r"tokens? that counts?", "significant token"),
    (r"what (is|are|it|an?|\w+) shown|(is|are|be) shown|what (it|an? \w+) shows", "visible; yields"),
    (r"looks?(?! (like|up|at)\b)|looked(?! (like|up|at)\b)", "peek"),
    (r"(pass(es|ed|ing)?) over", "skip"),
    (r"lays? out|laid out|laying out", "format, formatted"),
    (r"laws?", "theorem, lemma"),
    (r"made (of|by|from|files?)", "generated from, generated"),
    (r"spell(s|ed|ing|t)?", "derives; matches"),
    (r"the same (of|after|by|for|with|from|in|until|at|under)", "the thing itself"),
    (r"rooms?", "capacity, buffer, temporary directory"),
    (r"puts? down|putting down", "encode, record"),
    (r"judges?", "test oracle, reference implementation"),
    (r"departures?", "known difference"),
    (r"strangers?", "clean-install test"),
    (r"stored cases?", "golden test"),
    (r"believ(e|es|ed|ing)", "trust, trusted definition"),
    (r"take(n|s)? away|took away", "erase"),
    (r"anything may happen", "undefined behavior"),
    (r"kits?", "toolchain"),
    (r"of (one's|its|their) own (type|kind)|of one's own", "custom, user-defined"),
    (r"who(ever)? (implements?|calls?|reads?|lexes|looks|asks?)", "the caller, implementers"),
    (r"owes?", "precondition, must"),
    (r"g(i|a)ven? back|gives? back", "freed, released; returned"),
    (r"as asked|(was|were|is|are) asked", "as specified, requested"),
    (r"so many", "n, that many"),
    (r"(is|are|was|were) no(?! (longer|more|less|fewer|later|earlier))", "is not a"),
    (r"but for", "except"),
    (r"in a hundred|an? (tenth|fifth|sixth|seventh|eighth|ninth|fortieth)", "percent"),
    (r"behind|told|stands?|stood|anew", "after; reported, recorded; is; again"),
    (r"by cargo(?! (build|test|run))", "built with cargo"),
    (r"brings?|brought", "define, add"),
    (r"beside", "against, compared with; next to, also"),
    (r"white space", "whitespace"),
    (r"(written|made|coded) by hand", "hand-written"),
    (r"(also|only|exactly) where", "even if, only if, if and only if"),
]
PATTERNS = [(re.compile(rf"\b(?:{word})(?!\w)".replace(" ", r"(?: |\n ?)")), instead) for word, instead in WORDS]
ANY = re.compile("|".join(pattern.pattern for pattern, _ in PATTERNS))

# The kinds of files: what `git ls-files` takes for each.
KINDS = {
    "document": ["*.md"],
    "header": ["include/*.h"],
    "source": ["crates/*.rt", "tests/*.rt", "tools/*.rt"],
    "definition": ["crates/*/specs/*.antt"],
    "rust": ["*.rs"],
    "tool": ["tools/*.py", "tools/*.sh", "tools/*.c", "tools/*.js", "tools/*.mjs", ".ci/*", "Makefile", "run"],
    "python": ["python/*.py", "python/*.toml", "examples/*.py"],
    "page": ["page/*.js", "page/*.mjs", "page/*.ts", "page/*.html", "page/*.css", "page/*.sh", "page/*.py"],
}
# Words that end like a verb in the third person, but are none at the head of a comment.
NOT_VERBS = {"Arguments", "As", "Bytes", "Characters", "Definitions", "Elements", "Ends", "Errors", "Faults", "Fields", "Files", "Functions", "Has",
             "Instructions", "Is", "Items", "Its", "Kinds", "Limits", "Lines", "Names", "Numbers", "Others", "Parameters", "Positions", "Rows",
             "Spaces", "Strings", "Texts", "This", "Tokens", "Types", "Unless", "Values", "Variables", "Was", "Words"}


STRING = r'''r(?P<hashes>#*)".*?"(?P=hashes)|"(?:\\.|[^"\\])*"|'(?:\\(?:u\{\w+\}|x\w\w|.)|[^'\\\n])\''''
SLASHED = re.compile(rf"(?P<comment>//[^\n]*|/\*.*?\*/)|{STRING}", re.S)
SCRIPT = re.compile(r"""(?P<comment>//[^\n]*|/\*.*?\*/)|'(?:\\.|[^'\\\n])*'|"(?:\\.|[^"\\\n])*"|`(?:\\.|[^`\\])*`""", re.S)
DASHED = re.compile(r'(?P<comment>(?<![^\s])--(?=[ \n])[^\n]*)|"(?:\\.|[^"\\\n])*"', re.S)
MARKED = re.compile(r"(?P<comment>(?<![^\s])#(?!!)[^\n]*)|'[^'\n]*'|\"(?:\\.|[^\"\\\n])*\"")
CODE = re.compile(r"```.*?```|`[^`\n]*(?:\n[^`\n]*)?`|\"[^\"\n]{0,120}\"|“[^”]*”", re.S)


def blank(text):
    """Returns spaces of the text's length, with its line ends."""
    return re.sub(r"[^\n]+", lambda match: " " * len(match[0]), text)


def only(text, spans):
    """Returns the text with everything outside of the spans replaced by spaces."""
    kept, end = [], 0
    for start, stop in spans:
        kept += [blank(text[end:start]), text[start:stop]]
        end = stop
    return "".join(kept) + blank(text[end:])


def comments_of(text, pattern):
    return only(text, [match.span("comment") for match in pattern.finditer(text) if match["comment"] is not None])


def comments_of_python(text):
    """Returns the comments and the doc strings."""
    starts = [0]
    for line in text.split("\n"):
        starts.append(starts[-1] + len(line) + 1)
    tokens = tokenize.generate_tokens(io.StringIO(text).readline)
    spans = [(starts[token.start[0] - 1] + token.start[1], starts[token.end[0] - 1] + token.end[1]) for token in tokens
             if token.type == tokenize.COMMENT or token.type == tokenize.STRING and token.string.startswith('"""')]
    return only(text, spans).replace('"""', "   ")


def prose_of(name, text):
    """Returns the prose of a file in its lines, in lower case and with single spaces; code and quotations in it are dots."""
    suffix = pathlib.Path(name).suffix
    if suffix == ".md":
        text = re.sub(r"^ *```.*?^ *```$|<!--.*?-->|\]\([^)\s]*\)", lambda match: blank(match[0]), text, flags=re.S | re.M)
    elif suffix in (".rt", ".rs", ".h", ".c", ".js", ".mjs", ".ts", ".css"):
        comments = comments_of(text, SCRIPT if suffix in (".js", ".mjs", ".ts") else SLASHED)
        text = re.sub(r"^( *)(//[/!]?|\*(?!/))", lambda match: blank(match[0]), comments, flags=re.M)
    elif suffix == ".antt":
        text = re.sub(r"^( *)--", lambda match: blank(match[0]), comments_of(text, DASHED), flags=re.M)
    elif suffix == ".py":
        text = re.sub(r"^( *)#", lambda match: blank(match[0]), comments_of_python(text), flags=re.M)
    elif suffix == ".html":
        text = re.sub(r"<script.*?</script>|<style.*?</style>|<[^>]*>", lambda match: blank(match[0]), text, flags=re.S)
    else:
        text = re.sub(r"^( *)#", lambda match: blank(match[0]), comments_of(text, MARKED), flags=re.M)
    text = CODE.sub(lambda match: re.sub(r"[^\n]+", "·", match[0]), text)
    return re.sub(r"[ \t]*\n[ \t]*", "\n ", re.sub(r"[ \t]+", " ", text)).lower()


def is_generated(text):
    return "@generated" in text[:400] or " by tools/erase" in text[:400]


def allowed_of(text):
    """Returns the lines of the list of allowed words: globs, patterns and reasons."""
    rows = [line.split(" | ") for line in text.split("\n") if line and not line.startswith("#")]
    for row in rows:
        if len(row) != 3 or not all(part.strip() for part in row):
            raise SystemExit(f"{ALLOWED}: a line is not `GLOB | PATTERN | REASON`: {' | '.join(row)}")
    return [(glob, re.compile(pattern.replace(" ", r"\s+"))) for glob, pattern, _ in rows]


def words_in(name, text, allowed, used):
    """Yields a fault for each word that is not allowed, and records the lines of the list that allowed one."""
    prose = prose_of(name, text)
    if not ANY.search(prose):
        return
    spans = [(match.span(), row) for row, (glob, pattern) in enumerate(allowed) if fnmatch.fnmatch(name, glob) for match in pattern.finditer(prose)]
    for pattern, instead in PATTERNS:
        for match in pattern.finditer(prose):
            covering = [row for (start, end), row in spans if start <= match.start() and match.end() <= end]
            used.update(covering)
            if not covering:
                yield f"{name}:{prose.count(chr(10), 0, match.start()) + 1}: {' '.join(match[0].split())}: write: {instead}"


def long_lines(name, text):
    """Yields a fault for each line above the limit that none of the exemptions covers."""
    in_rows = in_table(text)
    for number, line in enumerate(text.split("\n")):
        if len(line) <= COLUMNS or re.match(r"\s*(ghost use |#\[tactic)", line) or in_rows[number]:
            continue
        if "//" in line.split('"')[0] or len(re.sub(r'"(?:\\.|[^"\\])*"', '""', line)) > COLUMNS:
            yield f"{name}:{number + 1}: {len(line)} columns"


def in_table(text):
    """Returns for each line whether it is a row between the brackets of a macro's call or of a constant array."""
    inside, lines, depth = [], text.split("\n"), 0
    for line in lines:
        code = re.sub(r'"(?:\\.|[^"\\])*"|//.*', "", line)
        begins = depth == 0 and re.match(r"\s*(\w+! ?[\[{(]$|(pub(\(crate\))? )?(const|static) \w+: .*[\[(]$)", code.rstrip())
        inside.append(depth > 0)
        if begins or depth > 0:
            depth += sum(code.count(sign) for sign in "[{(") - sum(code.count(sign) for sign in "]})")
            depth = max(depth, 1 if begins else 0)
    return inside


FUNCTION = re.compile(r"(?P<comment>(?:^ *///[^\n]*\n)+)(?:^ *#\[[^\n]*\n)*^ *(?:pub(?:\([a-z]+\))? )?(?:unsafe )?(?:const )?(?:extern \"C\" )?"
                      r"fn \w+", re.M)


def heads_of(text):
    """Returns the first word of each function's doc comment."""
    return [re.match(r" */// ?([^\s]*)", match["comment"])[1] for match in FUNCTION.finditer(text)]


def is_verb(word):
    return word.rstrip(":") in ("Theorem", "Lemma") or re.fullmatch(r"[A-Z][a-z]+(-[a-z]+)*s", word) is not None and word not in NOT_VERBS


def heads(texts):
    """Yields a fault if fewer than 9 of 10 doc comments of functions begin with a verb, with the counts by crate."""
    all_heads = [(name.split("/")[1] if "/" in name else name, word) for name, text in texts.items() for word in heads_of(text)]
    verbs = sum(is_verb(word) for _, word in all_heads)
    if 10 * verbs < 9 * len(all_heads):
        without = collections.Counter(crate for crate, word in all_heads if not is_verb(word))
        yield (f"{verbs} of {len(all_heads)} doc comments of functions begin with a verb in the third person, fewer than 9 of 10; without one: "
               + ", ".join(f"{crate} {count}" for crate, count in without.most_common()))


def files_of_kinds():
    """Returns the kind of each file of the repository that is checked, by name."""
    kinds = {}
    for kind, patterns in KINDS.items():
        command = ["git", "ls-files", "--cached", "--others", "--exclude-standard", *patterns]
        for name in subprocess.run(command, cwd=ROOT, check=True, capture_output=True, text=True).stdout.split("\n"):
            if name and (ROOT / name).is_file():
                kinds[name] = kind
    return kinds


def faults_of(texts, kinds, allowed_text):
    """Returns a list of the faults in the texts, which are given by name."""
    allowed, used, found = allowed_of(allowed_text), set(), []
    for name, text in texts.items():
        found += words_in(name, text, allowed, used)
        if kinds[name] == "source":
            found += long_lines(name, text)
    found += heads({name: text for name, text in texts.items() if kinds[name] == "source"})
    found += [f"{ALLOWED}: allows nothing: {glob} | {pattern.pattern}" for row, (glob, pattern) in enumerate(allowed) if row not in used]
    return found


def repository():
    """Returns the texts of the files that are checked, and their kinds."""
    kinds = files_of_kinds()
    texts = {name: (ROOT / name).read_text(encoding="utf-8") for name in kinds}
    texts = {name: text for name, text in texts.items() if kinds[name] == "document" or not is_generated(text)}
    return texts, kinds


# A comment for each kind of file, by its suffix; for all others `//`.
SEEDS = {suffix: comment.replace("..", "The stranger answers.") for suffix, comment in {
    ".md": "\n..\n", ".py": "\n# ..\n", ".sh": "\n# ..\n", ".toml": "\n# ..\n", "": "\n# ..\n", ".antt": "\n-- ..\n", ".html": "<p>..</p>",
    ".h": "\n/* .. */\n", ".c": "\n/* .. */\n", ".css": "\n/* .. */\n", "//": "\n// ..\n"}.items()}
# Lines of a source that must not be reported.
LONG = "x" * 120
QUIET = {
    "a word in backquotes": "\n// Calls `answer`.\n",
    "a quoted word": "\n// The message says \"no answer\".\n",
    "a word in a string": "\nfn seeded() { call(\"answers\") }\n",
    "a word in code": "\nfn answers() {}\n",
    "a long import": f"\nghost use Rattle.{LONG};\n",
    "a long tactic": f"\n    #[tactic({LONG})]\n",
    "a long string": f"\n    \"{LONG}\",\n",
    "a row of a macro": f"\nrows! {{\n    {LONG}, 1;\n}}\n",
    "a row of a constant": f"\npub const ROWS: [u32; 1] = [\n    {LONG},\n];\n",
}


def self_test():
    """Seeds faults of each sort, which must be found, and lines that must not be reported. Returns `True` if one is missed."""
    texts, kinds = repository()
    allowed = (ROOT / ALLOWED).read_text(encoding="utf-8")
    seeded, missed = 0, []

    def new_faults(changed, allowed_text):
        """Returns only the faults that the seed causes, so that the test does not depend on those of the repository."""
        before = faults_of({name: texts[name] for name in changed}, kinds, allowed)
        return collections.Counter(faults_of(changed, kinds, allowed_text)) - collections.Counter(before)

    def expect(what, changed, wanted, allowed_text=allowed):
        nonlocal seeded
        seeded += 1
        if not any(all(part in fault for part in wanted) for fault in new_faults(changed, allowed_text)):
            missed.append(what)

    samples = {}
    for name in sorted(texts):
        samples.setdefault((kinds[name], pathlib.Path(name).suffix), name)
    for (kind, suffix), name in samples.items():
        seed = SEEDS.get(suffix, SEEDS["//"])
        for word in ("stranger", "answers"):
            expect(f"{word} in a {kind}, {name}", {name: texts[name] + seed}, [f"{name}:", f": {word}: "])
    source = next(name for name in texts if kinds[name] == "source")
    expect("a long comment", {source: texts[source] + "\n// " + "long " * 30 + "\n"}, [f"{source}:", "columns"])
    expect("a long line of code", {source: texts[source] + "\n    call(\"a\", " + "long, " * 30 + ")\n"}, [f"{source}:", "columns"])
    functions = "\n/// What comes next.\nfn seeded() {}\n" * 10 * texts[source].count("\n")
    expect("comments without a verb", {source: texts[source] + functions}, ["begin with a verb", source.split("/")[1]])
    expect("words over two lines", {source: texts[source] + "\n// It says the\n// same of another.\n"}, [f"{source}:", "the same of"])
    expect("a line that allows nothing", {}, [ALLOWED, "zebra"], allowed + "\n*.md | zebra judges | never\n")
    for what, seed in QUIET.items():
        seeded += 1
        if new_faults({source: texts[source] + seed}, allowed):
            missed.append(f"a fault where there is none: {what}")
    print("".join(f"check_wording.py: missed: {what}\n" for what in missed), end="")
    print(f"check_wording.py: {seeded - len(missed)} of {seeded} seeded cases as expected")
    return bool(missed)


def print_counts(found, kinds):
    """Prints the number of faults for each kind and top folder."""
    names = [fault.split(":")[0] for fault in found]
    counts = collections.Counter((kinds.get(name, "-"), "/".join(name.split("/")[: 2 if name.startswith(("crates/", "rust/")) else 9])) for name in names)
    for (kind, name), count in sorted(counts.items()):
        print(f"{kind:<12}{count:>5}  {name[:80]}")


def main():
    if sys.argv[1:] == ["--self-test"]:
        return self_test()
    texts, kinds = repository()
    found = faults_of(texts, kinds, (ROOT / ALLOWED).read_text(encoding="utf-8"))
    if sys.argv[1:] == ["--count"]:
        print_counts(found, kinds)
    else:
        print("".join(f"{fault}\n" for fault in found), end="")
    print(f"check_wording.py: {len(texts)} files, {len(found)} faults")
    return bool(found)


if __name__ == "__main__":
    sys.exit(main())
