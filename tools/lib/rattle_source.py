"""The tokens of a Rattle source and the items that it declares, for the scripts that check sources.

Comments are skipped. A string, a character or a name is one token. A contract is kept as the tokens of its clauses.
"""
import dataclasses
import functools
import pathlib
import re

ROOT = pathlib.Path(__file__).resolve().parents[2]
CRATES = ROOT / "crates"

OPEN = {"(": ")", "[": "]", "{": "}"}
CLOSE = {")", "]", "}"}

PATTERN = re.compile(
    r"""(?P<blank>\s+|//[^\n]*)
    |(?P<comment>/\*)
    |(?P<string>b?r(?P<fence>\#*)".*?"(?P=fence)|b?"(?:\\.|[^"\\])*")
    |(?P<character>b?'(?:\\(?:x[0-9a-fA-F]{2}|u\{[^}]*\}|.)|[^'\\])')
    |(?P<lifetime>'[A-Za-z_]\w*)
    |(?P<number>\d(?:[\w]|\.(?=\d))*)
    |(?P<name>(?:r\#)?[^\W\d]\w*)
    |(?P<sign>::|->|=>|\.\.=|\.\.\.|\.\.|&&|\|\||==|!=|<=|>=|.)""",
    re.VERBOSE | re.DOTALL,
)


@dataclasses.dataclass(frozen=True)
class Token:
    kind: str
    text: str
    line: int


def past_comment(text, at):
    """Returns the index after the block comment that begins at `at`. Block comments nest."""
    depth = 0
    for mark in re.compile(r"/\*|\*/").finditer(text, at):
        depth += 1 if mark[0] == "/*" else -1
        if depth == 0:
            return mark.end()
    return len(text)


@functools.cache
def tokens_of(text):
    """Returns the tokens of a source, without whitespace and comments."""
    tokens, at, line = [], 0, 1
    while at < len(text):
        match = PATTERN.match(text, at)
        end = past_comment(text, at) if match.lastgroup == "comment" else match.end()
        kind = next(it for it in ("blank", "comment", "string", "character", "lifetime", "number", "name", "sign") if match[it])
        if kind not in ("blank", "comment"):
            tokens.append(Token(kind, text[at:end], line))
        line += text.count("\n", at, end)
        at = end
    return tokens


def past_group(tokens, at):
    """Returns the index after the bracket that closes the one at `at`."""
    depth = 0
    for i in range(at, len(tokens)):
        if tokens[i].kind == "sign":
            depth += (tokens[i].text in OPEN) - (tokens[i].text in CLOSE)
            if depth == 0:
                return i + 1
    return len(tokens)


def past_angles(tokens, at):
    """Returns the index after the `>` that closes the `<` at `at`."""
    depth = 0
    i = at
    while i < len(tokens):
        text = tokens[i].text
        if text in OPEN:
            i = past_group(tokens, i)
            continue
        depth += {"<": 1, ">": -1}.get(text, 0)
        i += 1
        if depth == 0:
            return i
    return i


def split_at(tokens, sign):
    """Returns the runs of tokens between the signs, such as commas, that are outside of brackets."""
    parts, part, i = [], [], 0
    while i < len(tokens):
        text = tokens[i].text
        if text == sign:
            parts.append(part)
            part, i = [], i + 1
            continue
        end = past_group(tokens, i) if text in OPEN else past_angles(tokens, i) if text == "<" else i + 1
        part, i = part + tokens[i:end], end
    return parts + [part] if part else parts


def written(tokens):
    """Returns the tokens as one line, with a blank between two words that would join."""
    line = ""
    for token in tokens:
        joins = line and (line[-1].isalnum() or line[-1] == "_") and (token.text[0].isalnum() or token.text[0] in "_'")
        line += " " + token.text if joins else token.text
    return line


@dataclasses.dataclass
class Item:
    """An item that a source declares: its kind, its name, whether it is public, and its tokens."""

    kind: str
    name: str
    public: bool
    line: int
    derives: set = dataclasses.field(default_factory=set)
    generics: list = dataclasses.field(default_factory=list)
    # of a function: its parameters, return type, contract (`value`) and body; of a type: its fields or variants (`body`); of an alias: its `value`;
    # of a constant: its type (`answer`) and its `value`; of a `use`: its path (`head`)
    head: list = dataclasses.field(default_factory=list)
    answer: list = dataclasses.field(default_factory=list)
    value: list = dataclasses.field(default_factory=list)
    bounds: list = dataclasses.field(default_factory=list)
    body: list = dataclasses.field(default_factory=list)
    # of an `impl`: its trait, empty if it has none
    trait: list = dataclasses.field(default_factory=list)
    attributes: list = dataclasses.field(default_factory=list)
    is_test: bool = False


ITEMS = {"fn", "struct", "enum", "union", "trait", "impl", "mod", "use", "const", "static", "type", "macro_rules"}
CONTRACT = {"requires", "ensures"}


def derives_of(attribute):
    """Returns the traits of an attribute that is a `derive`, otherwise the empty set."""
    names = [it.text for it in attribute]
    return set(it.text for it in attribute[4:] if it.kind == "name") if names[2:4] == ["derive", "("] else set()


def past_head(tokens, at, ends):
    """Returns the index of the first token in `ends` outside of brackets, or the number of tokens if there is none."""
    while at < len(tokens) and tokens[at].text not in ends:
        text = tokens[at].text
        at = past_group(tokens, at) if text in OPEN else past_angles(tokens, at) if text == "<" else at + 1
    return at


def past_contract(tokens, at):
    """Returns the index after the `where` bounds and the clauses of a contract that begin at `at`."""
    while at < len(tokens) and tokens[at].text in CONTRACT | {"where"}:
        if tokens[at].text == "where":
            at = past_head(tokens, at + 1, CONTRACT | {"{", ";"})
            continue
        at = past_head(tokens, at + 1, {"{"})
        at = past_group(tokens, at)
    return at


def generics_at(tokens, at):
    """Returns the generics that begin at `at`, without their angle brackets, and the index after them."""
    if at < len(tokens) and tokens[at].text == "<":
        end = past_angles(tokens, at)
        return tokens[at + 1 : end - 1], end
    return [], at


def read_fn(tokens, at, item):
    item.name = tokens[at].text
    item.generics, at = generics_at(tokens, at + 1)
    end = past_group(tokens, at)
    item.head = tokens[at + 1 : end - 1]
    at = end
    if tokens[at].text == "->":
        end = past_head(tokens, at + 1, CONTRACT | {"{", ";", "where"})
        item.answer, at = tokens[at + 1 : end], end
    start = at
    at = past_contract(tokens, at)
    item.value = tokens[start:at]
    end = past_group(tokens, at) if tokens[at].text == "{" else at + 1
    item.body = tokens[at:end]
    return end + (end < len(tokens) and tokens[end].text == ";" and tokens[at].text == "{")


def read_type(tokens, at, item):
    item.name = tokens[at].text
    item.generics, at = generics_at(tokens, at + 1)
    if tokens[at].text in OPEN:
        end = past_group(tokens, at)
        item.body = tokens[at:end]
        return end + (tokens[at].text == "(")
    return at + 1


def read_block(tokens, at, item):
    """Parses a trait or an `impl` into `item`, and returns the index after its block."""
    item.generics, at = generics_at(tokens, at) if item.kind == "impl" else ([], at)
    if item.kind == "trait":
        item.name = tokens[at].text
        item.generics, at = generics_at(tokens, at + 1)
    brace = past_head(tokens, at, {"{"})
    head = tokens[at:brace]
    words = [it.text for it in head]
    if item.kind == "trait":
        item.bounds = head[1:]
    elif "for" in words and words[words.index("for") + 1 : words.index("for") + 2] != ["<"]:
        at = words.index("for")
        item.trait, item.head = head[:at], head[at + 1 :]
    else:
        item.head = head
    end = past_group(tokens, brace)
    item.body = tokens[brace + 1 : end - 1]
    return end


def read_stated(tokens, at, item):
    """Parses a constant, a static or an alias into `item`, and returns the index after its semicolon."""
    item.name = tokens[at].text
    item.generics, at = generics_at(tokens, at + 1)
    end = past_head(tokens, at, {"=", ";"})
    item.answer = tokens[at + 1 : end] if tokens[at].text == ":" else []
    last = past_head(tokens, end, {";"})
    item.value = tokens[end + 1 : last]
    return last + 1


def read_item(tokens, at, item):
    """Parses the item whose keyword is before `at` into `item`, and returns the index after it."""
    if item.kind == "fn":
        return read_fn(tokens, at, item)
    if item.kind in ("struct", "enum", "union"):
        return read_type(tokens, at, item)
    if item.kind in ("trait", "impl"):
        return read_block(tokens, at, item)
    if item.kind in ("const", "static", "type"):
        return read_stated(tokens, at, item)
    if item.kind == "use":
        end = past_head(tokens, at, {";"})
        item.head = tokens[at:end]
        return end + 1
    if item.kind == "macro_rules":
        item.name = tokens[at + 1].text
        end = past_group(tokens, at + 2)
        item.body = tokens[at + 2 : end]
        return end
    item.name = tokens[at].text
    if tokens[at + 1].text == "{":
        end = past_group(tokens, at + 1)
        item.body = tokens[at + 2 : end - 1]
        return end
    return at + 2


def items_of(tokens):
    """Returns the items that are not nested in a block of another item."""
    items, at = [], 0
    attributes, public = [], False
    while at < len(tokens):
        text = tokens[at].text
        if text == "#":
            start = at + 1 + (tokens[at + 1].text == "!")
            end = past_group(tokens, start)
            attributes.append(tokens[at:end])
            at = end
        elif text == "pub":
            public = tokens[at + 1].text != "("
            at = at + 1 if public else past_group(tokens, at + 1)
        elif text == "ghost":
            at = past_head(tokens, at, {";"}) + 1
            attributes, public = [], False
        elif text == "const" and tokens[at + 1].text in ("fn", "unsafe", "extern") or text in ("unsafe", "async"):
            at += 1
        elif text == "extern":
            at += 1 + (tokens[at + 1].kind == "string")
        elif text in ITEMS:
            item = Item(text, "", public, tokens[at].line)
            item.derives = set().union(*map(derives_of, attributes))
            item.attributes = [token for it in attributes for token in it]
            item.is_test = any([it.text for it in a][1:] == ["[", "cfg", "(", "test", ")", "]"] for a in attributes)
            at = read_item(tokens, at + 1, item)
            items.append(item)
            attributes, public = [], False
        else:
            # part of a macro call, or a block of foreign items
            end = past_group(tokens, at) if text in OPEN else at + 1
            items.append(Item("other", "", public, tokens[at].line, body=tokens[at:end]))
            at = end
            attributes, public = [], False
    return items


def uses_of(tokens):
    """Returns the names that a `use` declares, each with its path as a list of words. A `*` means all names."""
    def walk(tokens, front):
        for part in split_at(tokens, ","):
            words = [it.text for it in part]
            if "{" in words:
                at = words.index("{")
                yield from walk(part[at + 1 : -1], front + [it for it in words[:at] if it != "::"])
                continue
            name = words[words.index("as") + 1] if "as" in words else None
            path = front + [it for it in words[: words.index("as")] if it != "::"] if name else front + [it for it in words if it != "::"]
            if path[-1] == "self":
                path = path[:-1]
            yield name or path[-1], path
    return list(walk(tokens, []))
