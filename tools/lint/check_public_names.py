#!/usr/bin/env python3
"""Compares the public names of the libraries, with their variants, fields and signatures, with the required ones, which tools/lint/public_names.txt
lists. Additional names are not a difference, except variants, public fields, members of traits and derived traits.

usage: tools/lint/check_public_names.py [--self-test]

Prints a line for each difference, and exits with status 1 if there is one. Known differences are in the list too, each with its reason, and in a
table of docs/compatibility.md. A known difference that does not occur, or that only one of the two files has, is a difference too.
"""
import collections
import pathlib
import re
import sys

sys.path.append(str(pathlib.Path(__file__).resolve().parents[1] / "lib"))

import rattle_source
from rattle_source import ROOT, generics_at, items_of, past_angles, past_group, past_head, split_at, tokens_of, uses_of, written

NAMES = ROOT / "tools/lint/public_names.txt"
DIFFERENCES = ROOT / "docs/compatibility.md"
HEADING = "## Requirements"
DERIVED = {"Copy", "Clone", "Debug", "PartialOrd", "Ord", "PartialEq", "Eq", "Hash", "Default"}


class Module:
    """A module of a crate: its items and its modules by name, its re-exports and its `impl` blocks."""

    def __init__(self, path, tokens, file, root, read):
        self.path, self.items, self.modules, self.uses, self.impls = path, {}, {}, [], []
        self.root, self.read = root or self, read
        self.public_modules = set()
        for item in items_of(tokens):
            if item.kind == "mod" and not item.is_test:
                self.modules[item.name] = self.inner(item, file)
                self.public_modules |= {item.name} if item.public else set()
            elif item.kind == "use" and item.public:
                self.uses += uses_of(item.head)
            elif item.kind == "impl":
                self.impls.append(item)
            elif item.name and not item.is_test:
                self.items[item.name] = item

    def inner(self, item, file):
        path = f"{self.path}::{item.name}"
        if item.body:
            return Module(path, item.body, file.parent / item.name / "mod.rt", self.root, self.read)
        folder = file.parent if file.name in ("lib.rt", "mod.rt") else file.with_suffix("")
        source = folder / f"{item.name}.rt"
        return Module(path, tokens_of(self.read(source)), source, self.root, self.read)

    def all_impls(self):
        return self.impls + [it for module in self.modules.values() for it in module.all_impls()]

    def all_modules(self):
        return [self] + [it for name in sorted(self.public_modules) for it in self.modules[name].all_modules()]


def text_of(file):
    return file.read_text(encoding="utf-8")


class Crates:
    """The libraries, parsed on first use, and the resolution of their names. `read` returns the text of a file."""

    def __init__(self, read):
        self.read, self.known = read, {}

    def crate(self, name):
        if name not in self.known:
            file = rattle_source.CRATES / name / "src/lib.rt"
            self.known[name] = Module(name, tokens_of(self.read(file)), file, None, self.read) if file.exists() else None
        return self.known[name]

    def find(self, path, start=None):
        """Returns the module of a path, or its item with the module that declares it, or `None` if the path does not resolve."""
        words = list(path)
        if start and words[0] in ("crate", "self", "super"):
            here = start.root if words[0] == "crate" else start
            words = words[1:]
        elif start and (words[0] in start.modules or words[0] in start.items or any(name == words[0] for name, _ in start.uses)):
            here = start
        else:
            here, words = self.crate(words[0]), words[1:]
        for at, word in enumerate(words):
            here = self.step(here, word, inside=start is not None)
            if not isinstance(here, Module):
                return here if at == len(words) - 1 else None
        return here

    def step(self, module, word, inside):
        if module is None:
            return None
        if word in module.modules and (inside or word in module.public_modules):
            return module.modules[word]
        if word in module.items and (inside or module.items[word].public):
            return module.items[word], module
        for name, path in module.uses:
            if name == word and path != [word]:
                return self.find(path, module)
            if name == "*":
                found = self.step(self.find(path[:-1], module), word, inside=False)
                if found:
                    return found
        return None


def short(words):
    """Returns the tokens of paths reduced to their last segments."""
    return [it for i, it in enumerate(words) if it != "::" and words[i + 1 : i + 2] != ["::"]]


def texts(tokens):
    return [it.text for it in tokens]


def elided(words, fresh, answer=None):
    """Returns the tokens with a lifetime at each elided one: `answer` if it is given, otherwise a fresh one."""
    result = []
    for at, word in enumerate(words):
        if word == "'_":
            result.append(answer or fresh())
        else:
            result.append(word)
            if word == "&" and not words[at + 1 : at + 2][0].startswith("'"):
                result.append(answer or fresh())
    return result


def receiver(words, fresh):
    """Returns the tokens of a `self` parameter, and the lifetime of its reference, or `None` if it is not a reference."""
    words = [it for it in words if it != "mut" or words[0] == "&"]
    if words[0] != "&":
        return words, None
    if not words[1].startswith("'"):
        words = ["&", fresh()] + words[1:]
    return words, words[1]


def without_name(part):
    """Returns the tokens of a parameter's type."""
    for at, token in enumerate(part):
        if token.text == ":":
            return part[at + 1 :]
    return part


def bounds_of(part):
    """Returns the tokens of a generic parameter, with its bounds in alphabetical order."""
    words = texts(part)
    if ":" not in words or words[0] == "const":
        return short(words)
    at = words.index(":")
    bounds = sorted(written(it) for it in split_at(part[at + 1 :], "+"))
    return [words[0], ":"] + short(texts(tokens_of("+".join(bounds))))


def names_in(generics):
    """Returns the names of generic parameters: lifetimes, types and constants."""
    return [texts(it)[1] if texts(it)[0] == "const" else texts(it)[0] for it in split_at(generics, ",")]


def renamed(words, names, front):
    """Returns the tokens with each name of a generic parameter replaced by `front` and the index of its first occurrence among these names."""
    order = [it for it in dict.fromkeys(words) if it in names]
    places = {it: f"{front}{i}" for i, it in enumerate(order)}
    return [places.get(it, it) for it in words]


def signature(item, own, own_names):
    """Returns a function's comparable form: its parameters, return type and generics, with names replaced by their order. `own` replaces `Self`."""
    count = iter(range(100))
    fresh = lambda: f"'fresh{next(count)}"
    parameters, loan = [], None
    for part in split_at(item.head, ","):
        if "self" in texts(part)[-1:]:
            words, loan = receiver(texts(part), fresh)
        else:
            words = elided(texts(without_name(part)), fresh)
        parameters.append(words)
    inputs = [it for words in parameters for it in words if it.startswith("'")]
    only = loan or (inputs[0] if len(set(inputs)) == 1 else None)
    answer = elided(texts(item.answer), fresh, only)
    line = ["("] + [it for words in parameters for it in words + [","]] + [")", "->"] + answer
    line += ["<"] + [it for part in split_at(item.generics, ",") for it in bounds_of(part) + [","] if not part[0].text.startswith("'")] + [">"]
    line = [word for it in short(line) for word in (own if it == "Self" else [it])]
    line = renamed(line, names_in(item.generics) + [f"'fresh{i}" for i in range(100)], "given ")
    return " ".join(renamed(line, own_names, "own "))


def shown(item):
    """Returns a function's signature as text, for a message."""
    generics = "<" + written(item.generics) + ">" if item.generics else ""
    parts = [written(it if "self" in texts(it)[-1:] else without_name(it)) for it in split_at(item.head, ",")]
    return spaced(f"{generics}({','.join(parts)})" + (f" -> {written(item.answer)}" if item.answer else ""))


def spaced(text):
    text = re.sub(r",(?=\S)", ", ", re.sub(r",(?=[)}>\]])", "", text))
    return re.sub(r"(?<=\w):(?=[\w&'<\[(])", ": ", re.sub(r"(?<=[\w>\])])\+(?=[\w'])", " + ", text)).replace(")->", ") -> ")


class Names:
    """The comparison: each method compares the rest of a line of its kind and yields the differences."""

    def __init__(self, crates):
        self.crates, self.asked_members, self.elsewhere = crates, collections.defaultdict(set), collections.defaultdict(set)
        self.exceptions = collections.defaultdict(dict)

    def at(self, path):
        """Returns the item of a path with its module. Items of a crate without a library are searched for in wat_tokens_run and its re-exports."""
        found = self.crates.find(path)
        if found or self.crates.crate(path[0]) is not None:
            return found
        for module in self.crates.crate("wat_tokens_run").all_modules():
            found = self.crates.step(module, path[-1], inside=False)
            if found:
                self.elsewhere[path[0], module.path].add(path[-1])
                return found
        for name, path_of in self.crates.crate("wat_tokens_run").uses:
            module = self.crates.find(path_of, self.crates.crate("wat_tokens_run"))
            found = self.crates.step(module, path[-1], inside=False) if isinstance(module, Module) else None
            if found:
                self.elsewhere[path[0], f"wat_tokens_run::{name}"].add(path[-1])
                return found
        return None

    def moved(self):
        for (asked, here), names in sorted(self.elsewhere.items()):
            yield f"elsewhere: of {asked}, here in {here}: {', '.join(sorted(names))}"

    def module(self, line):
        if not isinstance(self.crates.find(line.split("::")), Module):
            yield f"missing: module {line}"

    def same(self, line):
        here, other = (it.split("::") for it in line.split(" = "))
        if self.at(here) is None or self.at(here) != self.crates.find(other):
            yield f"missing: {line.split(' = ')[0]}, another name of {line.split(' = ')[1]}"

    def head(self, line):
        """Returns the path of a line, the generic parameters at its end, and the tokens after them."""
        tokens = tokens_of(line)
        at = past_head(tokens, 0, {"<", "{", "(", ":", "="})
        path = [it.text for it in tokens[:at] if it.text != "::"]
        generics, at = generics_at(tokens, at)
        return path, generics, tokens[at:]

    def found(self, path, kind):
        found = self.at(path)
        return found if found and not isinstance(found, Module) and found[0].kind == kind else None

    def struct(self, line):
        path, generics, rest = self.head(line)
        found = self.found(path, "struct")
        if not found:
            yield f"missing: struct {'::'.join(path)}"
            return
        item = found[0]
        place = "::".join(path)
        if len(split_at(item.generics, ",")) != len(split_at(generics, ",")):
            yield f"other: struct {place}: asked <{written(generics)}>, here <{written(item.generics)}>"
        asked = {it[0].text: it for it in split_at(rest[1:-1], ",")}
        open_end = asked.pop("..", None) is not None or not rest
        public, private = fields_of(item)
        yield from compared(f"struct {place}", "field", {k: field(v) for k, v in asked.items()}, public)
        if private and not open_end:
            yield f"beyond: struct {place}: private fields {', '.join(private)}"

    def enum(self, line):
        path, generics, rest = self.head(line)
        found = self.found(path, "enum")
        if not found:
            yield f"missing: enum {'::'.join(path)}"
            return
        asked = {it[0].text: spaced(written(it)) for it in split_at(rest[1:-1], ",")}
        here = {it[0].text: spaced(written(it)) for it in map(without_attributes, split_at(found[0].body[1:-1], ",")) if it}
        yield from compared(f"enum {'::'.join(path)}", "variant", asked, here)
        if list(asked) != list(here) and set(asked) == set(here):
            yield f"other: enum {'::'.join(path)}: asked in the order {', '.join(asked)}, here {', '.join(here)}"

    def trait(self, line):
        path, generics, rest = self.head(line)
        found = self.found(path, "trait")
        if not found:
            yield f"missing: trait {'::'.join(path)}"
            return
        asked, here = (sorted(written(it) for it in split_at(bounds, "+")) for bounds in (rest[1:], found[0].bounds))
        if asked != here:
            yield f"other: trait {'::'.join(path)}: asked {' + '.join(asked) or 'nothing'} of its types, here {' + '.join(here) or 'nothing'}"
        members = {it.name for it in items_of(found[0].body)}
        for name in sorted(members - self.asked_members["::".join(path)]):
            yield f"beyond: trait {'::'.join(path)}: {name}"

    def method(self, path, own):
        """Returns the public function at a path, of a module, a type or a trait, with the tokens and the generic names of its type, or `None`."""
        found = self.at(path)
        if found and not isinstance(found, Module) and found[0].kind == "fn":
            return found[0], ["Self"], []
        found = self.at(path[:-1])
        if not found or isinstance(found, Module):
            return None
        item, module = found
        if item.kind == "trait":
            member = next((it for it in items_of(item.body) if it.name == path[-1]), None)
            return member and (member, ["Self"], names_in(item.generics))
        for block in module.root.all_impls():
            if not block.trait and block.head[0].text == item.name:
                for member in items_of(block.body):
                    if member.name == path[-1] and member.public and not member.is_test:
                        return member, texts(block.head), names_in(block.generics)
        return None

    def fn(self, line):
        tokens = tokens_of("fn " + line + ";")
        brace = past_head_of_path(tokens)
        path = [it.text for it in plain_path(tokens[1:brace]) if it.text != "::"]
        own = own_type(tokens[1:brace])
        (asked,) = items_of(tokens[:1] + [tokens[brace - 1]] + tokens[brace:])
        place = "::".join(path)
        found = self.method(path, own)
        if not found:
            yield f"missing: fn {place}{shown(asked)}"
            return
        item, here, names = found
        trait_names = names if here == ["Self"] else own[1:]
        wanted = signature(asked, [own[0]] + angled(own[1:]) if here != ["Self"] else ["Self"], trait_names)
        if wanted != signature(item, here, names):
            yield f"other: fn {place}: asked {shown(asked)}, here {shown(item)}"

    def none(self, line):
        if " for " in line:
            if self.impl_of(*line.split(" for ")):
                yield f"beyond: impl {line}"
        elif self.method(line.split("::"), None):
            yield f"beyond: fn {line}"

    def const(self, line):
        place, stated = line.split(": ", 1)
        path = place.split("::")
        found = self.at(path) or self.at(path[:-1])
        item = found and not isinstance(found, Module) and found[0]
        if item and item.kind == "trait":
            item = next((it for it in items_of(item.body) if it.name == path[-1]), None)
        if not item or item.kind != "const":
            yield f"missing: const {place}"
            return
        here = written(item.answer) + (f" = {written(item.value)}" if " = " in stated else "")
        if here != stated:
            yield f"other: const {place}: asked {stated}, here {here}"

    def type(self, line):
        path, generics, rest = self.head(line)
        yield from self.alias(path, generics, rest[1:])

    def alias(self, path, generics, value):
        found = self.found(path, "type")
        if not found:
            yield f"missing: type {'::'.join(path)}"
        elif short(texts(found[0].generics + found[0].value)) != short(texts(generics + value)):
            yield f"other: type {'::'.join(path)}: asked {written(value)}, here {written(found[0].value)}"

    def word(self, line):
        place, word, _, name = line.split()
        self.exceptions[place][word] = name
        return ()

    def words(self, line):
        place, rest = line.split(" = ")
        value, file = rest.split(", ")
        file, stretch = file.split()
        for at, word in enumerate(text_of(ROOT / "tools/lint" / file).split("\n\n")[int(stretch) - 1].split()):
            name = self.exceptions[place].get(word, re.sub(r"[-.:]", "_", word))
            yield from self.alias(place.split("::") + [name], [], tokens_of(value.replace("<I>", f"<{at}>")))

    def impl_of(self, trait, type_of):
        """Returns the `impl` of a trait for a type, or `None`. All parsed crates are searched, as a trait may be implemented in a different crate."""
        asked = renamed(short(texts(tokens_of(type_of))), GENERIC, "own ")
        name = texts(tokens_of(trait))[0]
        for crate in [it for it in self.crates.known.values() if it]:
            for block in crate.all_impls():
                if block.trait and short(texts(block.trait))[0] == name:
                    if renamed(short(texts(block.head)), GENERIC, "own ") == asked:
                        return block
        return None

    def impl(self, line):
        tokens = tokens_of(line)
        generics, at = generics_at(tokens, 0)
        head, type_of = line.split(" for ", 1) if "FnOnce" not in line else (line, "")
        trait = tokens[at : past_trait(tokens, at)]
        block = self.impl_of(written(trait), type_of)
        if not block:
            yield f"missing: impl {spaced(written(trait))} for {type_of}"
            return
        asked, here = (sorted(" ".join(bounds_of(it)) for it in split_at(parts, ",") if ":" in texts(it)) for parts in (generics, block.generics))
        if asked != here:
            yield f"other: impl {spaced(written(trait))} for {type_of}: asked <{spaced(written(generics))}>, here <{spaced(written(block.generics))}>"
        members = {it.name: written(it.value) for it in items_of(block.body) if it.kind in ("type", "const")}
        for part in split_at(generics_at(trait, 1)[0], ","):
            if "=" in texts(part) and members.get(part[0].text) != written(part[2:]):
                yield f"other: impl {written(trait[:1])} for {type_of}: asked {spaced(written(part))}, here {members.get(part[0].text)}"

    def traits_of(self, path):
        found = self.at(path)
        if not found or isinstance(found, Module):
            return None
        item, module = found
        blocks = [it for it in module.root.all_impls() if it.trait and it.head[0].text == item.name]
        return item.derives | {short(texts(it.trait))[0] for it in blocks}

    def traits(self, line):
        place, asked = line.split(": ")
        here = self.traits_of(place.split("::"))
        asked = set(asked.split(", "))
        if here is None:
            yield f"missing: {place}, with its traits"
            return
        for name in sorted(asked - here):
            yield f"missing: {name} of {place}"
        for name in sorted((here & DERIVED) - asked):
            yield f"beyond: {name} of {place}"

    def has(self, line):
        place, asked = line.split(": ")
        for name in sorted(set(asked.split(", ")) - (self.traits_of(place.split("::")) or set())):
            yield f"missing: {name} of {place}"


GENERIC = {"'a", "'b", "'l", "'p", "'_", "T", "U", "V", "K", "N", "I"}


def angled(names):
    return ["<"] + [it for name in names for it in (name, ",")][:-1] + [">"] if names else []


def past_trait(tokens, at):
    while tokens[at].text != "for":
        at = past_angles(tokens, at) if tokens[at].text == "<" else at + 1
    return at


def past_head_of_path(tokens):
    """Returns the index at which a function's generic parameters or its parameters begin."""
    at = 1
    while tokens[at].text != "(":
        if tokens[at].text == "<":
            end = past_angles(tokens, at)
            if tokens[end].text != "::":
                return at
            at = end
        else:
            at += 1
    return at


def plain_path(tokens):
    """Returns the tokens of a path without the generics of its type."""
    result, at = [], 0
    while at < len(tokens):
        if tokens[at].text == "<":
            at = past_angles(tokens, at)
        else:
            result.append(tokens[at])
            at += 1
    return result


def own_type(tokens):
    """Returns the name of the type in a function's path, followed by the names of its generic parameters."""
    words = texts(tokens)
    if "<" in words:
        at = words.index("<")
        return [words[at - 1]] + names_in(generics_at(tokens, at)[0])
    return [words[-3]] if len(words) > 2 else [""]


def without_attributes(part):
    while part and part[0].text == "#":
        part = part[past_group(part, 1) :]
    return part


def field(part):
    return spaced(written(part[2:]))


def fields_of(item):
    """Returns the public fields of a struct by name, and the names of the private ones."""
    public, private = {}, []
    body = item.body[1:-1]
    for number, part in enumerate(map(without_attributes, split_at(body, ","))):
        words = texts(part)
        is_public = words[:1] == ["pub"] and words[1:2] != ["("]
        if words[:2] == ["pub", "("]:
            part = part[past_group(part, 1) :]
        part = part[1:] if is_public else part
        named = item.body[0].text == "{"
        name = part[0].text if named else str(number)
        if is_public:
            public[name] = field(part) if named else spaced(written(part))
        else:
            private.append(name)
    return public, private


def compared(what, kind, asked, here):
    for name in asked:
        if name not in here:
            yield f"missing: {what}: {kind} {name}"
        elif asked[name] != here[name]:
            yield f"other: {what}: asked {asked[name]}, here {here[name]}"
    for name in here:
        if name not in asked:
            yield f"beyond: {what}: {kind} {name}"


def lines_of(text):
    """Returns the lines of the list, and the blocks of the known differences."""
    items, _, known = text.partition("\ndepartures\n")
    lines = [it for it in items.split("\n") if it and not it.startswith("#")]
    blocks = []
    for block in known.strip().split("\n\n") if known.strip() else []:
        blocks.append([tuple(it.split(": ", 1)) for it in block.split("\n") if not it.startswith("#")])
    return lines, blocks


def differences(lines, read=text_of):
    """Returns the differences between the sources and the lines of the list."""
    names = Names(Crates(read))
    for line in lines:
        kind, rest = line.split(" ", 1)
        if kind in ("fn", "const"):
            path = re.sub(r"<[^<>]*>(?=::)", "", re.split(r"\(|(?<!:):(?!:)|<(?=[A-Z'][^<>]*[:,]? )", rest)[0])
            names.asked_members[path.rpartition("::")[0]].add(re.split(r"[<(]", path.rpartition("::")[2])[0])
        names.crates.crate(re.match(r"\w+", rest)[0]) if "::" in rest else None
    found = []
    for line in sorted(lines, key=lambda it: not it.startswith("word ")):
        kind, rest = line.split(" ", 1)
        if kind.startswith("impl"):
            kind, rest = "impl", line[4:].strip()
        found += getattr(Names, kind)(names, rest)
    return found + list(names.moved())


def row(block):
    cells = dict(block)
    return f"| {cells['asked']} | {cells['here']} | {cells['reason']} |"


def table(text):
    """Returns the rows of the table under the heading."""
    section = text.partition(HEADING + "\n")[2].partition("\n## ")[0]
    return [it for it in section.split("\n") if it.startswith("| ")][1:]


def check(lines, blocks, document):
    """Yields the differences that are not known, and the faults of the known ones."""
    found = differences(lines)
    known = [rest for block in blocks for key, rest in block if key == "is"]
    yield from (it for it in found if it not in known)
    yield from (f"known, and no difference: {it}" for it in known if it not in found)
    yield from (f"known twice: {it}" for it, count in collections.Counter(known).items() if count > 1)
    rows, wanted = table(document), [row(it) for it in blocks]
    yield from (f"not in the table of compatibility.md: {it}" for it in wanted if it not in rows)
    yield from (f"in the table of compatibility.md alone: {it}" for it in rows if it not in wanted)


# Seeded faults: a file, the old text, the new text, and the beginning of the line that reports the fault.
PLANTED = [
    ("wat_lex/src/lexer/kinds.rt", "    pub len: u32,", "    pub len: u64,", "other: struct wat_lex::lexer::Token: asked u32, here u64"),
    ("wat_lex/src/lexer/kinds.rt", "    Plus,\n", "", "missing: enum wat_lex::lexer::SignToken: variant Plus"),
    ("wat_lex/src/lexer/faults.rt", "    EmptyId,\n", "    EmptyId,\n    Other,\n", "beyond: enum wat_lex::lexer::LexError: variant Other"),
    ("wat_lex/src/lexer/faults.rt", "    Unexpected(char)", "    Unexpected(u32)", "other: enum wat_lex::lexer::LexError: asked Unexpected(char), here"),
    ("wat_lex/src/lexer.rt", "pub fn strict_underscores(", "pub(crate) fn strict_underscores(", "missing: fn wat_lex::lexer::Lexer::strict_underscores"),
    ("wat_lex/src/lexer.rt", "pub fn scan(&self, pos: usize)", "pub fn scan(&self, pos: u32)", "other: fn wat_lex::lexer::Lexer::scan"),
    ("wat_lex/src/lexer.rt", "pub fn input(&self) -> &'a str", "pub fn input(&self) -> &str", "other: fn wat_lex::lexer::Lexer::input"),
    ("wat_lex/src/lexer.rt", "pub use settings::Settings;", "use settings::Settings;", "missing: struct wat_lex::lexer::Settings"),
    ("wat_lex/src/lexer.rt", "type Item = Result<Token, Error>;", "type Item = Token;", "other: impl Iterator for Tokens<'l, 'a>"),
    ("wat_lex/src/token.rt", "#[derive(Copy, Clone, Debug, PartialOrd, Ord,", "#[derive(Copy, Clone, Debug,", "missing: Ord of wat_lex::token::Span"),
    ("wat_lex/src/lexer/kinds.rt", "#[derive(Clone, Copy, Debug, PartialEq)]", "#[derive(Clone, Copy, Debug, PartialEq, Eq)]", "beyond: Eq of wat_lex::lexer::"),
    ("wat_lex/src/error.rt", "pub fn message(&self, alloc: Global)", "pub fn message(&self)", "other: fn wat_lex::error::Error::message"),
    ("wat_lex/src/encode.rt", "impl Encode for String", "impl Encode for Box<str>", "missing: impl Encode for String"),
    ("wat_lex/src/encode.rt", "    fn encode(&self, e: &mut Vec<u8>)", "    fn size(&self) -> usize;\n    fn encode(&self, e: &mut Vec<u8>)", "beyond: trait wat_lex::encode::Encode: size"),
    ("wat_words/src/lib.rt", "const AT: bool = true;", "const AT: bool = false;", "other: impl Word for StdAnnotation<I>"),
    ("wat_lexer_parser/src/lib.rt", "pub use wat_lex::error::Error;", "use wat_lex::error::Error;", "missing: wat_lexer_parser::Error"),
    ("wat_lexer_parser/src/lib.rt", "pub use wat_lex::{encode, gensym, lexer};", "pub use wat_lex::{encode, lexer};", "missing: wat_lexer_parser::gensym"),
    ("wat_lexer_parser/src/kw.rt", "pub type func = Keyword<Std<54>>;", "pub type func = Keyword<Std<55>>;", "other: type wat_lexer_parser::kw::func"),
    ("wat_lexer_parser/src/kw.rt", "pub type external_id =", "pub type external =", "missing: type wat_lexer_parser::kw::external_id"),
    ("wat_lexer_parser/src/parser.rt", "MAX_PARENS_DEPTH: usize = 100", "MAX_PARENS_DEPTH: usize = 101", "other: const wat_lexer_parser::parser::MAX_PARENS_DEPTH"),
    ("wat_lexer_parser/src/parser.rt", "pub use peek::Peek;", "use peek::Peek;", "missing: trait wat_lexer_parser::parser::Peek"),
    ("wat_lexer_parser/src/parser/calls.rt", "    Parens(usize),", "    Parens(u32),", "other: enum wat_lexer_parser::parser::Call: asked Parens(usize), here"),
    ("wat_lexer_parser/src/token/containers.rt", "impl<'a, T: Parse<'a> + Peek> Parse<'a> for Option<T>", "impl<'a, T: Parse<'a> + Peek + Copy> Parse<'a> for Option<T>", "other: impl Parse<'a> for Option<T>"),
    ("wat_lexer_parser/src/token/strings.rt", "impl<'a> Parse<'a> for String", "impl Peek for String", "missing: impl Parse<'a> for String"),
    ("wat_tokens_output/src/calls.rt", "pub fn read_call(alloc: Global, word: &str)", "pub fn read_call(word: &str)", "other: fn wat_tokens::read_call"),
    ("wat_types/src/lib.rt", "pub fn compile_types(alloc: Global, text: &str) -> Result<Vec<u8>, Error>", "pub fn compile_types(alloc: Global, text: &str) -> Result<String, Error>", "other: fn wat_types::compile_types"),
]


def planted_found(lines, file, before, after, said):
    """Returns `True` if a seeded fault is reported."""
    place = rattle_source.CRATES / file
    if before not in text_of(place):
        return False
    read = lambda it: text_of(it).replace(before, after) if it == place else text_of(it)
    return any(it.startswith(said) for it in differences(lines, read))


def self_test():
    lines, blocks = lines_of(text_of(NAMES))
    missed = [it for it in PLANTED if not planted_found(lines, *it)]
    for file, before, after, said in missed:
        print(f"check_public_names.py: not seen: {file}: {before.strip()} as {after.strip() or 'nothing'}")
    text = HEADING + "\n\n| asked | here | reason |\n|---|---|---|\n| a | b | c |\n"
    block = [("is", "missing: a"), ("asked", "x"), ("here", "y"), ("reason", "z")]
    known = list(check(["module wat_lex::lexer"], [block], text))
    lists = [it.split(":")[0] for it in known]
    if lists != ["known, and no difference", "not in the table of compatibility.md", "in the table of compatibility.md alone"]:
        print(f"check_public_names.py: of two lists that differ it says {known}")
        missed.append(None)
    print(f"check_public_names.py: {len(PLANTED) + 1 - len(missed)} of {len(PLANTED) + 1} planted differences seen")
    return 1 if missed else 0


def main():
    if sys.argv[1:] == ["--self-test"]:
        return self_test()
    if sys.argv[1:]:
        print(__doc__.split("\n\n")[1], file=sys.stderr)
        return 2
    lines, blocks = lines_of(text_of(NAMES))
    found = list(check(lines, blocks, text_of(DIFFERENCES)))
    for it in found:
        print(it)
    print(f"check_public_names.py: {len(lines)} lines, {len(blocks)} known differences, {len(found)} others")
    return 1 if found else 0


if __name__ == "__main__":
    sys.exit(main())
