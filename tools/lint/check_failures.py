#!/usr/bin/env python3
"""Searches the sources for code that could return an allocation failure without a failed allocation, or a failure without a failed system call.

usage: tools/lint/check_failures.py [--self-test] [CRATES]

It checks the tokens of each source that is built into a library or a program. Outside of the expressions in its lists, each of which has a reason, it
reports: values that mean an allocation failure; allocations whose size is neither one item nor a given text; allocations whose failure is not
propagated, or whose capacity is not used; values that mean a failed call; and code that keeps memory forever. Contracts, comments, strings and items
after `#[cfg(test)]` are ignored. docs/verification.md lists what it does not see. CRATES is the folder of the crates.
"""
import collections
import dataclasses
import pathlib
import re
import sys
import tempfile

sys.path.append(str(pathlib.Path(__file__).resolve().parents[1] / "lib"))

import rattle_source
from rattle_source import OPEN, items_of, past_group, split_at, tokens_of, uses_of, written

# Each entry of a list has a file, a function of it, and an expression that occurs there once. A function of an `impl` is preceded by the type's name,
# and by the trait's if there is one.
# The expressions that may construct an allocation failure, each with its reason.
REFUSALS = [
    ("wat_lex/src/error.rt", "Error::out_of_memory", "Error::from(AllocError)", "the public constructor, for callers who have no refusal in hand"),
    ("wat_lex/src/encode.rt", "From<AllocError> for EncodeError::from", "EncodeError::Memory", "made of a refusal"),
    ("wat_lex/src/gensym.rt", "From<AllocError> for FillError::from", "FillError::Memory", "made of a refusal"),
    ("wat_tokens_output/src/input.rt", "From<RunFailure> for RunError::from", "RunFailure::Memory(_) => RunError::Memory", "made of one that holds a refusal"),
    (
        "wat_types/src/lib.rt",
        "compile_types",
        "Err(EncodeError::Memory) => Err(Error::out_of_memory())",
        "of a variant that holds nothing, and is made of a refusal",
    ),
    (
        "wat_module_encoder/src/bytes.rt",
        "refused",
        "let _ = error; AllocError",
        "of a variant that holds nothing, and is made of a refusal; the `requires` of `refused` states which",
    ),
    ("wat_module_ast/src/fields.rt", "len_of", "return Err(AllocError)", "of more bytes than a `Vec` has: a request for them is refused"),
    (
        "wat_module_encoder/src/code.rt",
        "sum",
        "None => Err(AllocError)",
        "of 2^64 locals of one type or more, while each local that the parser reads is one of at most 2^32 tokens",
    ),
    (
        "wat_tokens/src/main.rt",
        "not_read",
        "io::ErrorKind::OutOfMemory => Outcome::Refused(RunFailure::from(AllocError))",
        "the standard library keeps only the kind of an `io::Error`, and this kind is that of a refused request",
    ),
]
# Allocations whose size is neither one item nor a given text: the allocation; the function's body up to it, which shows its size (empty if not
# checked); and the reason why the size is bounded by that of existing data.
REQUESTS = [
    (
        "wat_lexer_parser/src/parser/table.rt",
        "Table::new",
        "Vec::with_capacity(alloc, initial_capacity(text))",
        "Ok(Table { tokens:",
        "by the clause of `initial_capacity` a token for each two bytes of the text, and at most 65,472 tokens",
    ),
    (
        "wat_lexer_parser/src/parser/table.rt",
        "closes",
        "vec![in alloc; None; opens.len()]",
        "let mut closes: Vec<Option<usize>> =",
        "a place for each annotation of the text",
    ),
    (
        "wat_lexer_parser/src/laws.rt",
        "overwritten",
        "String::with_capacity(alloc, text.len())",
        "let end = token.offset + token.len as usize; let mut other =",
        "a text as long as the one given",
    ),
    (
        "wat_lexer_parser/src/parser/lookahead.rt",
        "one_of",
        'attempts.join(alloc, ", ")',
        "let all =",
        "the types that were looked for, each once",
    ),
    (
        "wat_module_ast/src/indexed_types.rt",
        "IndexedTypes::push",
        "self.types.reserve(1)",
        "let key = type_key(self.alloc, &of)?; let index = self.types.len();",
        "room for a single type",
    ),
    (
        "wat_valid/src/context.rt",
        "declared_of",
        "vec![in alloc; false; count]",
        "let mut declared =",
        "a byte for each function of the module",
    ),
    (
        "wat_valid/src/locals.rt",
        "run_ends",
        "Vec::with_capacity(alloc, runs.len())",
        "let mut ends =",
        "an index for each run of locals that is given",
    ),
    (
        "wat_valid/src/messages.rt",
        "listed",
        'words.join(alloc, " ")',
        "let all =",
        "at most 33 words, the names of types",
    ),
    (
        "wat_module_parser/src/variables.rt",
        "value_types",
        "Vec::with_capacity(alloc, types.len())",
        "let mut copy =",
        "as many types as the slice that is given",
    ),
    (
        "wat_lex/src/lexer/read/strings.rt",
        "unescaped",
        "Vec::with_capacity(alloc, elements.len().min(FIRST_CAPACITY))",
        "let mut value =",
        "the bytes of a short string",
    ),
    ("wat_module_instructions/src/machine.rt", "instructions", "Vec::with_capacity(alloc, 1)", "let mut out =", "room for a single instruction"),
    ("wat_module_instructions/src/machine.rt", "one_folded", "Vec::with_capacity(alloc, 1)", "let mut out =", "room for a single instruction"),
    ("wat_module_instructions/src/frame.rt", "Frames<'p>::push", "self.open.reserve(1)", "", "room for a single part"),
    ("wat_module_instructions/src/open_labels.rt", "Labels<'n>::push", "self.open.reserve(1)", "", "room for a single label"),
    (
        "wat_floats/src/literal.rt",
        "joined_magnitude",
        "Vec::with_capacity(alloc, word.len())",
        "if !word.contains(&b'_') { return Ok(magnitude(precision, word)); } let mut joined =",
        "as many bytes as the word that is given",
    ),
    (
        "wat_lex/src/error/pieces.rt",
        "fmt::Display for Piece<'_>::fmt",
        'Piece::Marker(column) => write!(f, "{mark:>column$}")',
        "",
        "the marker under a fault, whose column is at most 500",
    ),
    (
        "wat_format/src/format.rt",
        "format",
        "String::with_capacity(alloc, text.len())",
        "let lexer = Lexer::with_settings(text, settings); let mut formatter = Formatter::new(alloc); let mut out =",
        "a text as long as the one given",
    ),
    (
        "wat_c/src/printing.rt",
        "shown_at",
        "Vec::from_elem(alloc, 0, rendered.length())",
        "let rendered = rendered_at(text, offset); let mut shown =",
        "the fault's line, which is a part of the text, with its marker",
    ),
]
# The expressions that may construct a value of a failed call, or an integer that means an allocation failure, each with the value it is derived from.
FAILURES = [
    ("wat_tokens_io/src/failed.rt", "Failed::of", "Failed { code: error.raw_os_error().map(|code| code.unsigned_abs()) }", "of an error of std's"),
    ("wat_tokens_io/src/failed.rt", "taken", "Ok(0) => Err(Failed { code: None })", "of a write that takes nothing"),
    ("wat_tokens_io/src/ends.rt", "write_through", "taken(writer.write(&bytes[written..]))", "of the write"),
    ("wat_tokens_output/src/input.rt", "From<RunFailure> for RunError::from", "RunFailure::Read(_) => RunError::Read", "of one that holds a failure"),
    ("wat_tokens_output/src/input.rt", "From<RunFailure> for RunError::from", "RunFailure::Write(_) => RunError::Write", "of one that holds a failure"),
    (
        "wat_tokens_output/src/printer.rt",
        "Printer<'_,W>::finish",
        "None => Err(io::Error::from(io::ErrorKind::Other))",
        "of a value that was not printed although no write failed",
    ),
    (
        "wat_tokens_output/src/printer.rt",
        "fmt::Write for Printer<'_,W>::write_str",
        "Err(error) => { self.error = Some(error); Err(fmt::Error) }",
        "of the write",
    ),
    ("wat_c/src/answers.rt", "Refusal::answer", "Answer { needed: 0, status: self.status() }", "of the refusal"),
    ("wat_c/src/answers.rt", "Refusal::status", "Refusal::Memory(_) => 2", "of the refusal"),
    ("wat_c/src/float_bits.rt", "Bits32::of", "Err(_) => Bits32::refused(2)", "of the refusal"),
    ("wat_c/src/float_bits.rt", "Bits64::of", "Err(_) => Bits64::refused(2)", "of the refusal"),
    ("wat_c_records/src/answers.rt", "Look::of", "Err(NotVisible::Memory(_)) => (rows, 2)", "of the refusal"),
    ("wat_c_records/src/answers.rt", "Look::of", "Look { row: row as u32, status }", "of what the look found"),
    (
        "wat_tokens_run/src/outcome.rt",
        "Outcome<'a>::exit",
        "Outcome::Refused(_) | Outcome::Unopened(_) | Outcome::Wrong(_) | Outcome::Kept => 2",
        "of what the run ended in",
    ),
    ("wat_tokens_run/src/outcome.rt", "Outcome<'a>::exit", "Exit { code }", "of what the run ended in"),
    ("wat_tokens/src/kept.rt", "From<AllocError> for Kept::from", "Kept::Unwritten(io::Error::from(refused))", "of the refused request"),
    ("wat_tokens_run/src/respond.rt", "respond", "reported(&Outcome::Wrong(complaint), None, errors) }", "of words that ask for nothing, by the contract of `respond`"),
    ("wat_tokens_run/src/respond.rt", "respond", "return reported(&Outcome::Wrong(complaint), None, errors)", "of a word that names no file, by the same"),
    (
        "wat_tokens_run/src/respond.rt",
        "respond",
        "reported(&Outcome::Wrong(Complaint::Terminal), None, errors)",
        "of bytes that would go to a terminal, by the same",
    ),
    ("wat_tokens/src/main.rt", "not_read", "Outcome::Wrong(Complaint::Usage)", "of words that can't be read"),
    ("wat_tokens/src/report.rt", "complain", "Outcome::Kept.exit(true)", "of what was reported"),
    ("wat_tokens_run/src/outcome.rt", "Exit::or", "Exit { code: self.code.max(other.code) }", "of two statuses"),
    ("wat_tokens_run/src/outcome.rt", "Exit::idle", "Exit { code: 0 }", "of nothing that was done"),
]
# Files in which a status is a plain integer.
STATUSES = {
    "wat_c/src/answers.rt",
    "wat_c/src/by_place.rt",
    "wat_c/src/comments.rt",
    "wat_c/src/messages.rt",
    "wat_c/src/printing.rt",
    "wat_c_records/src/answers.rt",
    "wat_c_records/src/looks.rt",
    "wat_tokens_run/src/respond.rt",
    "wat_tokens_run/src/outcome.rt",
    "wat_tokens/src/layout.rt",
    "wat_tokens/src/main.rt",
}

# Names of types and functions that mean an allocation failure.
REFUSAL = {"AllocError", "AllocFailed", "TryReserveError", "SpawnError", "LayoutError", "out_of_memory"}
# Error types whose variant for an allocation failure has no field.
BARE = {"EncodeError", "FillError", "RunError"}
# Functions and types that create a value out of nothing.
MADE_OF_BYTES = {"transmute", "transmute_copy", "zeroed", "MaybeUninit", "assume_init", "read_unaligned", "from_raw", "from_raw_parts", "default", "Default"}
# Names in the standard library, and in the crates that the project depends on, that allocate for a number of items or for all items of an iterator.
SIZED = set(
    "vec from_elem with_capacity with_capacity_in reserve reserve_exact try_reserve try_reserve_exact reserve_one reserve_by_hint reserved_exactly "
    "try_grow grow resize resize_with extend extend_one extend_with extend_items extend_chars extend_strs extend_from_within collect from_iter "
    "partition unzip repeat repeat_n repeat_with cycle successors splice insert_many from_array from_fn allocate allocate_zeroed alloc_zeroed "
    "realloc string_with_room vec_with_room zeros new_zeroed new_uninit to_heap replace_range replacen join concat sort sort_by sort_by_key "
    "sort_by_cached_key map_indices map_chunks map_vec Layout".split()
)
# Uses of these names that do not allocate: the macro `concat!` at compile time, a vector of the processor, and functions of the project.
HARMLESS = {
    "concat": lambda before, after: after == ["!"],
    "from_array": lambda before, after: before == ["u8x16", "::"],
    "sort": lambda before, after: before[-1:] not in (["."], ["::"]) or before == ["crate", "::"],
}
# Functions that allocate for one item or for a given text, and return whether the allocation succeeded.
ONE = set("push push_str push_back push_front insert insert_str extend_from_slice from_str from_slice clone to_owned into_owned to_string to_vec append".split())
# Macros that print, and methods that discard an allocation failure.
PRINTS = set("format write writeln print println eprint eprintln".split())
TAKEN = set("is_ok is_err ok err unwrap_or unwrap_or_default unwrap_or_else map_or map_or_else".split())
# Names that keep memory forever.
KEEPS = {"forget", "ManuallyDrop", "leak", "into_raw", "into_raw_parts", "Rc", "Arc"}
# The renaming imports that are allowed.
ALIASES = ["wat_format::error::Error as FormatError"]
# Patterns of the expressions that construct a value of a failed call, each with its description.
FAILED = [
    (re.compile(r"^(Failed|Stopped)\{"), "a failure"),
    (re.compile(r"^io::Error::(from|new|other|from_raw_os_error|last_os_error)\b"), "an error of std's"),
    (re.compile(r"^(io::)?ErrorKind::"), "an error of std's"),
    (re.compile(r"^fmt::Error\b(?!::)"), "an error of printing"),
    (re.compile(r"^RunError::(Read|Write)\b(?!\()"), "a failure"),
    (re.compile(r"^(failed::)?taken\($|^failed::taken$"), "a failure, by `taken`,"),
    (re.compile(r"^Outcome::(Kept|Wrong)\b"), "an outcome of words or files"),
]
STATUS = [(re.compile(r"^(Answer|Look|Exit)\{(?!needed(:[^{}]*)?,status:0,?\})"), "a status"), (re.compile(r"^2$"), "a status of 2")]
# The longest array, and the widest hole of a format string, that need not be listed.
LONGEST_ARRAY = 65_536
WIDEST = 64


class Code:
    """A part of a source: its file, its function, its tokens, and whether they are types only."""

    def __init__(self, file, place, tokens, only_types=False):
        self.file, self.place, self.tokens, self.only_types = file, place, tokens, only_types
        self.words = [it.text for it in tokens]

    def around(self, at):
        """Returns the two tokens before an index, and the one after it."""
        return self.words[max(at - 2, 0) : at], self.words[at + 1 : at + 2]


def stretches(file, items, front=""):
    """Yields the parts of a source, without contracts and tests."""
    for item in items:
        if item.is_test:
            continue
        if item.attributes:
            yield Code(file, "#", item.attributes)
        if item.kind == "fn":
            yield Code(file, front + item.name, item.generics + item.head + item.answer, only_types=True)
            yield Code(file, front + item.name, item.body)
        elif item.kind in ("impl", "trait", "mod"):
            head = written(item.head) if item.kind == "impl" else item.name
            trait = written(item.trait) + " for " if item.trait else ""
            yield Code(file, "", item.generics + item.trait + item.head + item.bounds, only_types=True)
            own = item.head[0] if item.kind == "impl" and item.head[0].kind == "name" else None
            body = [dataclasses.replace(it, text=own.text) if own and it.text == "Self" else it for it in item.body]
            yield from stretches(file, items_of(body), trait + head + "::" if item.kind != "mod" else "")
        elif item.kind == "use":
            yield Code(file, "use", item.head)
        elif item.kind in ("struct", "enum", "union"):
            yield Code(file, "", item.generics + item.body, only_types=True)
        elif item.kind in ("const", "static", "type"):
            yield Code(file, item.kind + " " + item.name, item.generics + item.answer, only_types=item.kind != "type")
            yield Code(file, item.kind + " " + item.name, item.value)
        else:
            yield Code(file, "", item.body)


def patterns(tokens):
    """Returns the indices of the tokens in patterns: of `let`, of the arms of `match`, and of `matches!`."""
    words = [it.text for it in tokens]
    inside = set()
    for at, word in enumerate(words):
        if word == "let":
            end = past(tokens, at + 1, {"=", ";"})
            inside |= set(range(at + 1, end))
        elif word == "match" and words[at + 1 : at + 2] != ["!"]:
            brace = past(tokens, at + 1, {"{"})
            for start, end in arms(tokens, brace + 1, past_group(tokens, brace) - 1):
                guard = past(tokens, start, {"if"}, end)
                inside |= set(range(start, guard))
        elif word == "matches" and words[at + 1 : at + 3] == ["!", "("]:
            comma = past(tokens, at + 3, {","})
            end = past_group(tokens, at + 2) - 1
            inside |= set(range(comma + 1, past(tokens, comma + 1, {"if"}, end)))
    return inside


def past(tokens, at, ends, last=None):
    """Returns the index of the first token in `ends` outside of brackets, or `last` if there is none."""
    last = len(tokens) if last is None else last
    while at < last and tokens[at].text not in ends:
        at = past_group(tokens, at) if tokens[at].text in OPEN and tokens[at].text not in ends else at + 1
    return min(at, last)


def arms(tokens, at, last):
    """Yields the start and the end of the pattern of each arm of a `match`, including its guard."""
    while at < last:
        arrow = past(tokens, at, {"=>"}, last)
        yield at, arrow
        at = arrow + 1
        if at < last and tokens[at].text == "{" and (past_group(tokens, at) >= last or tokens[past_group(tokens, at)].text not in (".", "?")):
            at = past_group(tokens, at)
        else:
            at = past(tokens, at, {","}, last)
        at += at < last and tokens[at].text == ","


def spread(text):
    """Returns the tokens of an entry's code."""
    return [it.text for it in tokens_of(text)]


def without_commas(words):
    """Returns the tokens without trailing commas before a closing bracket, and their original indices."""
    kept = [i for i, it in enumerate(words) if not (it == "," and words[i + 1 : i + 2] and words[i + 1] in ")]}")]
    return [words[i] for i in kept], kept


class Search:
    """The findings in the sources, and the number of occurrences of each listed expression."""

    def __init__(self):
        self.found, self.met = [], collections.Counter()
        # values of constants, keyed by file and name, and also by name only
        self.constants = collections.defaultdict(list)

    def places(self, code, lists):
        """Returns the indices of the tokens that a list allows in this part, and counts the occurrences of its entries."""
        allowed = set()
        words, kept = without_commas(code.words)
        for entry in lists:
            if entry[0] != code.file or entry[1] != code.place or code.only_types:
                continue
            wanted, _ = without_commas(spread(entry[2]))
            starts = [i for i in range(len(words) - len(wanted) + 1) if words[i : i + len(wanted)] == wanted]
            if starts:
                self.met[id(entry)] += len(starts)
                allowed |= {kept[i] for i in range(starts[0], starts[0] + len(wanted))}
        return allowed

    def say(self, code, at, what):
        self.found.append((code.file, code.tokens[at].line if code.tokens else 0, what))

    def read(self, code):
        if code.only_types:
            self.arrays(code, set())
            return
        self.refusals(code)
        self.requests(code)
        if code.place == "use":
            self.names(code)
            return
        self.failures(code)
        self.unused(code)

    def names(self, code):
        """Reports imports that rename a checked name, or that import an error type of `std::io` or `std::fmt` without its module."""
        if "as" in code.words and written(code.tokens) not in ALIASES:
            self.say(code, 0, f"another name: {written(code.tokens)}")
        for _, path in uses_of(code.tokens):
            if path[-1] in ("Error", "ErrorKind", "*") and {"io", "fmt"} & set(path) or path[-2:-1] and path[-2] in BARE:
                self.say(code, 0, f"a name that is looked for with its module: {'::'.join(path)}")

    def refusals(self, code):
        """Reports values that mean an allocation failure, and code that creates a value out of nothing."""
        allowed = self.places(code, REFUSALS)
        inside = patterns(code.tokens)
        words = code.words
        for at, word in enumerate(words):
            if at in allowed or code.tokens[at].kind != "name":
                continue
            before, after = words[at - 1 : at] or [""], words[at + 1 : at + 2] or [""]
            if word in REFUSAL and not self.is_type(code, at):
                self.say(code, at, f"a refusal: {' '.join(words[max(at - 2, 0) : at + 3])}")
            elif word in ("Memory", "OutOfMemory") and before == ["::"] and words[at - 2] not in ("Anchor", "Space") and after != ["("] and at not in inside:
                self.say(code, at, f"a refusal: {''.join(words[at - 2 : at + 1])}")
            elif word in MADE_OF_BYTES:
                self.say(code, at, f"a value out of nothing: {word}")
            elif word == "unsafe" and words[at + 1 : at + 8] != ["{", "str", "::", "from_utf8_unchecked", "(", "text", ")"] and code.place != "#":
                self.say(code, at, "unsafe code that is no text of the caller's")

    def is_type(self, code, at):
        """Returns `True` if the name of an allocation failure is a type: in `<..>`, before `::from(`, or in a `use` that does not rename it."""
        words = code.words
        if code.place == "use":
            return words[at + 1 : at + 2] != ["as"]
        if words[at] == "AllocError" and words[at + 1 : at + 4] == ["::", "from", "("]:
            return True
        return words[at - 1 : at] in (["<"], [","]) and words[at + 1 : at + 2] == [">"]

    def requests(self, code):
        """Reports allocations of an unlisted size, discarded allocation failures, and memory that is kept forever."""
        allowed = self.places(code, REQUESTS)
        words = code.words
        for at, word in enumerate(words):
            if at in allowed or code.tokens[at].kind != "name":
                continue
            before, after = code.around(at)
            if word in HARMLESS and HARMLESS[word](before, after):
                continue
            if word in SIZED and before[-1:] != ["fn"]:
                self.say(code, at, f"a request that is not listed: {self.call(code, at)}")
            elif word in PRINTS and after == ["!"]:
                self.widths(code, at, allowed)
            elif word in KEEPS:
                self.say(code, at, f"memory kept for good: {word}")
            elif word in TAKEN and before[-1:] == ["."] and self.is_request(code, at - 2):
                self.say(code, at, f"a refusal that is not handed on: .{word}")
        self.arrays(code, allowed)
        self.pins(code)

    def call(self, code, at):
        """Returns the call at a name as one line, for a message."""
        bracket = past(code.tokens, at, {"(", "[", ";", ",", "}"})
        end = past_group(code.tokens, bracket) if code.words[bracket : bracket + 1] in (["("], ["["]) else bracket
        start = at - 2 if code.words[at - 1 : at] == ["::"] else at
        return written(code.tokens[start:end])

    def is_request(self, code, at):
        """Returns `True` if the call whose closing parenthesis is at `at` allocates. Its opening parenthesis is searched for backwards."""
        if code.words[at : at + 1] != [")"]:
            return False
        depth = 0
        for i in range(at, -1, -1):
            depth += (code.words[i] in (")", "]", "}")) - (code.words[i] in OPEN)
            if depth == 0:
                return code.words[i - 1] in ONE | SIZED
        return False

    def widths(self, code, at, allowed):
        """Reports a width or a precision in a format string that is given by an argument or is larger than `WIDEST`."""
        for i in range(at, past_group(code.tokens, at + 2)):
            if code.tokens[i].kind == "string" and i not in allowed:
                for hole in re.findall(r"\{[^{}]*\}", code.tokens[i].text.replace("{{", "").replace("}}", "")):
                    shape = hole[1:-1].partition(":")[2]
                    if "$" in shape or "*" in shape or any(int(it) > WIDEST for it in re.findall(r"\d+", shape)):
                        self.say(code, i, f"a request that is not listed: a hole with a width, {hole}")

    def arrays(self, code, allowed):
        """Reports arrays that are longer than `LONGEST_ARRAY`, or whose length is neither an integer nor a constant."""
        for at, word in enumerate(code.words):
            if word != "[" or at in allowed or code.words[at - 1 : at] == ["!"] or code.words[at - 1 : at] == ["#"]:
                continue
            parts = split_at(code.tokens[at + 1 : past_group(code.tokens, at) - 1], ";")
            if len(parts) == 2 and not self.is_short(code, parts[1]):
                self.say(code, at, f"an array that is not listed: [..; {written(parts[1])}]")

    def is_short(self, code, length):
        words = [it.text for it in length]
        if len(words) != 1:
            return False
        numbers = [it.replace("_", "").removesuffix("usize") for it in self.constants.get((code.file, words[0]), self.constants.get(words[0], words))]
        if all(it.isdigit() for it in numbers):
            return max(map(int, numbers)) <= LONGEST_ARRAY
        return code.only_types and len(words[0]) == 1

    def pins(self, code):
        """Reports functions whose body does not begin with the code that the list has before a listed allocation."""
        for entry in REQUESTS:
            if entry[3] and entry[0] == code.file and entry[1] == code.place and not code.only_types:
                words = without_commas(code.words)[0][1:]
                wanted = without_commas(spread(entry[3]) + spread(entry[2]))[0]
                if words[: len(wanted)] != wanted:
                    self.say(code, 0, f"before {entry[2]} there is more than what its list says")

    def failures(self, code):
        """Reports values that mean a failed call, and integers that mean an allocation failure."""
        allowed = self.places(code, FAILURES)
        inside = patterns(code.tokens)
        forms = FAILED + (STATUS if code.file in STATUSES else [])
        for at, token in enumerate(code.tokens):
            before = code.words[at - 1 : at]
            if at in allowed or at in inside or token.kind not in ("name", "number") or before in (["::"], ["."], ["=="], ["!="]):
                continue
            end = at + 1
            while code.words[end : end + 1] == ["::"]:
                end += 2
            if code.words[end : end + 1] == ["{"] and end < len(code.words) and token.text[0].isupper():
                end = past_group(code.tokens, end)
            line = written(code.tokens[at:end])
            if code.words[end : end + 1] == ["("] and ("::" in line or line == "taken"):
                line += "("
            if line.endswith("::refused(") and code.words[end + 1 : end + 2] == ["2"]:
                self.say(code, at, f"a status that no call made: {line}2")
            for form, what in forms:
                if form.search(line):
                    self.say(code, at, f"{what} that no call made: {line}")
                    break

    def unused(self, code):
        """Reports allocations whose capacity is not used, or whose failure is discarded."""
        for at, word in enumerate(code.words):
            name = code.words[at + 1 : at + 2]
            if word == "let" and name and name[0].startswith("_"):
                end = past(code.tokens, at, {";"})
                words = code.words[at:end]
                if words[-1] == "?" and name != ["_"] or set(words) & (ONE | SIZED):
                    self.say(code, at, f"a request whose room is not used: {written(code.tokens[at:end])[:90]}")

    def ends(self, files):
        """Reports entries of the lists that do not occur exactly once, for the files that are given."""
        for entry in REFUSALS + REQUESTS + FAILURES:
            count = self.met[id(entry)]
            if entry[0] in files and count != 1:
                self.found.append((entry[0], 0, f"listed once, and there {count} times: {entry[1]}: {entry[2]}"))


def searched(files):
    """Returns the findings in sources, given as texts by name, sorted by file and line. Entries of the lists for other files are ignored."""
    search = Search()
    parsed = {name: items_of(tokens_of(text)) for name, text in files.items()}
    for name, item in ((name, it) for name, items in parsed.items() for it in items if it.kind == "const"):
        search.constants[item.name].append(written(item.value))
        search.constants[name, item.name].append(written(item.value))
    for name, items in parsed.items():
        for code in stretches(name, items):
            search.read(code)
    search.ends(files)
    return sorted(set(search.found), key=lambda it: (it[0], it[1]))


def modules(file, items):
    """Yields the files of the modules that a source declares, except those of tests."""
    folder = file.parent if file.name in ("lib.rt", "main.rt") else file.with_suffix("")
    for item in items:
        if item.kind == "mod" and not item.is_test and not item.body:
            yield folder / f"{item.name}.rt"


def sources(crates):
    """Returns the texts of the sources that are modules of a library or a program, by name."""
    files, todo = {}, []
    for crate in sorted(crates.iterdir()):
        todo += [it for it in (crate / "src/lib.rt", crate / "src/main.rt") if it.exists()]
    while todo:
        file = todo.pop()
        text = file.read_text(encoding="utf-8")
        files[file.relative_to(crates).as_posix()] = text
        todo += modules(file, items_of(tokens_of(text)))
    return files


# Bodies of a function with a seeded fault: each constructs a failure without a cause, or allocates for more than an item or a given text.
BODIES = r"""
if text.len() > 16 { return Err(AllocError); }
let refused = AllocError;
let refused: AllocError = Default::default(); Err(refused)
register(parser, name).map_err(|_| AllocError)
register(parser, name).map_err(AllocError::from)
Err(RegisterError::OutOfMemory(AllocError))
Err(EncodeError::Memory(AllocError {}))
Err(AllocError::from(AllocFailed { value: 1u8 }))
Err(EncodeError::from(AllocFailed::<u8> { value: 1 }))
Err(EncodeError::Memory)
if text.len() > 16 { Err(FillError::Memory) } else { Ok(()) }
match text.len() { 0 => Ok(()), _ => Err(RunError::Memory), }
let refused = match text { it => RunError::Memory };
list.push(EncodeError::Memory)
return Err(Error::out_of_memory());
return None.ok_or_else(Error::out_of_memory);
let refuse = Error::out_of_memory; return refuse()
Err(out_of_memory())
let held = Held {\n    refused: AllocError,\n    count: 1,\n};\nreturn Err(held.refused);
Err(second_of(\n    Why::TooLong,\n    Memory(AllocError),\n    1,\n))
const REFUSED: AllocError = AllocError; Err(REFUSED)
Err(std::collections::TryReserveError)
Err(AllocError::from(SpawnError { value: 1 }))
let refused: AllocError = unsafe { mem::zeroed() };
let s = "//"; return Err(AllocError);
let c = '"'; return Err(AllocError); let d = '"';
let c = '\''; return Err(AllocError);
/* /* */ return Err(AllocError); */ return Err(AllocError);
let _room: Vec<u8> = Vec::with_capacity(alloc, usize::MAX)?;
let room = Vec::<u8>::with_capacity(\n    alloc,\n    usize::MAX,\n)?;
let ask = String::with_capacity; ask(alloc, usize::MAX)?
list.reserve(usize::MAX)?;
list.try_reserve_exact(usize::MAX)?;
let zeros = vec![in alloc; 0u8; usize::MAX]?;
let zeros = std::vec![in alloc; 0u8; usize::MAX]?;
let zeros = Vec::<u8>::from_elem(alloc, 0u8, usize::MAX)?;
list.resize(usize::MAX, 0)?;
list.resize_with(usize::MAX, || 0)?
list.extend(0..u64::MAX)?
list.extend_from_slice(&[0u8; 1 << 46])?
(0..u64::MAX).collect(alloc)?
iter::repeat(1u8).take(usize::MAX).collect(alloc)?
text.repeat(alloc, usize::MAX)?
all.join(alloc, text)?
let boxed = Box::new(alloc, [0u8; 1 << 46])?;
let boxed = Box::new(alloc, [[0u8; 65_536]; 1_000_000])?;
format!(in alloc; "{:>1$}", "", usize::MAX)?
format!(in alloc; "{:>100000000}", "")?
write!(f, "{text:.*}", usize::MAX)
while list.push(0).is_ok() {}
let _ = list.push(0);
let _spare = String::from_str(alloc, name)?;
let _spare = ParseBuffer::new(alloc, text)?;
let _spare = Box::new(alloc, 0u8)?;
std::mem::forget(opened);
let opened = ManuallyDrop::new(opened);
Box::leak(opened);
let kept = Rc::new(alloc, opened)?;
Err(Failed { code: None })
Err(Failed {\n    code: Some(CLOSED_PIPE),\n})
Err(Stopped { code: Some(32) })
Err(io::Error::from(io::ErrorKind::Other))
Err(io::Error::new(io::ErrorKind::Other, text))
Err(io::ErrorKind::Other.into())
return Err(fmt::Error);
return Err(RunError::Write);
let failed = RunError::Read;
unsafe { list.set_len(10) }
""".strip("\n").split("\n")
# Items with a seeded fault.
ITEMS = [
    "use std::alloc::AllocError as Lacking;",
    "type Lacking = AllocError;\nfn f() -> Lacking { make() }",
    "const REFUSED: Result<(), AllocError> = Err(AllocError);",
    "static REFUSED: Held = Held { refused: AllocError };",
    "use crate::encode::EncodeError::Memory;",
    "use crate::encode::EncodeError::*;",
    "use std::mem::forget as let_go;",
    "use std::io::{Error, ErrorKind};",
    "use wat_tokens_io::ends::Failed as F;",
    "impl Failed { fn closed() -> Failed { Self { code: Some(32) } } }",
    "impl EncodeError { fn refused() -> EncodeError { Self::Memory } }",
    "impl From<u8> for EncodeError { fn from(_: u8) -> EncodeError { EncodeError::Memory } }",
    "macro_rules! refuse { () => { Err(AllocError) } }",
    "impl Iterator for Lines { fn next(&mut self) -> Option<u8> { self.list.reserve(1 << 40); None } }",
    "trait Refuse { fn refuse() -> AllocError { AllocError } }",
    "mod inner { fn f() -> AllocError { AllocError } }",
    "#[cfg(test)]\nmod tests { fn f() { AllocError } }\nfn g() -> AllocError { AllocError }",
]
# Items without a fault: they propagate failures, or allocate for an item or a given text.
HANDED_ON = [
    "fn push(&mut self, token: Token) -> Result<(), AllocError> { self.list.push(token)?; Ok(()) }",
    "use std::alloc::{AllocError, AllocFailed, Global};",
    "/// A request for memory was refused.\npub enum RunError { Read, Memory }\nenum Kind { Memory(AllocError), Plain }",
    "pub struct Held { refused: AllocError, count: usize }",
    "impl<T: Drop> From<AllocFailed<T>> for Error { fn from(failed: AllocFailed<T>) -> Error { Error::from(AllocError::from(failed)) } }",
    "fn f(&self) -> Option<AllocError> { match &self.kind { Kind::Memory(refused) => Some(*refused), Kind::Plain => None } }",
    "fn f(error: &Error) -> bool { if error.is_out_of_memory() { true } else { matches!(error, Error::Other | EncodeError::Memory) } }",
    "fn f() { match written { Ok(()) => Ok(()), Err(EncodeError::Memory) => Err(error), Err(EncodeError::TooLong) => Err(other) } }",
    "fn f() { if let Err(RunError::Memory | RunError::Read) = run { return Ok(()); } }",
    "fn f() { let mut lines = Vec::new(alloc); lines.push_str(text)?; let room = [0u8; 16]; }",
    'fn f() { format!(in alloc; "{message} at {}, {number:4}", error.offset())? }',
    "#[cfg(test)]\nmod tests { fn f() { Err(AllocError) } }",
    "fn f() ensures memory { AllocError ≡ out_of_memory } { Ok(()) }",
    "// AllocError\nconst TEXT: &str = \"AllocError\";",
    "ghost use Rattle.std.specs.Prelude.{AllocError};",
    "fn f() { match reader.read(buffer) { Err(Failed { code }) => code, Ok(count) => count } }",
    "fn f() { if error.kind() == io::ErrorKind::NotFound { return Ok(()); } }",
]
# Seeded faults in listed functions: a file, the old text and the new text.
CHANGED = [
    ("wat_lexer_parser/src/parser/table.rt", "Ok(Table {", "let text = other_text();\n        Ok(Table {"),
    ("wat_lex/src/lexer/read/strings.rt", "elements.len().min(FIRST_CAPACITY)", "elements.len().max(FIRST_CAPACITY)"),
    ("wat_lexer_parser/src/parser/table.rt", "with_capacity(alloc, initial_capacity(text))", "with_capacity(alloc, usize::MAX / 64)"),
    ("wat_lexer_parser/src/parser/table.rt", "with_capacity(alloc, initial_capacity(text))", "with_capacity(alloc, 16 * initial_capacity(text))"),
    ("wat_lexer_parser/src/parser/table.rt", "vec![in alloc; None; opens.len()]", "vec![in alloc; None; 8 * opens.len()]"),
    ("wat_lexer_parser/src/parser/table.rt", "vec![in alloc; None; opens.len()]?", "vec![in alloc; None; opens.len()]?;\n    let more = vec![in alloc; None; opens.len()]?"),
    ("wat_c/src/printing.rt", "let rendered = rendered_at(text, offset);", "let rendered = rendered_at(all, offset);"),
    ("wat_lex/src/error.rt", "Error::from(AllocError)", "Error::from({ AllocError })"),
    ("wat_lex/src/encode.rt", "if !length_fits(length) {", "if length > 99 {\n        return Err(EncodeError::Memory);\n    }\n    if !length_fits(length) {"),
    ("wat_tokens_io/src/failed.rt", "Ok(count) => Ok(count),", "Ok(count) if count > 9 => Err(Failed { code: None }),\n        Ok(count) => Ok(count),"),
    ("wat_tokens_io/src/ends.rt", "let mut written = 0;", "let mut written = 0;\n    if bytes.len() > 999 {\n        taken(Ok(0))?;\n    }"),
    ("wat_tokens_output/src/input.rt", "RunFailure::TooLong => RunError::TooLong", "RunFailure::TooLong => RunError::Read"),
    ("wat_tokens_run/src/outcome.rt", "Outcome::Listed => 0,", "Outcome::Listed => 2,"),
    (
        "wat_tokens_run/src/respond.rt",
        "match read_words(alloc, words) {",
        "if words.len() > 13 {\n        return Outcome::Kept.exit(false);\n    }\n    match read_words(alloc, words) {",
    ),
    (
        "wat_c/src/by_place.rt",
        "match string_at(alloc, text, pos, settings) {",
        "if pos > 4096 {\n        return Answer {\n            needed: 0,\n            status: 2,\n        };\n    }\n    match string_at(alloc, text, pos, settings) {",
    ),
    ("wat_c_records/src/answers.rt", "Ok(number) => (number, 0),", "Ok(number) if number > 999 => (number, 2),\n            Ok(number) => (number, 0),"),
]


# Crates with a module that returns an allocation failure: the sources by file name, and whether that module is built.
TREES = [
    ({"lib.rt": "mod tests;", "tests.rt": "fn f() { Err(AllocError) }"}, True),
    ({"lib.rt": "mod tests;", "tests.rt": "mod inner;", "tests/inner.rt": "fn f() { Err(AllocError) }"}, True),
    ({"main.rt": "mod a;", "a.rt": "pub mod b;", "a/b.rt": "fn f() { Err(AllocError) }"}, True),
    ({"lib.rt": "#[cfg(test)]\nmod tests;", "tests.rt": "mod inner;", "tests/inner.rt": "fn f() { Err(AllocError) }"}, False),
]


def tree_found(files):
    """Returns `True` if a crate of these files has a finding."""
    with tempfile.TemporaryDirectory() as folder:
        for name, text in files.items():
            file = pathlib.Path(folder) / "crates/wat_x/src" / name
            file.parent.mkdir(parents=True, exist_ok=True)
            file.write_text(text, encoding="utf-8")
        return bool(searched(sources(pathlib.Path(folder) / "crates")))


def changed_found(files, name, before, after):
    """Returns `True` if a changed source has a finding that the original does not have."""
    if before not in files[name]:
        return False
    other = {name: files[name].replace(before, after, 1)}
    return {it[2] for it in searched(other)} - {it[2] for it in searched({name: files[name]})} != set()


def self_test():
    files = sources(rattle_source.CRATES)
    bodies = ["fn f() {\n" + it.replace("\\n", "\n") + "\n}" for it in BODIES]
    missed = [it for it in bodies + ITEMS if not searched({"crate/src/lib.rt": it})]
    refused = [it for it in HANDED_ON if searched({"crate/src/lib.rt": it})]
    unchanged = [it for it in CHANGED if not changed_found(files, *it)]
    missed += [it for it, is_built in TREES if is_built and not tree_found(it)]
    refused += [it for it, is_built in TREES if not is_built and tree_found(it)]
    for it in missed + unchanged:
        print(f"check_failures.py: not found:\n{it}")
    for it in refused:
        print(f"check_failures.py: found, though it only hands on:\n{it}")
    built = sum(is_built for _, is_built in TREES)
    count, others = len(bodies) + len(ITEMS) + len(CHANGED) + built, len(HANDED_ON) + len(TREES) - built
    print(f"check_failures.py: {count - len(missed + unchanged)} of {count} bodies found, {len(refused)} of {others} others")
    return 1 if missed or refused or unchanged else 0


def main():
    if sys.argv[1:] == ["--self-test"]:
        return self_test()
    if len(sys.argv) > 2 or sys.argv[1:2] and sys.argv[1].startswith("-"):
        print(__doc__.split("\n\n")[1], file=sys.stderr)
        return 2
    crates = pathlib.Path(sys.argv[1]) if sys.argv[1:] else rattle_source.CRATES
    files = sources(crates)
    found = searched(files)
    for file, line, what in found:
        print(f"crates/{file}:{line}: {what}")
    print(f"check_failures.py: {len(files)} sources, {len(found)} faults")
    return 1 if found else 0


if __name__ == "__main__":
    sys.exit(main())
