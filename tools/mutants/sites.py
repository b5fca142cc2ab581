"""Mutation operators on the tokens of a source in Rust, C or JavaScript, for mutate.py.

A binary operator is recognized by the whitespace around it, as all sources are formatted. Comments are not mutated, and of strings only those of
Rust that no panic prints, and the names in the tables of the C header. Rust that is not compiled for the host or without tests is skipped.
"""
import collections
import dataclasses
import re

OPEN = {"(": ")", "[": "]", "{": "}"}
CLOSE = {")", "]", "}"}
NUMBER = r"(?P<number>\d(?:\w|\.(?=\d))*)"
NAME = r"(?P<name>[^\W\d][\w]*)"
SIGN = r"(?P<sign><<=|>>=|\.\.=|\.\.\.|===|!==|\*\*|[=-]>|::|&&|\|\||[=!<>+*/%&|^-]=|<<|>>|\.\.|\?\?|\?\.|\+\+|--|.)"
COMMENT = r"(?P<comment>//[^\n]*|/\*)"
RUST = re.compile(
    rf"""(?P<blank>\s+)|{COMMENT}
    |(?P<string>[bc]?r(?P<fence>\#*)".*?"(?P=fence)|[bc]?"(?:\\.|[^"\\])*")
    |(?P<character>b?'(?:\\(?:x[0-9a-fA-F]{{2}}|u\{{[^}}]*\}}|.)|[^'\\])')|(?P<lifetime>'[A-Za-z_]\w*)
    |{NUMBER}|{NAME}|{SIGN}""",
    re.VERBOSE | re.DOTALL,
)
OTHER = re.compile(
    rf"""(?P<blank>\s+)|{COMMENT}
    |(?P<string>"(?:\\.|[^"\\\n])*"|'(?:\\.|[^'\\\n])*'|`(?:\\.|[^`\\])*`
        |(?<=[(,=:\[!&|?;] )/(?![*/ ])(?:\\.|\[(?:\\.|[^\]\\\n])*\]|[^/\\\n])+/\w*
        |(?<=[(\[!])/(?![*/ ])(?:\\.|\[(?:\\.|[^\]\\\n])*\]|[^/\\\n])+/\w*)
    |{NUMBER}|{NAME}|{SIGN}""",
    re.VERBOSE | re.DOTALL,
)
KINDS = ("blank", "comment", "string", "character", "lifetime", "number", "name", "sign")
SWAPS = {
    "+": "-", "-": "+", "*": "+", "/": "*", "%": "/", "**": "*", "<": "<=", "<=": "<", ">": ">=", ">=": ">", "==": "!=", "!=": "==",
    "===": "!==", "!==": "===", "&&": "||", "||": "&&", "<<": ">>", ">>": "<<", "&": "|", "|": "&", "^": "|", "+=": "-=", "-=": "+=",
    "*=": "+=", "/=": "*=", "%=": "/=", "|=": "&=", "&=": "|=", "<<=": ">>=", ">>=": "<<=", "??": "&&",
}  # fmt: skip
# Methods of Rust, and those of the same type that replace them.
METHODS = {
    "min": "max", "max": "min", "is_some": "is_none", "is_none": "is_some", "is_ok": "is_err", "is_err": "is_ok", "any": "all", "all": "any",
    "is_some_and": "is_none_or", "is_none_or": "is_some_and", "starts_with": "ends_with", "ends_with": "starts_with", "first": "last",
    "last": "first", "find": "rfind", "rfind": "find", "position": "rposition", "wrapping_add": "wrapping_sub", "wrapping_sub": "wrapping_add",
    "saturating_add": "wrapping_add", "saturating_sub": "wrapping_sub", "leading_zeros": "trailing_zeros", "trailing_zeros": "leading_zeros",
    "take_while": "skip_while", "skip_while": "take_while", "next": "next_back", "next_back": "next", "split_once": "rsplit_once",
}  # fmt: skip
# What prints the strings in its parentheses only if a precondition is violated.
PANICS = {"expect", "panic", "assert", "assert_eq", "debug_assert", "unreachable", "cfg", "doc"}
INTEGER = re.compile(r"(0x[0-9a-fA-F_]+|0b[01_]+|\d[\d_]*)((?:[iu](?:8|16|32|64|128|size)|[uU]?[lL]*|n)?)")
# Statements that begin with one of these are declarations.
DECLARES = {"let", "const", "var", "use", "static", "type", "fn", "struct", "enum", "impl", "pub", "#", "macro_rules", "mod", "extern", "import",
            "export", "function", "class", "case", "default"}  # fmt: skip
BLOCKS = {"if", "for", "while", "match", "loop", "unsafe", "switch"}
# What follows a `}` that does not end a statement.
CONTINUES = {"=", ".", "?", "else", ")", "]", ";", ",", "as", "==", "!=", "&&", "||", "+", "-", "*", "catch", "finally", "from"}
# The conditions of code that is compiled for other targets, or only for tests.
EXCLUDED = re.compile(r'#\[cfg\((test|not\(unix\)|not\(feature = "std"\)|target_family = "wasm"|target_pointer_width = "16"|doctest)\)\]')
# The types of C, with the type that replaces each in a declaration.
C_TYPES = {"size_t": "uint32_t", "uint64_t": "uint32_t", "uint32_t": "uint64_t", "uint8_t": "uint16_t", "bool": "uint32_t"}
INTEGERS = {f"{sign}{bits}" for sign in "iu" for bits in ("8", "16", "32", "64", "128", "size")}


@dataclasses.dataclass(frozen=True)
class Token:
    kind: str
    text: str
    start: int
    end: int


@dataclasses.dataclass(frozen=True)
class Mutant:
    """A text that replaces the characters from `start` to `end` of a file; `alone` if no switch can be compiled into its function."""

    file: str
    function: str
    body: tuple
    line: int
    start: int
    end: int
    new: str
    change: str
    alone: bool

    def key(self):
        return f"{self.file}\t{self.function}\t{self.change}"

    def scopes(self):
        """Returns the scopes that count the mutant: its file, its package, and all."""
        package = "page" if self.file.startswith("page/") else "/".join(self.file.split("/")[:2])
        return {self.file, package, "all"}


@dataclasses.dataclass(frozen=True)
class Function:
    """A function: its name after that of its type, its tokens from the body's brace to after the closing one, and its return type."""

    name: str
    open: int
    close: int
    returns: str
    is_const: bool


def past_comment(text, at):
    """Returns the offset after the block comment that begins at `at`. Block comments nest in Rust only, and none nests in C or JavaScript here."""
    depth = 0
    for mark in re.compile(r"/\*|\*/").finditer(text, at):
        depth += 1 if mark[0] == "/*" else -1
        if depth == 0:
            return mark.end()
    return len(text)


def tokens_of(text, pattern):
    """Returns the tokens of a source without whitespace and comments."""
    tokens, at = [], 0
    while at < len(text):
        match = pattern.match(text, at)
        kind = next(it for it in KINDS if match.groupdict().get(it))
        end = past_comment(text, at) if match[0] == "/*" else match.end()
        if kind not in ("blank", "comment"):
            tokens.append(Token(kind, text[at:end], at, end))
        at = end
    return tokens


def past_group(tokens, at):
    """Returns the index after the bracket that closes the one at `at`."""
    depth = 0
    for i in range(at, len(tokens)):
        if tokens[i].kind == "sign":
            depth += (tokens[i].text in OPEN) - (tokens[i].text in CLOSE)
            if depth == 0:
                return i + 1
    return len(tokens)


def before_group(tokens, at):
    """Returns the index of the bracket that opens the group that ends at `at`."""
    depth = 0
    for i in range(at, -1, -1):
        if tokens[i].kind == "sign":
            depth += (tokens[i].text in CLOSE) - (tokens[i].text in OPEN)
            if depth == 0:
                return i
    return 0


def past_angles(tokens, at):
    """Returns the index after the `>` that closes the `<` at `at`."""
    depth = 0
    for i in range(at, len(tokens)):
        depth += {"<": 1, "<<": 2, ">": -1, ">>": -2}.get(tokens[i].text, 0)
        if depth <= 0:
            return i + 1
    return len(tokens)


def past_item(tokens, at):
    """Returns the index after the item, statement or expression at `at`: after its first block, after a `;`, or at the end of the block."""
    i = at
    while i < len(tokens):
        if tokens[i].text == ";":
            return i + 1
        if tokens[i].kind == "sign" and tokens[i].text in CLOSE:
            return i
        if tokens[i].kind == "sign" and tokens[i].text in OPEN:
            i = past_group(tokens, i)
            if tokens[i - 1].text == "}":
                return i
            continue
        i += 1
    return i


def without_excluded(text, tokens):
    """Returns the tokens without those of items and statements that are not compiled into the tests of the host."""
    kept, i = [], 0
    excluded = {match.start(): match.end() for match in EXCLUDED.finditer(text)}
    while i < len(tokens):
        end = excluded.get(tokens[i].start)
        if end is None:
            kept.append(tokens[i])
            i += 1
            continue
        while i < len(tokens) and tokens[i].start < end:
            i += 1
        i = past_item(tokens, i)
    return kept


# Functions


def type_of_impl(tokens, at):
    """Returns the name of the type for which the `impl` at `at` is, and the index of its brace."""
    i = at + 1
    if tokens[i].text == "<":
        i = past_angles(tokens, i)
    name, depth = "", 0
    while i < len(tokens) and tokens[i].text not in ("{", ";", "where"):
        depth += {"<": 1, ">": -1, ">>": -2}.get(tokens[i].text, 0)
        if tokens[i].text == "for" and depth == 0:
            name = ""
        elif tokens[i].kind == "name" and depth == 0 and tokens[i].text not in ("dyn", "mut", "crate"):
            name = tokens[i].text
        i += 1
    return name, i


def rust_function(text, tokens, at, owner):
    """Returns the function whose `fn` is at `at`, or `None` if it has no body."""
    i = at + 2
    if tokens[i].text == "<":
        i = past_angles(tokens, i)
    if i >= len(tokens) or tokens[i].text != "(":
        return None
    i = past_group(tokens, i)
    start = i
    while i < len(tokens) and tokens[i].text not in ("{", ";"):
        i = past_group(tokens, i) if tokens[i].text in ("(", "[") else i + 1
    if i >= len(tokens) or tokens[i].text == ";":
        return None
    signature = text[tokens[start].start : tokens[i].start]
    returns = signature.partition("->")[2].partition("where")[0].strip() if signature.startswith("->") else ""
    before = [it.text for it in tokens[max(0, at - 3) : at]]
    name = f"{owner}::{tokens[at + 1].text}" if owner else tokens[at + 1].text
    return Function(name, i, past_group(tokens, i), returns, "const" in before)


def rust_functions(text, tokens):
    """Returns the functions of a Rust source that are not inside another one."""
    found, i, owners = [], 0, []
    while i < len(tokens) - 2:
        owners = [it for it in owners if it[1] > i]
        word = tokens[i].text if tokens[i].kind == "name" else ""
        if word in ("impl", "trait") and (i == 0 or tokens[i - 1].text in ("}", ";", "{", "]", "unsafe", "pub", ")")):
            name, brace = type_of_impl(tokens, i)
            if brace < len(tokens) and tokens[brace].text == "{":
                owners.append((name, past_group(tokens, brace)))
                i = brace + 1
                continue
        if word == "fn" and tokens[i + 1].kind == "name":
            function = rust_function(text, tokens, i, owners[-1][0] if owners else "")
            if function:
                found.append(function)
                i = function.close
                continue
        i += 1
    return found


def other_functions(text, tokens):
    """Returns the functions of a C or JavaScript source that are not inside another one."""
    del text
    found, i = [], 0
    while i < len(tokens) - 1:
        if tokens[i].text == "(" and tokens[i - 1].kind == "name" and tokens[i - 1].text not in BLOCKS | {"catch", "return"}:
            close = past_group(tokens, i)
            if close < len(tokens) and tokens[close].text == "{":
                found.append(Function(tokens[i - 1].text, close, past_group(tokens, close), "", False))
                i = found[-1].close
                continue
        i += 1
    return found


# Operators


def is_spaced(text, token):
    return text[token.start - 1].isspace() and text[token.end : token.end + 1].isspace()


def is_pattern(tokens, at):
    """Returns `True` if the `|` at `at` is between alternatives of a pattern: after `let` or `matches!` or a comma of it, or before `=>`."""
    for i in range(at, 0, -1):
        if tokens[i].text in ("let", "matches"):
            return True
        if tokens[i].text in ("=", ";", "return", "=>", "if"):
            break
    i = at
    while i < len(tokens) and tokens[i].text not in (";", "=>", "}"):
        if tokens[i].text == "{":
            i = past_group(tokens, i) - 1
            if i + 1 == len(tokens) or tokens[i + 1].text not in ("=>", "|"):
                return False
        i += 1
    return i < len(tokens) and tokens[i].text == "=>"


def swapped(text, tokens, i):
    """Yields the replacements of a binary operator, a range or a boolean."""
    token = tokens[i]
    if token.text in SWAPS and token.kind == "sign" and is_spaced(text, token) and not (token.text == "|" and is_pattern(tokens, i)):
        yield token.start, token.end, SWAPS[token.text]
    if token.text in ("..", "..=") and 0 < i < len(tokens) - 1:
        ends = tokens[i + 1].kind in ("name", "number", "character") or tokens[i + 1].text == "("
        begins = tokens[i - 1].kind in ("name", "number", "character") or tokens[i - 1].text in (")", "]")
        if ends and (begins or token.text == "..="):
            yield token.start, token.end, ".." if token.text == "..=" else "..="
    if token.kind == "name" and token.text in ("true", "false"):
        yield token.start, token.end, "false" if token.text == "true" else "true"


def constants(tokens, i):
    """Yields the replacements of an integer or a character."""
    token = tokens[i]
    found = INTEGER.fullmatch(token.text) if token.kind == "number" else None
    if found and (i == 0 or tokens[i - 1].text != "."):
        value, suffix = int(found[1].replace("_", ""), 0 if found[1].startswith(("0x", "0b")) else 10), found[2]
        yield token.start, token.end, f"{value + 1}{suffix}"
        if value:
            yield token.start, token.end, f"0{suffix}"
    if token.kind == "character":
        yield token.start, token.end, f"{token.text.partition(chr(39))[0]}'\\x01'"


def renamed(tokens, i):
    """Yields the replacement of a method."""
    token = tokens[i]
    if token.text in METHODS and tokens[i - 1].text == "." and tokens[i + 1].text == "(":
        yield token.start, token.end, METHODS[token.text]


def emptied(tokens, i):
    """Yields the empty string in place of a string, unless only a panic prints it, or it is part of an attribute."""
    token = tokens[i]
    if token.kind != "string" or len(token.text) == len(token.text.partition('"')[0]) + 2:
        return
    if tokens[i - 1].text == "=" and tokens[i - 2].text.startswith(("target_", "feature")):
        return
    depth, j = 0, i - 1
    while j > 0 and not (tokens[j].text in ("(", "[", "{") and depth == 0):
        depth += (tokens[j].text in CLOSE) - (tokens[j].text in OPEN) if tokens[j].kind == "sign" else 0
        j -= 1
    before = {it.text for it in tokens[max(0, j - 2) : j]}
    if not before & PANICS:
        yield token.start, token.end, f"{token.text.partition(chr(34))[0].rstrip('r#')}{chr(34) * 2}"


def unnegated(tokens, i):
    """Yields the operand of a `!`, unless it begins a condition, which is negated anyway."""
    token, before = tokens[i], tokens[i - 1]
    if token.text == "!" and tokens[i + 1].text != "[" and (before.kind == "sign" and before.text not in CLOSE | {"#"} or before.text == "return"):
        yield token.start, token.end, ""


# What ends the operand of an `&&` or `||`, before it and after it.
BEGINS_OPERAND = {"(", "[", "{", "}", ";", ",", "=", "=>", "|", "if", "while", "return", "let", "||"}
ENDS_OPERAND = {")", "]", "}", "{", ";", ",", "=", "=>", "||"}


def operand_start(tokens, at, begins):
    """Returns the index of the first token of the operand whose last token is at `at`. It is after a token of `begins`."""
    while True:
        first = before_group(tokens, at) if tokens[at].kind == "sign" and tokens[at].text in CLOSE else at
        if tokens[first - 1].text in begins:
            return first
        at = first - 1


def decided(text, tokens, i, last):
    """Yields `true` in place of each operand of the `&&` at `i`, or `false` in place of those of an `||`, so that the other operand decides."""
    operator = tokens[i]
    if operator.kind != "sign" or operator.text not in ("&&", "||") or not is_spaced(text, operator):
        return
    narrow = {"&&"} if operator.text == "&&" else set()
    start, end = operand_start(tokens, i - 1, BEGINS_OPERAND | narrow), i + 1
    while end < last and tokens[end].text not in ENDS_OPERAND | narrow:
        end = past_group(tokens, end) if tokens[end].text in ("(", "[") else end + 1
    value = "true" if operator.text == "&&" else "false"
    yield tokens[start].start, tokens[i - 1].end, value
    yield tokens[i + 1].start, tokens[end - 1].end, value


def arms_of(tokens, i):
    """Returns the arms of the `match` at `i`: the indices of their first token, of their `=>`, and after them."""
    while tokens[i].text != "{":
        i = past_group(tokens, i) if tokens[i].text in ("(", "[") else i + 1
    end, at, arms = past_group(tokens, i) - 1, i + 1, []
    while at < end:
        start = at
        while tokens[at].text != "=>":
            at = past_group(tokens, at) if tokens[at].text in OPEN else at + 1
        arrow, at = at, at + 1
        is_block = tokens[at].text == "{"
        while at < end and tokens[at].text != ",":
            at = past_group(tokens, at) if tokens[at].text in OPEN and tokens[at].kind == "sign" else at + 1
            if is_block and tokens[at - 1].text == "}" and tokens[at].text != ".":
                break
        at += at < end and tokens[at].text == ","
        arms.append((start, arrow, at))
    return arms


def without_arms(tokens, i):
    """Yields each arm of the `match` at `i`, if the last one matches everything: without the others it is compiled too."""
    if tokens[i].kind == "name" and tokens[i].text == "match":
        *others, (start, arrow, _) = arms_of(tokens, i)
        if arrow == start + 1 and tokens[start].text[0] in "_abcdefghijklmnopqrstuvwxyz":
            yield from ((tokens[begin].start, tokens[end - 1].end, "") for begin, _, end in others)


def negated(tokens, i, last):
    """Yields the negation of the condition of the `if` or `while` at `i`, unless it is a pattern."""
    if tokens[i].text not in ("if", "while") or tokens[i].kind != "name" or tokens[i + 1].text == "let":
        return
    j = i + 1
    while j < last and tokens[j].text not in ("{", "=>", "let", ";") and tokens[j].text not in CLOSE:
        j = past_group(tokens, j) if tokens[j].text in ("(", "[") else j + 1
    if j < last and tokens[j].text in ("{", "=>"):
        yield tokens[i + 1].start, tokens[j - 1].end, None


def negated_other(tokens, i):
    """Yields the negation of the parenthesized condition of the `if` or `while` at `i`."""
    if tokens[i].text in ("if", "while") and tokens[i].kind == "name" and tokens[i + 1].text == "(":
        yield tokens[i + 1].start, tokens[past_group(tokens, i + 1) - 1].end, None


def dropped(tokens, function):
    """Yields the statements of a function's body."""
    frames = []
    for i in range(function.open, function.close):
        text = tokens[i].text if tokens[i].kind == "sign" else ""
        if text in OPEN:
            frames.append([text, i + 1])
        elif text in CLOSE:
            frames.pop()
            follows = tokens[i + 1].text if i + 1 < len(tokens) else ""
            if text == "}" and frames and frames[-1][0] == "{" and follows not in CONTINUES:
                first = frames[-1][1]
                if tokens[first].text in BLOCKS:
                    yield tokens[first].start, tokens[i].end, ""
                frames[-1][1] = i + 1
        elif text == ";" and frames[-1][0] == "{":
            first = frames[-1][1]
            if first < i and tokens[first].text not in DECLARES:
                yield tokens[first].start, tokens[i].end, ""
            frames[-1][1] = i + 1


def results(returns):
    """Returns the values that replace the body of a function with this return type."""
    plain = re.sub(r"'\w+ ", "", returns)
    if plain == "bool":
        return ["true", "false"]
    if plain in INTEGERS:
        return ["0", "1"]
    if plain.startswith("Option<"):
        return ["None", "Some(Default::default())"]
    if re.match(r"(\w+::)*Result\b", plain):
        return ["Ok(Default::default())"]
    if plain == "&str":
        return ['""']
    if re.match(r"&\[", plain):
        return ["&[]"]
    return [] if plain == "!" or "impl" in plain else ["Default::default()" if plain else ""]


def replaced_bodies(text, tokens, function, is_rust):
    """Yields the constant bodies of a function."""
    start, end = tokens[function.open].start, tokens[function.close - 1].end
    body = text[start + 1 : end - 1].strip().replace("Ok(())", "Ok(Default::default())")
    for value in results(function.returns) if is_rust else [""]:
        if body != value:
            yield start, end, f"{{ {value} }}" if value else "{}"


# Mutants of a file


def described(text, start, end, new):
    """Returns the new text and the line of a change as `old line -> new line`; the first line of a longer change."""
    first, last = text.rfind("\n", 0, start) + 1, text.find("\n", start)
    old = text[first:last].strip()
    if text[start] == "{":
        return f"the body -> {new}"
    if "\n" in text[start:end]:
        return f"{text[start:end].splitlines()[0].strip()} .. -> {(new.splitlines() or ['nothing'])[0].strip()}"
    return f"{old} -> {(text[first:start] + new + text[end:last]).strip() or 'nothing'}"


def is_endless(tokens, i):
    """Returns `True` if the token is part of `0..u64::MAX`, the range of a loop that ends by `break`."""
    texts = [it.text for it in tokens[max(0, i - 1) : i + 5]]
    return any(texts[j : j + 5] == ["0", "..", "u64", "::", "MAX"] for j in range(2))


def edits_of(text, tokens, function, is_rust):
    """Returns all edits of a function, as the offsets and the new text."""
    edits = [*replaced_bodies(text, tokens, function, is_rust), *dropped(tokens, function)]
    for i in range(function.open, function.close):
        if is_endless(tokens, i):
            continue
        edits += [*swapped(text, tokens, i), *constants(tokens, i)]
        edits += of_token(text, tokens, i, function.close) if is_rust else negated_other(tokens, i)
    return list(dict.fromkeys(edits))


def of_token(text, tokens, i, last):
    """Yields the edits at a token that only Rust has."""
    yield from negated(tokens, i, last)
    yield from renamed(tokens, i)
    yield from emptied(tokens, i)
    yield from unnegated(tokens, i)
    yield from decided(text, tokens, i, last)
    yield from without_arms(tokens, i)


def numbered(mutants):
    """Makes the changes of equal ones of a function unique."""
    seen = collections.Counter()
    for mutant in mutants:
        seen[mutant.key()] += 1
        count = seen[mutant.key()]
        yield dataclasses.replace(mutant, change=f"{mutant.change} ({count})") if count > 1 else mutant


def mutant_of(file, text, name, edit, body=None):
    """Returns the mutant of an edit. Only that of a function with a `body` can be selected by a switch."""
    start, end, new = edit
    if new is None:
        new = f"!({text[start:end]})"
    return Mutant(file, name, body, text.count("\n", 0, start) + 1, start, end, new, described(text, start, end, new), body is None)


def of_functions(file, text, tokens, functions, is_rust):
    for function in functions:
        if is_unproved(text[: tokens[function.open].start]):
            alone = function.is_const or "impl " in function.returns
            body = None if alone else (tokens[function.open].start, tokens[function.close - 1].end)
            for edit in edits_of(text, tokens, function, is_rust):
                yield mutant_of(file, text, function.name, edit, body)


def is_value(tokens, i):
    """Returns `True` if a `const` or `static` at `i` declares a value."""
    token, follows = tokens[i], tokens[i + 1]
    declares = token.text in ("const", "static") and token.kind == "name" and follows.kind == "name"
    before = tokens[i - 1].text if i else ""
    return declares and before not in ("*", "<", ",", "&") and follows.text not in ("fn", "unsafe", "extern", "_", "mut")


def of_values(file, text, tokens, functions):
    """Yields the mutants of the constants and statics of a Rust source, which a switch cannot select."""
    inside = {i for it in functions for i in range(it.open, it.close)}
    for i in range(len(tokens) - 1):
        if i in inside or not is_value(tokens, i):
            continue
        end = past_value(tokens, i)
        equals = next((j for j in range(i, end) if tokens[j].text == "="), end)
        for j in range(equals + 1, end):
            for edit in [*swapped(text, tokens, j), *constants(tokens, j)]:
                yield mutant_of(file, text, tokens[i + 1].text, edit)


def past_value(tokens, at):
    """Returns the index of the `;` that ends the constant at `at`."""
    i = at
    while i < len(tokens) and tokens[i].text != ";":
        i = past_group(tokens, i) if tokens[i].kind == "sign" and tokens[i].text in OPEN else i + 1
    return i


def is_unproved(before):
    """Returns `True` if the comment of the function whose body follows this text has no `ensures`."""
    return "ensures" not in before.rpartition("\n\n")[2]


def rust_mutants(file, text):
    """Returns the mutants of a Rust source, without those of functions whose contract is proved."""
    tokens = without_excluded(text, tokens_of(text, RUST))
    functions = rust_functions(text, tokens)
    found = [*of_functions(file, text, tokens, functions, True), *of_values(file, text, tokens, functions)]
    return list(numbered(found))


def seeded(file, text, name, change, old, new):
    """Returns the mutant that replaces a text in a function of a Rust source, or `None` if the functions of this name do not have it once."""
    tokens = tokens_of(text, RUST)
    bodies = [(tokens[it.open].start, tokens[it.close - 1].end) for it in rust_functions(text, tokens) if it.name == name]
    wanted = re.compile(r"\s+".join(map(re.escape, old.split())))
    found = [(body, match.span()) for body in bodies for match in wanted.finditer(text, *body)]
    if len(found) != 1:
        return None
    body, (start, end) = found[0]
    return Mutant(file, name, body, text.count("\n", 0, start) + 1, start, end, new, change, False)


def script_mutants(file, text):
    """Returns the mutants of a JavaScript source: of its functions, and of its other statements."""
    tokens = tokens_of(text, OTHER)
    functions = other_functions(text, tokens)
    found = list(of_functions(file, text, tokens, functions, False))
    inside = {i for it in functions for i in range(it.open, it.close)}
    for i in range(len(tokens) - 1):
        if i not in inside:
            edits = [*swapped(text, tokens, i), *constants(tokens, i), *negated_other(tokens, i)]
            found += [mutant_of(file, text, "module", edit) for edit in edits]
    return list(numbered(found))


def declared_types(file, text, tokens, functions):
    """Yields the mutants of a C header that give a field or a parameter another type."""
    bodies = {i for it in functions for i in range(it.open, it.close)}
    for i, token in enumerate(tokens):
        if i not in bodies and token.text in C_TYPES and tokens[i - 1].text != "typedef":
            yield mutant_of(file, text, declared_in(tokens, i), (token.start, token.end, C_TYPES[token.text]))


def declared_in(tokens, at):
    """Returns the name of the struct or function in whose declaration a token of a C header is."""
    first = max((i for i in range(at) if tokens[i].text == ";" and tokens[i - 1].text in ("}", ")")), default=0)
    for i in range(first, min(len(tokens) - 1, at + 4)):
        if tokens[i].text.startswith("wat_") and tokens[i + 1].text in ("{", "("):
            return tokens[i].text
    return "module"


def fields_of(file, text):
    """Yields the mutants of a C header in which a struct lacks a field, or has two adjacent ones in the other order."""
    for struct in re.finditer(r"^struct (wat_\w+) \{\n(.*?)^\};", text, re.MULTILINE | re.DOTALL):
        fields = list(re.finditer(r"^ +(\w+(?: \w+)? \w+);", struct[2], re.MULTILINE))
        offset = struct.start(2)
        for one in fields:
            yield mutant_of(file, text, struct[1], (offset + one.start(1), offset + one.end(), ""))
        for one, other in zip(fields, fields[1:]):
            between = struct[2][one.end(1) : other.start(1)]
            yield mutant_of(file, text, struct[1], (offset + one.start(1), offset + other.end(1), other[1] + between + one[1]))


def swapped_names(file, text, tokens, function):
    """Yields the mutants of a table of names in which two adjacent names are swapped."""
    strings = [it for it in tokens[function.open : function.close] if it.kind == "string"]
    for one, other in zip(strings, strings[1:]):
        if one.text != other.text and text[one.end : other.start].strip() == ",":
            yield mutant_of(file, text, function.name, (one.start, other.end, other.text + text[one.end : other.start] + one.text))


def header_mutants(file, text):
    """Returns the mutants of a C header: of its inline functions, of the names in their tables, of the constants, structs and functions that it
    declares."""
    tokens = tokens_of(re.sub(r"^#define (?!WAT_).*", lambda it: " " * len(it[0]), text, flags=re.MULTILINE), OTHER)
    functions = other_functions(text, tokens)
    found = list(of_functions(file, text, tokens, functions, False))
    for function in functions:
        found += swapped_names(file, text, tokens, function)
        for token in tokens[function.open : function.close]:
            if token.kind == "string" and len(token.text) > 2:
                found.append(mutant_of(file, text, function.name, (token.start, token.end, '""')))
    for match in re.finditer(r'^(?:#define |\s+|.*[{,] )(WAT_\w+)(?: =)? (\d+|".*?")', text, re.MULTILINE):
        edits = [(*match.span(2), '""')] if match[2].startswith('"') else [(*match.span(2), str(int(match[2]) + 1))]
        found += [mutant_of(file, text, match[1], edit) for edit in edits]
    for match in re.finditer(r"(?<=[{ ])(WAT_\w+) = (\d+)(?=,| \})", text):
        found.append(mutant_of(file, text, match[1], (*match.span(2), str(int(match[2]) + 1))))
    for match in re.finditer(r"^#define wat_\w+ wat_\w+", text, re.MULTILINE):
        found.append(mutant_of(file, text, "module", (*match.span(), "")))
    found += [*declared_types(file, text, tokens, functions), *fields_of(file, text)]
    unique = {(it.start, it.end, it.new): it for it in found}
    return list(numbered(unique.values()))
