"""Properties of the tokens of a module's text, for compare_modules.py."""
import re

TYPES = {"i32", "i64", "f32", "f64", "v128"}
REFERENCES = {"funcref", "externref"}
GROUPS = [["param"], ["result"], ["local"], ["global"]]
INDEX = re.compile(r"\$.*|0x[0-9a-fA-F_]+|[0-9_]+")
SEGMENTS = (["data"], ["elem"])
BLOCKS = {"block", "loop", "if"}
# The keywords before which `wat2wasm` 1.0.32 requires the index of a table.
OF_A_TABLE = {"table.get", "table.set", "table.size", "table.grow", "table.fill"}
OF_TABLES = OF_A_TABLE | {"table.copy", "table.init"}


def after_group(tokens, at):
    """Returns the index after the group whose `(` is at `at`, or the number of tokens if it is not closed."""
    depth = 0
    while at < len(tokens):
        depth += (tokens[at] == "(") - (tokens[at] == ")")
        at += 1
        if depth == 0:
            break
    return at


def group_at(tokens, at, word):
    """Returns the tokens after the keyword in the group at `at`, or `None` if no group of this keyword begins there."""
    if tokens[at : at + 2] != ["(", word]:
        return None
    return tokens[at + 2 : after_group(tokens, at) - 1]


def groups_of(tokens, words):
    """Returns the tokens of each group that begins with one of these keywords."""
    return [tokens[at : after_group(tokens, at)] for at in range(len(tokens)) if tokens[at] == "(" and tokens[at + 1 : at + 2] in words]


def unnamed(field):
    """Returns the tokens of a field after its keyword and its name."""
    return field[3:] if field[2:3] and field[2].startswith("$") else field[2:]


def outer(field):
    """Returns the tokens of a field that are not in a nested group."""
    made, at = [], 1
    while at < len(field) - 1:
        if field[at] == "(":
            at = after_group(field, at)
        else:
            made.append(field[at])
            at += 1
    return made


def is_index(tokens, at):
    """Returns `True` if the token at `at` is an index."""
    return at < len(tokens) and bool(INDEX.fullmatch(tokens[at]))


def lists_at(tokens, at):
    """Returns the parameters and the results that the groups at `at` list, and the index after them."""
    made = []
    for word in ("param", "result"):
        items = []
        while (group := group_at(tokens, at, word)) is not None:
            items += [item for item in group if not item.startswith("$")]
            at = after_group(tokens, at)
        made.append(items)
    return made[0], made[1], at


def defined_types(tokens):
    """Returns the types that fields define: their names, parameters and results."""
    made = []
    for at in range(len(tokens)):
        if tokens[at : at + 2] == ["(", "type"]:
            name = tokens[at + 2] if tokens[at + 2].startswith("$") else None
            place = at + (3 if name else 2)
            if tokens[place : place + 2] == ["(", "func"]:
                made.append((name,) + lists_at(tokens, place + 2)[:2])
    return made


def number_of(token):
    """Returns the integer of an index, or -1 if it is a name."""
    if not re.fullmatch(r"0x[0-9a-fA-F_]+|[0-9][0-9_]*", token):
        return -1
    return int(token.replace("_", ""), 16 if token.startswith("0x") else 10)


def type_of(types, index):
    """Returns the type of an index, or `None`."""
    if index.startswith("$"):
        return next((of for of in types if of[0] == index), None)
    number = number_of(index)
    return types[number] if 0 <= number < len(types) else None


def block_uses(tokens):
    """Yields the position of each block's type use that has the index of a type."""
    for at, token in enumerate(tokens):
        if token in BLOCKS:
            at += 2 if tokens[at + 1 : at + 2] and tokens[at + 1].startswith("$") else 1
            if len(group_at(tokens, at, "type") or []) == 1:
                yield at


def shortened(tokens):
    """Returns the tokens with each `(type x)` of a block replaced by its short form, if the type has one."""
    types, made, last = defined_types(tokens), [], 0
    for at in block_uses(tokens):
        of = type_of(types, tokens[at + 2])
        if of and not of[1] and len(of[2]) < 2:
            made += tokens[last:at] + ["(", "result"] + of[2] + [")"]
            last = lists_at(tokens, after_group(tokens, at))[2]
    return made + tokens[last:]


def untyped(tokens):
    """Returns the tokens without each block's type index that no field defines, if the block lists neither parameters nor results."""
    types, made, last = defined_types(tokens), [], 0
    for at in block_uses(tokens):
        end = after_group(tokens, at)
        if number_of(tokens[at + 2]) >= len(types) and lists_at(tokens, end)[:2] == ([], []):
            made += tokens[last:at]
            last = end
    return made + tokens[last:]


def with_tables(tokens):
    """Returns the tokens with the index 0 of a table added, if `wat2wasm` requires an index and it is missing."""
    made = []
    for at, token in enumerate(tokens):
        made.append(token)
        if token in OF_A_TABLE and not is_index(tokens, at + 1):
            made.append("0")
    return made


def with_small_tables(tokens):
    """Returns the tokens with each index of a table from 64 on replaced by its remainder modulo 64."""
    made = list(tokens)
    for at, token in enumerate(tokens):
        if token in OF_TABLES:
            made[at + 1 : at + 3] = [str(number_of(index) % 64) if number_of(index) > 63 else index for index in made[at + 1 : at + 3]]
    return made


def without_underscores(tokens):
    """Returns the tokens without underscores in memory arguments, where wast does not accept them."""
    return [token.replace("_", "") if token.startswith(("offset=", "align=")) else token for token in tokens]


def with_words(tokens):
    """Returns the tokens with `offset` or `item` around each offset and each element that has a block, as wast requires."""
    made, at = [], 0
    while at < len(tokens):
        if tokens[at : at + 2] in (["(", "data"], ["(", "elem"]):
            end = after_group(tokens, at)
            is_inline = tokens[at + 1] == "elem" and tokens[at - 1] in REFERENCES
            made += with_words_in(tokens[at:end], is_inline)
            at = end
        else:
            made.append(tokens[at])
            at += 1
    return made


def with_words_in(field, has_offset):
    """Returns the tokens of a segment with `offset` or `item` added. If `has_offset` is set, elements come next, otherwise the offset."""
    made, at = field[:2], 2
    while at < len(field):
        end = after_group(field, at) if field[at] == "(" else at + 1
        group = field[at:end]
        if group[:1] == ["("] and group[1:2] not in (["offset"], ["item"]) and has_word(BLOCKS, group):
            group = ["(", "item" if has_offset else "offset"] + group + [")"]
        has_offset = has_offset or field[at] in REFERENCES | {"func"} or group[:1] == ["("] and group[1:2] not in (["table"], ["memory"])
        made += group
        at = end
    return made


def has_empty_else(tokens):
    """Returns `True` if an `else` has nothing after it."""
    for at, token in enumerate(tokens):
        if token != "else":
            continue
        rest = tokens[at + 1:]
        if tokens[at - 1] == "(":
            if rest[:1] == [")"]:
                return True
        else:
            if rest[:1] and rest[0].startswith("$"):
                rest = rest[1:]
            if rest[:1] == ["end"]:
                return True
    return False


def has_empty_select(tokens):
    """Returns `True` if a `select` has type groups, and all of them are empty."""
    for at, token in enumerate(tokens):
        _, types, after = lists_at(tokens, at + 1)
        if token == "select" and after > at + 1 and not types:
            return True
    return False


def has_empty_item(tokens):
    """Returns `True` if an `item` has no instructions."""
    return any(tokens[at : at + 3] == ["(", "item", ")"] for at in range(len(tokens)))


def has_use_outside(tokens):
    """Returns `True` if a global, a segment or a table has an instruction that may have a type use: a block or `call_indirect`."""
    return any({"call_indirect", *BLOCKS} & set(field) for field in groups_of(tokens, (["global"], ["data"], ["elem"], ["table"])))


def has_data_index(tokens):
    """Returns `True` if an instruction of a function has the index of a data segment."""
    return any(has_word({"memory.init", "data.drop"}, field) for field in groups_of(tokens, (["func"],)))


def has_bare_part(tokens):
    """Returns `True` if a folded `if` has no `then`, or a group after a `then` is not an `else`."""
    for at in range(len(tokens) - 1):
        if tokens[at : at + 2] == ["(", "then"]:
            end = after_group(tokens, at)
            if tokens[end : end + 1] == ["("] and tokens[end + 1 : end + 2] != ["else"]:
                return True
        if tokens[at : at + 2] == ["(", "if"]:
            inside, depth = tokens[at + 1 : after_group(tokens, at)], 0
            opened = []
            for token, word in zip(inside, inside[1:]):
                depth += (token == "(") - (token == ")")
                if token == "(" and depth == 1:
                    opened.append(word)
            if "then" not in opened:
                return True
    return False


def has_typed_select(tokens):
    """Returns `True` if a `select` has a type."""
    return any(tokens[at : at + 3] == ["select", "(", "result"] for at in range(len(tokens)))


def has_type_in(tokens, kind):
    """Returns `True` if a group of this kind has a number type or the vector type."""
    return any(TYPES & set(group) for group in groups_of(tokens, ([kind],)))


def has_number_table(tokens):
    """Returns `True` if a table or an element segment has a number type or the vector type."""
    return has_type_in(tokens, "table") or any(TYPES & set(outer(field)) for field in groups_of(tokens, (["elem"],)))


def has_name_in_element(tokens):
    """Returns `True` if an instruction of an element segment has a name."""
    return any(sum(token.startswith("$") for token in field) > sum(token.startswith("$") for token in outer(field)) for field in groups_of(tokens, (["elem"],)))


def has_index_type(tokens):
    """Returns `True` if a memory or a table has an index type."""
    return has_type_in(tokens, "memory") or has_type_in(tokens, "table")


def has_reference(tokens):
    """Returns `True` if a parameter, a result, a local or a global has a reference type."""
    return any(REFERENCES & set(group) for group in groups_of(tokens, GROUPS))


def type_numbers(tokens):
    """Returns the type indices of all type uses, with -1 for names."""
    uses = (tokens[at + 2] for at in range(len(tokens) - 3) if tokens[at : at + 2] == ["(", "type"] and tokens[at + 3] == ")")
    return [number_of(use) for use in uses]


def has_bare_use(tokens):
    """Returns `True` if a segment has the index of its memory or table without parentheses."""
    return any(is_index(unnamed(field), 0) for field in groups_of(tokens, SEGMENTS))


def has_memory_index(tokens):
    """Returns `True` if an instruction has the index of a memory, as proposals after 2.0 allow."""
    words = {"memory.size", "memory.grow", "memory.copy", "memory.fill"}
    for at, word in enumerate(tokens):
        if (".load" in word or ".store" in word or word in words) and is_index(tokens, at + 1):
            return True
        if word == "memory.init" and is_index(tokens, at + 1) and is_index(tokens, at + 2):
            return True
    return False


def has_two_segments_of_a_name(tokens):
    """Returns `True` if two data segments have the same name."""
    names = [tokens[at + 2] for at in range(len(tokens) - 2) if tokens[at : at + 2] == ["(", "data"] and tokens[at + 2].startswith("$")]
    return len(set(names)) < len(names)


def has_said_table(tokens):
    """Returns `True` if an element segment begins with the use of a table."""
    return any(tokens[at : at + 2] == ["(", "elem"] and tokens[at + 2 : at + 5].count("table") for at in range(len(tokens)))


def has_declared_indices(tokens):
    """Returns `True` if an index follows `declare`."""
    return any(token == "declare" and is_index(tokens, at + 1) for at, token in enumerate(tokens))


def has_no_list(tokens):
    """Returns `True` if an element segment is empty."""
    return any(unnamed(field) in ([")"], ["declare", ")"]) for field in groups_of(tokens, (["elem"],)))


def has_one_table(tokens):
    """Returns `True` if a `table.copy` has one index."""
    return any(token == "table.copy" and is_index(tokens, at + 1) and not is_index(tokens, at + 2) for at, token in enumerate(tokens))


def has_no_module(tokens):
    """Returns `True` if no `module` is around the fields."""
    return tokens[:2] != ["(", "module"]


def has_more_conditions(tokens):
    """Returns `True` if a folded `if` has more than one condition."""
    for at in range(len(tokens)):
        if tokens[at : at + 2] == ["(", "if"]:
            count, here = 0, at + 2
            while here < len(tokens) and tokens[here : here + 2] != ["(", "then"] and tokens[here] != ")":
                if tokens[here] == "(":
                    count += tokens[here + 1] not in ("param", "result", "type")
                    here = after_group(tokens, here)
                else:
                    here += 1
            if count > 1:
                return True
    return False


def has_word(words, tokens):
    """Returns `True` if one of these keywords is among the tokens."""
    return not words.isdisjoint(tokens)
