"""The known differences between the results of `wat2wasm` 1.0.32, wast 222 and the program under test, for compare_modules.py."""
import functools
import itertools

import module_tokens as tokens_of
from generate_modules import FORMS, laid
from module_sections import DATA_COUNT, contents, differences, meaning, type_count
from name_sections import LOCALS, are_shifted, subsections

# Texts that `wat2wasm` accepts and the program rejects: the beginning of the program's message, and a test of the tokens.
REFUSED = {
    "of an `if` without `then` or `else`, which wat2wasm takes": ("expected ", tokens_of.has_bare_part),
    "of a table or elements of numbers, which wat2wasm takes": (("unknown reference type ", "expected a reference type", "expected `(table`, an offset, "), tokens_of.has_number_table),
    "of an unknown name in an element, for which wat2wasm does not look": ("unknown function ", tokens_of.has_name_in_element),
    "of a table that is said, without `func` or an offset, which wat2wasm takes": ("expected ", tokens_of.has_said_table),
    "of a segment with `declare` and indices without `func`, which wat2wasm takes": ("expected a reference type or `func`, ", tokens_of.has_declared_indices),
    "of an element segment with nothing in it, which wat2wasm takes": ("expected ", tokens_of.has_no_list),
    "of two data segments of one name, which wat2wasm takes": ("duplicate data segment ", tokens_of.has_two_segments_of_a_name),
    "of a `table.copy` of one table, which wat2wasm takes": ("expected ", tokens_of.has_one_table),
    "of a type's number with the lists of another type, which wat2wasm takes": ("parameters or results differ ", tokens_of.type_numbers),
}
# Texts of older syntax or later proposals that only the program rejects: the beginning of its message, and a test of the tokens.
REFUSED_ALONE = {
    "of limits with a type, which both oracles take": ("expected ", tokens_of.has_index_type),
    "of a segment's memory or table without parentheses, which both oracles take": ("expected ", tokens_of.has_bare_use),
    "of a memory's index in an instruction, which both oracles take": ("expected ", tokens_of.has_memory_index),
    "of a memory's index before a memory argument, which both oracles take": ("unknown instruction ", tokens_of.has_memory_index),
}
OF_A_FORM = "of a form left out: "
NO_TYPE = "of the number of no type, for which the oracles do not look"


def is_taken_by_both(name):
    """Returns `True` if both reference implementations are known to accept the texts of a known difference."""
    return name is not None and (name == NO_TYPE or name in REFUSED_ALONE or name.startswith(OF_A_FORM))


# Texts that a program rejects if it does not implement a form: the beginning of its message, and a test of the tokens.
LEFT_OUT = {
    **{form: [("unknown ", functools.partial(tokens_of.has_word, {word for word, _ in rows}))] for form, rows in FORMS.items()},
    "reference-types": [(("unknown ", "expected "), tokens_of.has_reference)],
    "typed-select": [("unknown ", tokens_of.has_typed_select)],
    "bare": [(("expected ", "unknown "), tokens_of.has_no_module)],
}

# Texts that the program accepts and `wat2wasm` rejects.
CONDITIONS = "of an `if` with more conditions than one, which wat2wasm refuses"
UNFOUND = "of the number of a type that a use brings, which wat2wasm does not find"
STOPPED = "of a segment with a label's name or a type use, at which an assertion of wat2wasm fails"

# Texts for which the program and `wat2wasm` write different bytes.
SHORT = "of a block of `(type x)`, which wat2wasm writes short"
UNTYPED = "of a block of the number of a type that a use brings, which wat2wasm writes as one without a type"
EMPTY = "of an element without instructions, which wat2wasm leaves out"
OUTSIDE = "of a type use outside of functions, which wat2wasm does not look for"
COUNT = "of a data count, which wat2wasm leaves out of no segments and writes for other expressions"
LONG = "of a table's index from 64 on, which wat2wasm writes in two bytes"
# The known differences that occur in modules, and not only in mutants.
OF_MODULES = {SHORT, STOPPED, COUNT, LONG}


def refusal(without, tokens, message):
    """Returns the name of the known difference that explains why only the program rejects a text, or `None`."""
    found = (name for name, (said, has) in {**REFUSED_ALONE, **REFUSED}.items() if message.startswith(said) and has(tokens))
    left_out = (f"{OF_A_FORM}{form}" for form in without for said, has in LEFT_OUT[form] if message.startswith(said) and has(tokens))
    return next(left_out, None) or next(found, None)


def is_no_type(tokens, message, theirs):
    """Returns `True` if a type use has an integer that is not the index of a type in the module of these bytes."""
    return message.startswith("unknown type ") and any(number >= type_count(theirs) for number in tokens_of.type_numbers(tokens))


def is_other_count(tokens, ours, theirs):
    """Returns `True` if one data count is omitted: by `wat2wasm` that of 0 segments, by the program one that no function needs."""
    ours, theirs = (contents(data).get(DATA_COUNT) for data in (ours, theirs))
    return ours == b"\0" and theirs is None or ours is None and not tokens_of.has_data_index(tokens)


def is_long(makers, rng, tokens):
    """Returns `True` if the bytes agree, or differ in a known way, once each index of a table is below 64."""
    small = tokens_of.with_small_tables(tokens)
    ours, theirs = (maker(small, laid(rng, small))[0] for maker in makers)
    return small != tokens and None not in (ours, theirs) and (ours == theirs or bool(other_bytes(makers, rng, small, ours, theirs)))


def other_bytes(makers, rng, tokens, ours, theirs):
    """Returns the names of the known differences that together explain why the bytes differ from those of `wat2wasm`, or an empty list."""
    names, short = [], tokens_of.shortened(tokens)
    if short != tokens and (answer := makers[0](short, laid(rng, short))[0]) is not None:
        names, tokens, ours = [SHORT], short, answer
    bare = tokens_of.untyped(tokens)
    if bare != tokens and (answer := makers[0](bare, laid(rng, bare))[0]) is not None:
        names, tokens, ours = names + [UNTYPED], bare, answer
    spelled, said = differences(contents(ours), contents(theirs)), differences(meaning(ours), meaning(theirs))
    if DATA_COUNT in spelled and is_other_count(tokens, ours, theirs):
        names, spelled, said = names + [COUNT], spelled - {DATA_COUNT}, said - {DATA_COUNT}
    if spelled and not said and is_long(makers, rng, tokens):
        names, spelled = names + [LONG], set()
    if not spelled:
        return names
    if tokens_of.has_use_outside(tokens):
        return [OUTSIDE]
    return [EMPTY] if tokens_of.has_empty_item(tokens) else []


def departures(makers, without, rng, tokens, ours, theirs):
    """Returns the names of the known differences that explain these results, or an empty list.

    `makers` are functions that return the results of the program and of `wat2wasm` for tokens and their text.
    """
    if ours[0] is not None and theirs[0] is not None:
        return other_bytes(makers, rng, tokens, ours[0], theirs[0])
    if ours[0] is None:
        name = NO_TYPE if theirs[0] is not None and is_no_type(tokens, ours[1], theirs[0]) else refusal(without, tokens, ours[1])
    elif "Assertion" in theirs[1]:
        name = STOPPED
    elif "invalid func type index" in theirs[1]:
        name = UNFOUND
    else:
        name = CONDITIONS if tokens_of.has_more_conditions(tokens) and "expected" in theirs[1] else None
    return [name] if name else []


# The outcomes for name sections: equal ones, and the known difference from those of wast.
SAME_NAMES, NO_NAMES = "the same names", "no names"
SHIFTED = "of a local after `(type x)` alone, whose index wast counts without the parameters of the type (6.6.5)"


def names_agreement(ours, theirs):
    """Returns how the name section of the program agrees with that of wast: the same, or the known difference. Returns `None` if it does not."""
    if ours == theirs:
        return SAME_NAMES if ours else NO_NAMES
    ours, theirs = subsections(ours), subsections(theirs)
    one, other = dict(ours).get(LOCALS), dict(theirs).get(LOCALS)
    if None in (one, other) or one == other or not are_shifted(one, other):
        return None
    theirs = [(number, one if number == LOCALS else content) for number, content in theirs]
    return SHIFTED if ours == theirs else None


# Changes to a text that a reference implementation does not accept as it is, by the construct that is changed.
FOR_WAT2WASM = {"a table's index left out": tokens_of.with_tables}
FOR_WAST = {"an underscore in a memory argument": tokens_of.without_underscores, "a folded block in a segment, without `offset` or `item`": tokens_of.with_words}


def written_for(oracle, tokens):
    """Returns the tokens as a reference implementation accepts them, and the names of the changed constructs."""
    names = []
    for name, change in oracle.items():
        changed = change(tokens)
        if changed != tokens:
            names.append(name)
        tokens = changed
    return tokens, names


# Modules that `wat2wasm` 1.0.32 accepts and that are not valid, by the cause. Three rules change the units of a text so that the new text is valid if
# and only if the old one is, and `wat2wasm` does not have the fault there.
SELECTED = "whose typed `select` leaves another type, for which wat2wasm does not look"
NO_OFFSET = "with an offset, an initial value or an element without instructions, which wat2wasm accepts"
OF_EXTERNREF = "with a `call_indirect` through a table of `externref`, which wat2wasm accepts"
OF_NUMBER = "with `ref.is_null` of a number, which wat2wasm accepts"
NUMBERS = "with elements of numbers, which wat2wasm accepts"
# Valid modules that it rejects.
OF_GLOBAL = "with `global.get` as an element, which wat2wasm rejects"


def with_typed_results(units):
    """Returns units with a block after each typed `select` that has its type as parameter and result."""
    made = []
    for unit in units:
        made.append(unit)
        if unit[:3] == ["select", "(", "result"] and len(unit) == 5:
            made += [["block", "(", "param", unit[3], ")", "(", "result", unit[3], ")"], ["end"]]
    return made


def with_checked_tables(units):
    """Returns units with instructions before each `call_indirect` that only a table of functions allows, and that leave the operands."""
    made = []
    for unit in units:
        if unit[0] == "call_indirect":
            table = unit[1] if len(unit) > 1 and unit[1].isdigit() else "0"
            made += [["i32.const", "0"], ["ref.null", "func"], ["i32.const", "0"], ["table.fill", table]]
        made.append(unit)
    return made


def with_references(units):
    """Returns units with a block before each `ref.is_null` that has a reference type as parameter and result: each choice of types, for few of them."""
    places = [at for at, unit in enumerate(units) if unit == ["ref.is_null"]]
    if len(places) > 4:
        return []
    made = []
    for kinds in itertools.product(["funcref", "externref"], repeat=len(places)):
        new = list(units)
        for at, kind in reversed(list(zip(places, kinds))):
            new[at:at] = [["block", "(", "param", kind, ")", "(", "result", kind, ")"], ["end"]]
        made.append(new)
    return made


def has_empty_expression(units):
    """Returns `True` if an offset, an initial value or an element has no instructions."""
    heads = (["(", "global"], ["(", "item"])
    return any(
        (unit[-1] == "offset" or unit[:2] in heads) and unit.count("(") > unit.count(")") and after == [")"]
        for unit, after in zip(units, units[1:])
    )


def has_global_element(units):
    """Returns `True` if an element is the value of a global."""
    return any(unit == ["(", "item"] and after[0] == "global.get" for unit, after in zip(units, units[1:]))


def validity_difference(verdict, units, ours, theirs):
    """Returns the name of the known difference that explains why `wat2wasm`, whose verdict on a text `verdict` returns, accepts a module that is not
    valid, or rejects a valid one. Returns `None` if there is none."""
    if ours == "=":
        is_global = theirs.startswith("! invalid elem expression") and has_global_element(units)
        return OF_GLOBAL if is_global else None
    if theirs != "=":
        return None
    if ours.startswith(("! unknown reference type", "! expected a reference type", "! expected `(table`, an offset, ")):
        return NUMBERS
    if has_empty_expression(units) and "not a constant expression" in ours:
        return NO_OFFSET
    for name, changed in ((SELECTED, [with_typed_results(units)]), (OF_EXTERNREF, [with_checked_tables(units)]), (OF_NUMBER, with_references(units))):
        if changed and changed[0] != units and all(verdict("\n".join(" ".join(unit) for unit in some)) != "=" for some in changed):
            return name
    return None
