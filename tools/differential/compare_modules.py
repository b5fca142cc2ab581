#!/usr/bin/env python3
"""Compares the bytes of modules with those of two reference implementations: `wat2wasm --no-check` (Debian's package wabt), and with --second the
encoder of the crate wast 222. The modules are generated at random from everything that `wat_modules` accepts, with fields in any order that has
imports first. Each mutant has one changed token. tools/differential/generate_modules.py generates both, and lists what is not generated.

PROGRAM reads a module from standard input and writes its bytes to standard output; if it rejects the text its status is 1. It is
rust/wat-modules/examples/module.rs. If it does not implement some forms, which --help lists, --without names them: they are not generated, and
mutants that have one may be rejected.

A module passes if its bytes are those of `wat2wasm`, or if tools/differential/known_differences.py explains the difference. `wat2wasm` 1.0.32 writes
- a block with `(type x)` in the short form if the type has one, which 6.5.2 does not allow: PROGRAM is then given the text with the short form;
- an index of a table from 64 on, after instructions of tables, in two bytes: both are then given lower indices;
- no data count in a module without data segments, even if an instruction needs it (5.5.16).
It also rejects `table.get`, `set`, `size`, `grow` and `fill` without an index: it is then given the text with the index 0.

ENCODER is the program that tools/differential/wast_encoder.sh builds. Its results are reported for texts on which PROGRAM and `wat2wasm` differ. If
both reference implementations agree with each other and not with PROGRAM, that is a fault, except for mutants with missing forms, later proposals or
older syntax, as known_differences.py lists them. A known difference is also a fault if all three produce bytes, and wast's are not equivalent to
PROGRAM's. The three are compared section by section, except for name sections, as `wat2wasm` writes none. Modules are `the same, spelled otherwise` if
their sections differ only in
- the flags of an element segment: wast keeps an explicit table 0, and elements as instructions; `wat2wasm` writes the short form;
- the type of a block, by its index or short; and an index in more bytes than necessary.
With --names, PROGRAM writes a name section, which is compared with wast's: it must be the same, or differ in a way
that known_differences.py explains. Without --names, PROGRAM must write none.

Wast does not accept an underscore in a memory argument, or a folded block in a segment without `offset` or `item`. It is given changed texts instead.

usage: compare_modules.py [--modules N] [--mutants N] [--seed N] [--without FORM,..] [--second ENCODER [--names]] [--show] [--] PROGRAM [ARGUMENT..]
       compare_modules.py [..] --second ENCODER                     compares only the two reference implementations
       compare_modules.py --texts FOLDER [--second ENCODER [--names]] [--] PROGRAM [ARGUMENT..]       each FOLDER/**/*.wat instead of generated texts
       compare_modules.py --write FUNCTIONS [--named] [--seed N] [--without FORM,..] > TEXT
"""
import argparse
import collections
import pathlib
import re
import sys

sys.dont_write_bytecode = True

import known_differences as known
import name_sections
from generate_modules import FORMS, big_module, choices, laid, made_texts
from module_sections import NAMES, agreement
from oracles import Encoder, Program, Wat2wasm

SHOWN = 20
RIGHT = "same bytes"
REFUSED = "both refuse"
MODULES, MUTANTS = "modules", "mutants"
AGREEING = ("the same bytes", "both refuse", "the same, spelled otherwise")


def agrees(one, other):
    """Returns `True` if two results are the same module, or both are rejections."""
    return agreement(one[0], other[0])[0] in AGREEING


def cause(message):
    """Returns the first line of a message without its location, with quoted text and integers replaced by `..`."""
    line = next((line for line in message.split("\n") if line), "")
    return re.sub(r'"[^"]*"|`[^`]*`|\d+', "..", line.split("error: ")[-1])


def side_of(answer, ours, theirs):
    """Returns which of two results a third one agrees with: by its bytes, otherwise by the meaning of its sections."""
    ways = {"ours": agreement(answer[0], ours[0])[0], "wat2wasm": agreement(answer[0], theirs[0])[0]}
    for way in AGREEING:
        sides = [who for who in ways if ways[who] == way]
        if sides:
            return f"as {' and '.join(sides)}" + (", spelled otherwise" if "otherwise" in way else "")
    return "as neither"


class Beside:
    """The results of the second reference implementation, compared with those of `wat2wasm`."""

    def __init__(self, encoder):
        self.oracle = Encoder(encoder)
        self.counts, self.sections, self.changes, self.examples = collections.Counter(), collections.Counter(), collections.Counter(), {}

    def answer(self, rng, tokens, text, wanted):
        """Returns wast's result for a text. If it agrees with none of `wanted`, returns the result for the text as changed for wast, if it can be."""
        answer = self.oracle.answer(text)
        changed, names = known.written_for(known.FOR_WAST, tokens)
        if not names or answer[0] is not None and any(agrees(answer, other) for other in wanted):
            return answer
        second = self.oracle.answer(laid(rng, changed))
        if second[0] is not None and any(agrees(second, other) for other in wanted):
            self.changes.update(names)
        return second

    def note(self, what, text, answer, theirs):
        """Counts how a result agrees with that of `wat2wasm`, and records the text if it does not."""
        how, differ = agreement(answer[0], theirs[0])
        why = ", ".join(NAMES[number] for number in sorted(differ))
        if how == "refused by one":
            how, why = "wast alone refuses" if answer[0] is None else "wast alone takes", cause(answer[1] or theirs[1])
        self.counts[what, how] += 1
        self.sections.update((what, how, NAMES[number]) for number in differ)
        if how not in AGREEING:
            self.examples.setdefault((what, how, why), []).append(text)

    def show(self, all_examples):
        """Prints the counts, and the shortest example of each disagreement. Examples of mutants are printed only if `all_examples` is set."""
        for (what, how, why), texts in self.examples.items():
            if all_examples or what != MUTANTS:
                print(f"--- {what}: {how}: {why}: {len(texts)}, as", min(texts, key=len), sep="\n")
        for (what, how), count in sorted(self.counts.items()):
            parts = [f"{n} {name}" for (*way, name), n in self.sections.most_common() if way == [what, how]]
            of_sections = f", by sections: {', '.join(parts)}" if parts else ""
            print(f"compare_modules.py: wast, {what} that the others answer alike: {count} {how}{of_sections}")
        for name, count in self.changes.items():
            print(f"compare_modules.py: wast agrees on {count} texts when they are changed, as it does not read them: {name}")


class Names:
    """The name sections of the program, compared with those of wast."""

    def __init__(self, is_written):
        self.is_written, self.counts, self.differ = is_written, collections.Counter(), []

    def split(self, answer):
        """Returns a result of the program without its name section, and the section. Without --names the section stays."""
        if not self.is_written or answer[0] is None:
            return answer, b""
        module, section = name_sections.split(answer[0])
        return (module, answer[1]), section

    def compare(self, text, ours, section, other):
        """Compares the name section of a result with that of wast's result for the same text, and counts the outcome."""
        if not self.is_written or None in (ours[0], other and other[0]):
            return
        theirs = name_sections.split(other[0])[1]
        how = known.names_agreement(section, theirs)
        if how is None:
            self.differ.append((text, section, theirs))
        else:
            self.counts[how] += 1

    def show(self):
        """Prints the counts, and the texts whose name sections differ."""
        for text, ours, theirs in self.differ[:SHOWN]:
            print("--- names", text, f"ours: {ours.hex()}", f"wast: {theirs.hex()}", sep="\n")
        counts = "".join(f"{count} {how}, " for how, count in self.counts.items())
        if self.is_written:
            print(f"compare_modules.py: name sections: {counts}{len(self.differ)} differ")


class Comparison:
    """The comparison of generated texts, and its counts."""

    def __init__(self, given):
        self.given, self.rng = given, choices(given.seed, FORMS.keys() - given.without)
        self.program = Program(given.program) if given.program else None
        self.oracle, self.second, self.names = Wat2wasm(), Beside(given.second) if given.second else None, Names(given.names)
        self.counts, self.asked, self.sides, self.differ = collections.Counter({RIGHT: 0, REFUSED: 0}), collections.Counter(), collections.Counter(), []

    def made(self, _, text):
        """Returns the result of the program under test for a text, without its name section."""
        return self.names.split(self.program.answer(text))[0]

    def reference(self, tokens, text):
        """Returns the result of `wat2wasm` for a text. If it rejects the text, returns the result for an equivalent text, if there is one."""
        answer = self.oracle.answer(text)
        changed, names = known.written_for(known.FOR_WAT2WASM, tokens)
        if answer[0] is not None or not names:
            return answer
        second = self.oracle.answer(laid(self.rng, changed))
        if second[0] is not None:
            self.asked.update(names)
        return second

    def names_of(self, mutant, tokens, ours, theirs):
        """Returns the outcome of two results: equal bytes, both rejected, or the known differences. Returns `None` if it is not explained."""
        if self.program is None and not mutant and "Assertion" in theirs[1]:
            return known.STOPPED
        if ours[0] == theirs[0] and (mutant or ours[0] is not None):
            return RIGHT if ours[0] is not None else REFUSED
        names = known.departures((self.made, self.reference), self.given.without, self.rng, tokens, ours, theirs)
        return " and ".join(names) if names and (mutant or known.OF_MODULES.issuperset(names)) else None

    @staticmethod
    def is_against(other, ours, theirs):
        """Returns `True` if the second reference disagrees with the program, and either all three produce bytes or it agrees with `wat2wasm`."""
        made = None not in (ours[0], theirs[0], other[0])
        return not agrees(other, ours) and (made or agrees(other, theirs))

    def compare(self, mutant, tokens, text):
        """Compares the results for a text, and counts the outcome."""
        theirs = self.reference(tokens, text)
        ours, section = self.names.split(self.program.answer(text)) if self.program else (theirs, b"")
        name = self.names_of(mutant, tokens, ours, theirs)
        other = self.second.answer(self.rng, tokens, text, (ours, theirs)) if self.second else None
        self.names.compare(text, ours, section, other)
        what = MUTANTS if mutant else MODULES
        if other and name in (RIGHT, REFUSED):
            self.second.note(what, text, other, theirs)
        elif other:
            self.sides[what, name or "not explained", side_of(other, ours, theirs)] += 1
            if self.is_against(other, ours, theirs) and not known.is_taken_by_both(name):
                name = None
        if name is None:
            self.differ.append((mutant, text, ours, theirs, other))
        else:
            self.counts[name] += 1
        if self.given.show and name not in (None, RIGHT, REFUSED):
            print(f"--- {name}", text, *answers(ours, theirs, other), sep="\n")

    def show(self):
        """Prints the counts, and the texts that differ."""
        for mutant, text, *three in self.differ[:SHOWN]:
            print("--- mutant" if mutant else "--- module", text, *answers(*three), sep="\n")
        if self.second:
            self.second.show(self.given.show)
        self.names.show()
        for (what, name, side), count in sorted(self.sides.items()):
            print(f"compare_modules.py: wast, {what} {name}: {count} {side}")
        for name, count in self.asked.items():
            print(f"compare_modules.py: wat2wasm takes {count} texts when they are changed: {name}")
        counts = "".join(f"{n} {what}, " for what, n in self.counts.items())
        print(f"compare_modules.py: {self.given.modules} modules, {self.given.mutants} mutants: {counts}{len(self.differ)} differ")


def answers(ours, theirs, other):
    """Returns a line for each result."""
    every = {"ours:  ": ours, "theirs:": theirs, "wast:  ": other}
    return [f"{who} {answer[0].hex() if answer[0] is not None else ''} {answer[1]}" for who, answer in every.items() if answer]


def compare_texts(given):
    """Compares the results for the texts of a folder. Returns `True` if any two differ, or if no module has the same bytes."""
    counts, differ = collections.Counter({RIGHT: 0, REFUSED: 0}), []
    program, oracle, second, names = Program(given.program), Wat2wasm(), Beside(given.second) if given.second else None, Names(given.names)
    for path in sorted(pathlib.Path(given.texts).rglob("*.wat")):
        text = path.read_text(encoding="utf-8")
        (ours, section), theirs = names.split(program.answer(text)), oracle.answer(text)
        if second:
            other = second.oracle.answer(text)
            second.note("texts", str(path), other, theirs)
            names.compare(str(path), ours, section, other)
        if ours[0] == theirs[0]:
            counts[REFUSED if ours[0] is None else RIGHT] += 1
        else:
            differ.append(f"{path}: {ours[1] or 'other bytes'}")
    for line in differ[:SHOWN]:
        print(line)
    if second:
        second.show(True)
    names.show()
    print(f"compare_modules.py: {given.texts}: " + "".join(f"{n} {what}, " for what, n in counts.items()) + f"{len(differ)} differ")
    return bool(differ or names.differ) or not counts[RIGHT]


def compare_made(given):
    """Compares the results for generated texts. Returns `True` if any two differ."""
    comparison = Comparison(given)
    for made in made_texts(comparison.rng, given.modules, given.mutants):
        comparison.compare(*made)
    comparison.show()
    return bool(comparison.differ or comparison.names.differ)


def forms(words):
    """Parses a comma-separated list of forms. Raises `ArgumentTypeError` if one is unknown."""
    names = set(words.split(","))
    if not names <= FORMS.keys():
        raise argparse.ArgumentTypeError(f"no such form: {', '.join(sorted(names - FORMS.keys()))}; there are {', '.join(FORMS)}")
    return names


def main():
    """Parses the command line and runs the comparison."""
    parser = argparse.ArgumentParser()
    parser.add_argument("--modules", type=int, default=200)
    parser.add_argument("--mutants", type=int, default=400)
    parser.add_argument("--seed", type=int, default=1)
    parser.add_argument("--without", type=forms, default=set(), metavar="FORM,..", help=f"forms that PROGRAM leaves out, of {', '.join(FORMS)}")
    parser.add_argument("--second", metavar="ENCODER", help="a second oracle, which tools/differential/wast_encoder.sh builds")
    parser.add_argument("--names", action="store_true", help="PROGRAM writes a name section, which is compared with that of ENCODER")
    parser.add_argument("--texts", metavar="FOLDER", help="a folder with texts, which are compared in the place of made ones")
    parser.add_argument("--show", action="store_true", help="shows each text that a known departure explains")
    parser.add_argument("--write", type=int, metavar="FUNCTIONS", help="writes a module of so many functions, and compares nothing")
    parser.add_argument("--named", action="store_true", help="each of these has a name")
    parser.add_argument("program", nargs="*")
    given = parser.parse_args()
    if not given.write and not given.program and (given.texts or not given.second):
        parser.error("PROGRAM is not given")
    if given.names and not (given.program and given.second):
        parser.error("--names needs PROGRAM and ENCODER")
    if given.write:
        print(big_module(choices(given.seed, FORMS.keys() - given.without), given.write, given.named))
    elif given.texts:
        sys.exit(compare_texts(given))
    else:
        sys.exit(compare_made(given))


if __name__ == "__main__":
    main()
