#!/usr/bin/env python3
"""Checks docs/speed/calls.txt. It must have a row for each public call of Rattle (tools/lint/public_names.txt, and the libraries' sources), of the
Rust crates and of C, and each row must have a figure from the data of docs/speed, or the reason why there is none. The ratios in the first table
of docs/benchmarks.md must occur in the data, those at worst be the least of kinds.tsv, and the page must have the least by time, and name each kind of
text that is lexed with more instructions than by `wast`. In kinds.tsv and modules.tsv each row with a ratio below the bound of
tools/bench/benchmark_kinds.py and of tools/bench/benchmark_modules.py must have its reason.

usage: tools/lint/check_benchmarks.py [--write | --self-test]

With `--write` the figures are updated. Prints a line for each fault, and exits with status 1 if there is one. A row is

    LANGUAGE CALL | FILE: SUITE; TEXT; CALL | FIGURE            the milliseconds of ours and, if the crate has the call, the ratio
    LANGUAGE CALL | not measured: WHY
"""
import pathlib
import re
import sys

sys.dont_write_bytecode = True
sys.path += [str(pathlib.Path(__file__).resolve().parents[1] / folder) for folder in ("lib", "bench")]

import benchmark_kinds
import benchmark_modules
import check_public_names
from rattle_source import ROOT, items_of, tokens_of, written

DATA = ROOT / "docs/speed"
CALLS = DATA / "calls.txt"
SPEED = ROOT / "docs/benchmarks.md"
LIBRARIES = ("wat_lex", "wat_words", "wat_lexer_parser")
CRATES = ("wat-lex", "wat-parser")
TRAITS = {"Parse", "Peek", "Encode"}
# Rows of the first table of docs/benchmarks.md, with the call of kinds.tsv whose least ratio they have.
WORST = {"| Rust: tokens": "Lexer::parse", "| Rust: values": "Token::string and so on", "| Rust: 240 kB": "parser::parse, rejected",
         "| Rust: typed lists": "Parser::peek, peek2, peek3"}


def bare(path):
    """Returns a path up to its parameters, without its generics."""
    depth, kept = 0, ""
    for sign in path.replace("->", ""):
        depth += (sign == "<") - (sign == ">")
        if sign == "(" and depth == 0:
            break
        kept += sign if depth == 0 and sign != ">" else ""
    return kept.strip()


def calls_of_asked():
    """Yields the calls and trait implementations that tools/lint/public_names.txt lists."""
    names = (ROOT / "tools/lint/public_names.txt").read_text(encoding="utf-8").split("\ndepartures\n")[0]
    crate = ""
    for line in names.split("\n"):
        crate = line[2:].split(":")[0] if line.startswith("# wat_") else crate
        if line.startswith("fn "):
            path = bare(line[3:]).split("::")
            yield f"Rattle {path[0]} {'::'.join(path[-2:])}"
        for trait, of in re.findall(r"^impl(?:<.*?>)? (Parse|Peek|Encode)(?:<.*?>)? for (.*)$", line):
            yield f"Rattle {crate} {trait} for {of}"


def calls_of_libraries():
    """Yields the public functions of the libraries, except lemmas and those of `laws`, which only state theorems and are never called."""
    crates = check_public_names.Crates(check_public_names.text_of)
    for name in LIBRARIES:
        root = crates.crate(name)
        modules = root.all_modules()
        seen = {item.name for module in modules for item in module.items.values() if item.public} | {use[0] for module in modules for use in module.uses}
        functions = [(module.path.split("::")[-1], item) for module in modules for item in module.items.values()]
        owners = [(bare(written(item.head)), item) for item in root.all_impls() if not item.trait]
        functions += [(owner, item) for owner, of in owners if owner in seen for item in items_of(of.body)]
        for owner, item in functions:
            if item.kind == "fn" and item.public and owner != "laws" and not item.name.startswith("lemma_"):
                yield f"Rattle {name} {owner}::{item.name}"


def calls_of_c():
    header = (ROOT / "include/wat.h").read_text(encoding="utf-8")
    for name in re.findall(r"^(?:static inline )?[a-z].*?\b(wat_\w+)\(", header, re.M):
        yield f"C {name}"


def calls_of_items(items, owner, in_trait=False):
    """Yields the public calls among the items, prefixed by their owner's name, including those of traits and `impl` blocks."""
    for item in items:
        if item.is_test:
            continue
        name = written(item.head) if item.kind == "impl" else item.name
        if item.kind == "fn" and (item.public or in_trait):
            yield owner + item.name
        elif item.kind == "trait" and item.public:
            yield from calls_of_items(items_of(item.body), f"{owner}{name}::", True)
        elif item.kind == "impl" and not item.trait:
            yield from calls_of_items(items_of(item.body), f"{owner}{bare(name)}::")
        elif item.kind == "impl" and item.trait[0].text in TRAITS:
            yield f"{owner}{item.trait[0].text} for {name}"


def calls_of_rust():
    for crate in CRATES:
        folder = ROOT / "rust" / crate / "src"
        for source in sorted(folder.rglob("*.rs")):
            if not {"generated", "shim", "shim.rs", "tests.rs", "strings.rs"} & set(source.relative_to(folder).parts):
                text = source.read_text(encoding="utf-8")
                module = source.relative_to(folder).parts[0].removesuffix(".rs")
                yield from calls_of_items(items_of(tokens_of(text)), f"{crate} " + ("" if module == "lib" else f"{module}::"))


def figures(folder):
    """Returns the figures of all data, keyed by file, suite, text and call."""
    found = {}
    for file in sorted(folder.glob("*.tsv")):
        for line in file.read_text(encoding="utf-8").split("\n"):
            if line and not line.startswith("#"):
                suite, text, call, ours, _, ratio, *_ = line.split("\t")
                found[f"{file.name}: {suite}; {text}; {call}"] = f"{ours} ms" + ("" if ratio == "-" else f", {ratio}")
    return found


def checked(table, wanted, found):
    """Returns the table with its figures updated, and its faults."""
    lines, faults, seen = [], [], []
    for line in table.split("\n"):
        if not line or line.startswith("#"):
            lines.append(line)
            continue
        call, where, *_ = line.split(" | ")
        seen.append(call)
        is_reason = where.startswith("not measured: ") and where != "not measured: "
        lines.append(f"{call} | {where} | {found[where]}" if where in found else line)
        if where not in found and not is_reason:
            faults.append(f"{call}: {where} is no figure and no reason")
        elif lines[-1] != line:
            faults.append(f"{call}: the figure is {found[where]}")
    faults += [f"{call}: no row" for call in wanted if call not in seen]
    faults += [f"{call}: no public call" for call in seen if call not in wanted]
    faults += [f"{call}: {seen.count(call)} rows" for call in sorted(set(seen)) if seen.count(call) > 1]
    return "\n".join(lines), faults


def unknown_ratios(page, found):
    """Returns a fault for each ratio in the first table of docs/benchmarks.md that does not occur in the data."""
    table = page.split("\n|---", 1)[1].split("\n\n")[0]
    known = {ratio for figure in found.values() for ratio in re.findall(r"\d+\.\d\d$", figure)}
    return [f"docs/benchmarks.md: {ratio} is in no data" for ratio in re.findall(r"\b\d+\.\d\d\b", table) if ratio not in known]


def missing_kinds(page, found):
    """Returns a fault for each kind whose ratio of `Lexer::parse` by instructions is below 1, unless docs/benchmarks.md has both."""
    lexed = [(where.split("; ")[1], figure.split(", ")[-1]) for where, figure in found.items() if re.match("kinds.tsv: .*; Lexer::parse$", where)]
    return [f"docs/benchmarks.md: lacks `{kind}` {ratio}" for kind, ratio in lexed if float(ratio) < 1 and f"`{kind}` {ratio}" not in page]


def wrong_worsts(page, found):
    """Returns a fault for each row of WORST in docs/benchmarks.md that lacks the least ratio of its call in kinds.tsv."""
    rows = {line.split(" | ")[0]: line.split(" | ")[-1] for line in page.split("\n") if line.startswith("| ")}
    faults = []
    for row, call in WORST.items():
        ratios = [figure.split(", ")[-1] for where, figure in found.items() if where.startswith("kinds.tsv: ") and where.endswith(f"; {call}")]
        least = min(ratios, key=float)
        faults += [] if least in next((text for head, text in rows.items() if head.startswith(row)), "") else [f"docs/benchmarks.md: {row}: at worst {least}"]
    return faults


def wrong_times(page, table):
    """Returns a fault if docs/benchmarks.md lacks the least ratios by time, in the table of kinds.tsv, of the calls of WORST, in the order of its rows."""
    cells = [line.split("\t") for line in table.strip().split("\n") if not line.startswith("#")]
    calls = [WORST[row] for row in sorted(WORST, key=page.find)]
    *others, last = [min((cell[6] for cell in cells if cell[2] == call), key=float) for call in calls]
    wanted = f"by time {', '.join(others)} and {last};"
    return [] if wanted in page else [f"docs/benchmarks.md: at worst {wanted}"]


def unexplained(table, tool=benchmark_kinds):
    """Returns a fault for each row of a table whose reason is not that of its tool, and for each reason without a row."""
    lines = table.strip().split("\n")
    wanted, faults = tool.with_reasons(lines)
    differ = [" ".join(line.split("\t")[1:3]) for line, new in zip(lines, wanted) if line != new]
    return [f"docs/speed/{tool.DATA.name}: {fault}" for fault in [*faults, *(f"{row}: the reason differs" for row in differ)]]


def wanted_calls():
    return list(dict.fromkeys([*calls_of_asked(), *calls_of_libraries(), *calls_of_rust(), *calls_of_c()]))


def self_test():
    """Checks that seeded faults are found. Returns the names of those that are not."""
    found = {"a.tsv: s; t; c": "1.000 ms, 2.00"}
    table = "C f | a.tsv: s; t; c | 1.000 ms, 2.00\nC g | not measured: why"
    planted = {"none": table, "a figure": table.replace("2.00", "3.00"), "no row": table.split("\n")[0], "no reason": table[:-3],
               "no data": table.replace("t; c", "t; d"), "no call": table + "\nC h | not measured: why", "twice": table + "\nC g | not measured: why"}
    missed = [name for name, text in planted.items() if bool(checked(text, ["C f", "C g"], found)[1]) != (name != "none")]
    page = "\n|---|\n| a | 2.00, 4 kB |\n\n| b | 9.00 |"
    missed += [ratio for ratio in ("2.00", "3.00") if bool(unknown_ratios(page.replace("2.00", ratio), found)) != (ratio == "3.00")]
    kinds = {"kinds.tsv: kinds; a; Lexer::parse": "3 ms, 0.90", "kinds.tsv: kinds; b; Lexer::parse": "3 ms, 1.00"}
    missed += [text for text in ("`a` 0.90", "`a` 0.80", "`b` 0.90") if bool(missing_kinds(text, kinds)) != (text != "`a` 0.90")]
    all_calls = {f"kinds.tsv: kinds; a; {call}": "3 ms, 0.90" for call in WORST.values()}
    pages = ["".join(f"{row} | 1 | {least}: a |\n" for row in WORST) for least in ("0.90", "0.80")]
    missed += [page for page in pages if len(wrong_worsts(page, all_calls)) != ("0.80" in page) * len(WORST)]
    table = "".join(f"kinds\ta\t{call}\t3\t4\t0.90\t{time}\n" for call in WORST.values() for time in ("1.20", "0.70"))
    missed += [time for time in ("0.70", "1.20") if bool(wrong_times(f"by time {time}, {time}, {time} and {time};", table)) != (time == "1.20")]
    row = "kinds\ta\tLexer::parse\t3\t4\t1.40\t1.60"
    rows = {row: True, f"{row}\twhy": True, row.replace("1.40", "1.50"): False, row.replace("1.40", "1.50").replace("1.60", "1.40"): True}
    missed += [text for text, is_fault in rows.items() if any("a, Lexer::parse: no" in fault for fault in unexplained(text)) != is_fault]
    missed += [text for text in (row, f"{row}\twhy") if ("a Lexer::parse: the reason differs" in str(unexplained(text))) != text.endswith("why")]
    row = "modules\ta\tmodule, b\t3\t4\t1.40"
    rows = {row: True, f"{row}\twhy": True, row.replace("1.40", "1.50"): False, f"memory, {row}": False, f"instructions, {row}": True}
    missed += [text for text, is_fault in rows.items() if any("a, module, b: no" in fault for fault in unexplained(text, benchmark_modules)) != is_fault]
    print("".join(f"not as wanted: {name}\n" for name in missed) + f"check_benchmarks.py --self-test: {len(planted) + 20} tables, {len(missed)} not as wanted")
    return missed


def main():
    if sys.argv[1:] == ["--self-test"]:
        sys.exit(bool(self_test()))
    wanted = wanted_calls()
    table, faults = checked(CALLS.read_text(encoding="utf-8"), wanted, figures(DATA))
    if sys.argv[1:] == ["--write"]:
        CALLS.write_text(table, encoding="utf-8")
        faults = checked(table, wanted, figures(DATA))[1]
    page = SPEED.read_text(encoding="utf-8")
    faults += unknown_ratios(page, figures(DATA)) + missing_kinds(page, figures(DATA))
    faults += wrong_worsts(page, figures(DATA)) + wrong_times(page, benchmark_kinds.DATA.read_text(encoding="utf-8"))
    for tool in (benchmark_kinds, benchmark_modules):
        faults += unexplained(tool.DATA.read_text(encoding="utf-8"), tool)
    measured = sum(" | not measured" not in line and " | " in line for line in table.split("\n"))
    print("".join(f"{fault}\n" for fault in faults) + f"check_benchmarks.py: {len(wanted)} calls, {measured} with a figure, {len(faults)} faults")
    sys.exit(bool(faults))


if __name__ == "__main__":
    main()
