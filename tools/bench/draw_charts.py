#!/usr/bin/env python3
"""Draws the charts of README.md and docs/benchmarks.md from the data of docs/speed: SVG files in docs/speed/charts, each in a light and a dark form.

usage: tools/bench/draw_charts.py [--check | --self-test | --png FOLDER]

Drawing needs matplotlib (Debian: python3-matplotlib). The output is deterministic. With `--png` the charts are also written to a folder as PNG files.
`--check` needs no library: each chart names the sha256 of its rows and contains their ratios, and the document includes both forms with an alt text
that is computed from the rows. Prints a line for each fault, and exits with status 1 if there is one.
"""
import dataclasses
import hashlib
import html
import pathlib
import re
import sys

ROOT = pathlib.Path(__file__).resolve().parents[2]
CHARTS = "docs/speed/charts"
FORMS = {
    "light": {"text": "#1f2328", "faint": "#d1d9e0", "first": "#0969da", "second": "#bc4c00", "other": "#7fb0e6"},
    "dark": {"text": "#f0f6fc", "faint": "#3d444d", "first": "#4493f8", "second": "#f0883e", "other": "#2f5f9e"},
}
LARGEST = 60_000

# Kinds of text that are lexed, by their names in rust.tsv.
LEXED = {
    "real": "real text", "generated": "generated text", "hex": "hexadecimal integers", "ids_short": "short identifiers", "keywords": "keywords",
    "integers": "decimal integers", "floats": "floats", "strings_short": "short strings", "blanks_single": "single spaces",
    "block_comments": "block comments", "line_comments": "line comments", "line_long": "comments of 4,000 bytes",
}
# Kinds of modules, by their names in modules.tsv.
MODULES = {
    "libc_flat": "real text, flat", "libc_folded": "real text, folded", "blocks": "blocks", "branches": "branches", "calls": "calls",
    "comments": "comments", "data": "data segments", "elements": "element segments", "exports": "exports", "floats": "floats",
    "folded": "folded instructions", "functions": "functions", "globals": "globals", "imports": "imports", "indirect": "indirect calls",
    "integers": "integers", "loads": "loads", "locals": "locals", "named_locals": "named locals", "types": "types", "vectors": "vectors",
}
WABT, ENCODER = "module, wat2wasm --no-check", "module, wast's encoder"


@dataclasses.dataclass(frozen=True)
class Chart:
    """A chart: its data, the calls that it compares, the document that includes it, and the functions for its alt text and its figure."""
    name: str
    data: str
    suite: str
    texts: dict
    calls: tuple
    document: str
    alt: object
    draw: object

    def path(self, form):
        return f"{CHARTS}/{self.name}-{form}.svg"


def rows_of(chart, read):
    """Returns the rows of a chart's data that it uses, as they are in the file, without their reasons."""
    rows = [line.split("\t")[:6] for line in read(chart.data).split("\n") if line and not line.startswith("#")]
    used = [row for row in rows if row[0] == chart.suite and row[1] in chart.texts and row[2] in chart.calls]
    if len(used) != len(chart.texts) * len(chart.calls):
        raise ValueError(f"{chart.data}: {len(used)} rows for the chart {chart.name}, not {len(chart.texts) * len(chart.calls)}")
    return used


def ratios_of(chart, rows):
    """Returns the ratios, as written in the data: a map from each text to those of the calls."""
    ratios = {text: {} for text in chart.texts}
    for _, text, call, _, _, ratio in rows:
        ratios[text][call] = ratio
    return ratios


def digest_of(chart, rows):
    """Returns the sha256 of the rows and of the labels."""
    return hashlib.sha256(repr((rows, sorted(chart.texts.items()))).encode()).hexdigest()


def alt_of_lexing(ratios):
    sorted_texts = sorted(ratios, key=lambda text: float(ratios[text]["Lexer::parse"]))
    said = [f"{ratios[text]['Lexer::parse']} times on {LEXED[text]}" for text in ("real", "generated", sorted_texts[-1], sorted_texts[0])]
    return f"Bar chart: lexing is faster than wast on each of its {len(ratios)} kinds of text: {', '.join(said[:-1])}, and at worst {said[-1]}."


def alt_of_modules(ratios):
    def worst(call):
        text = min(ratios, key=lambda text: float(ratios[text][call]))
        return f"{ratios[text][call]} times on {MODULES[text]}"

    real = ratios["libc_flat"]
    return (f"Dot chart: wat-modules is faster on each of {len(ratios)} kinds of module: than wat2wasm {real[WABT]} times on real text and at worst "
            f"{worst(WABT)}; than wast's encoder {real[ENCODER]} times, and at worst {worst(ENCODER)}.")


def axes_of(library, size, title, subtitle, colors, head=0.78):
    """Returns a figure and its axes without a frame, under a head of that many inches with a title and a subtitle."""
    figure, axes = library.subplots(figsize=size)
    figure.patch.set_alpha(0)
    axes.patch.set_alpha(0)
    for side in ("top", "right", "bottom", "left"):
        axes.spines[side].set_visible(False)
    axes.tick_params(length=0, colors=colors["text"])
    axes.xaxis.grid(True, color=colors["faint"], linewidth=0.8)
    axes.set_axisbelow(True)
    inch = 1 / size[1]
    figure.text(0.02, 1 - 0.28 * inch, title, color=colors["text"], fontsize=13, fontweight="bold", va="center")
    figure.text(0.02, 1 - 0.54 * inch, subtitle, color=colors["text"], fontsize=10, va="center")
    figure.subplots_adjust(left=0.255, right=0.96, top=1 - head * inch, bottom=0.32 * inch)
    return figure, axes


def draw_lexing(library, ratios, colors):
    """Draws a bar for each kind of text; those of whole texts come first and have a stronger color."""
    wholes = ["real", "generated"]
    kinds = sorted((text for text in ratios if text not in wholes), key=lambda text: -float(ratios[text]["Lexer::parse"]))
    texts = wholes + kinds
    figure, axes = axes_of(library, (8, 4.3), "Lexing, compared with wast", "Throughput relative to wast 263.0.0 (line at 1.0); Lexer::parse, "
                           "one thread", colors)
    for row, text in enumerate(texts):
        ratio = ratios[text]["Lexer::parse"]
        axes.barh(row, float(ratio), height=0.7, color=colors["first" if text in wholes else "other"])
        axes.text(float(ratio) + 0.07, row, ratio, va="center", color=colors["text"], fontsize=10)
    axes.axvline(1, color=colors["second"], linewidth=1.6)
    axes.set_yticks(range(len(texts)), [LEXED[text] for text in texts], fontsize=10)
    axes.set_ylim(len(texts) - 0.4, -0.6)
    axes.set_xlim(0, 8.6)
    axes.set_xticks(range(9), [f"{n}x" for n in range(9)], fontsize=9)
    return figure


def draw_modules(library, ratios, colors):
    """Draws two dots for each kind of module; a ratio beyond the axis becomes an arrow at its end."""
    end = 4.4
    wholes = ["libc_flat", "libc_folded"]
    kinds = sorted((text for text in ratios if text not in wholes), key=lambda text: -min(map(float, ratios[text].values())))
    texts = wholes + kinds
    figure, axes = axes_of(library, (8, 6.9), "Compiling modules, compared with two compilers", "Throughput of wat-modules relative to the other "
                           "(line at 1.0); processor time of one process each", colors, 1.02)
    for row, text in enumerate(texts):
        inside = [min(float(ratio), end) for ratio in ratios[text].values()]
        axes.plot([min(inside), max(inside)], [row, row], color=colors["faint"], linewidth=2.5, zorder=1)
        nearer = min(ratios[text], key=lambda call: float(ratios[text][call]))
        for call, color, sign in ((WABT, "first", "o"), (ENCODER, "second", "D")):
            ratio, is_beyond = ratios[text][call], float(ratios[text][call]) > end
            axes.plot(min(float(ratio), end), row, ">" if is_beyond else sign, color=colors[color], markersize=7 if sign == "o" else 6, zorder=2)
            side = -1 if call == nearer else 1
            axes.text(min(float(ratio), end) + 0.08 * side, row, ratio, ha="left" if side > 0 else "right", va="center", color=colors["text"],
                      fontsize=9)
    axes.axvline(1, color=colors["text"], linewidth=1.2)
    axes.set_yticks(range(len(texts)), [MODULES[text] for text in texts], fontsize=10)
    axes.set_ylim(len(texts) - 0.4, -0.6)
    axes.set_xlim(0.8, end + 0.5)
    axes.set_xticks([1, 2, 3, 4], ["1x", "2x", "3x", "4x"], fontsize=9)
    for column, (color, sign, name) in enumerate((("first", "o", "than wat2wasm 1.0.32"), ("second", "D", "than the encoder of wast 222.0.0"))):
        left, height = 0.035 + 0.25 * column, 1 - 0.82 / 6.9
        figure.text(left + 0.015, height, name, color=colors["text"], fontsize=10, va="center")
        figure.add_artist(library.Line2D([left], [height], marker=sign, color=colors[color], markersize=6, linestyle=""))
    return figure


ALL = (
    Chart("lexing", "docs/speed/rust.tsv", "lexing", LEXED, ("Lexer::parse",), "README.md", alt_of_lexing, draw_lexing),
    Chart("modules", "docs/speed/modules.tsv", "modules", MODULES, (WABT, ENCODER), "docs/benchmarks.md", alt_of_modules, draw_modules),
)


def picture_of(chart, alt):
    """Returns the line by which the document includes a chart."""
    here = chart.document.count("/")
    light, dark = (chart.path(form).split("/", here)[here] for form in ("light", "dark"))
    return (f'<picture><source media="(prefers-color-scheme: dark)" srcset="{dark}">'
            f'<img src="{light}" alt="{html.escape(alt, quote=False)}"></picture>')


def faults_of(chart, read):
    """Yields a message for each difference between a chart, its data and its document."""
    try:
        rows = rows_of(chart, read)
    except ValueError as fault:
        yield str(fault)
        return
    ratios, line = ratios_of(chart, rows), f"<!-- rows: sha256 {digest_of(chart, rows)} -->"
    for form in FORMS:
        svg = read(chart.path(form))
        if line not in svg:
            yield f"{chart.path(form)}: not drawn from the rows of {chart.data}; run tools/bench/draw_charts.py"
        shown = re.findall(r"<text [^>]*>(\d+\.\d+)</text>", svg)
        if sorted(shown) != sorted(ratio for of_text in ratios.values() for ratio in of_text.values()):
            yield f"{chart.path(form)}: its labels are not the ratios of {chart.data}"
        if len(svg.encode()) >= LARGEST:
            yield f"{chart.path(form)}: {len(svg.encode())} bytes"
    if picture_of(chart, chart.alt(ratios)) not in read(chart.document):
        yield f"{chart.document}: lacks the line\n{picture_of(chart, chart.alt(ratios))}"


def read_file(name):
    path = ROOT / name
    return path.read_text(encoding="utf-8") if path.exists() else ""


def draw(folder):
    """Draws all charts, and to a folder also as PNG files if one is given."""
    try:
        import matplotlib
        matplotlib.use("svg")
        from matplotlib import lines, pyplot
    except ImportError:
        raise SystemExit("draw_charts.py: matplotlib is not installed (Debian: python3-matplotlib)") from None
    pyplot.Line2D = lines.Line2D
    matplotlib.rcParams.update({"svg.fonttype": "none", "svg.hashsalt": "wat", "font.family": ["DejaVu Sans"]})
    for chart in ALL:
        rows = rows_of(chart, read_file)
        for form, colors in FORMS.items():
            figure = chart.draw(pyplot, ratios_of(chart, rows), colors)
            path = ROOT / chart.path(form)
            path.parent.mkdir(exist_ok=True)
            figure.savefig(path, format="svg", metadata={"Date": None, "Creator": "tools/bench/draw_charts.py"})
            svg = path.read_text(encoding="utf-8").replace("'DejaVu Sans'", "'DejaVu Sans', Verdana, sans-serif")
            svg = re.sub(r"[ \t]+$", "", svg, flags=re.M).rstrip("\n") + "\n"
            path.write_text(svg.replace("<svg ", f"<!-- rows: sha256 {digest_of(chart, rows)} -->\n<svg ", 1), encoding="utf-8")
            if folder:
                figure.savefig(pathlib.Path(folder) / f"{chart.name}-{form}.png", dpi=100, facecolor="#ffffff" if form == "light" else "#0d1117")
            pyplot.close(figure)


def self_test():
    """Seeds a fault into each input of each chart. Returns `True` if one is missed."""
    seeded, missed = 0, []
    for chart in ALL:
        row = rows_of(chart, read_file)[-1]
        line = "\t".join(row)
        changes = [(chart.data, line, line[:-1] + "%d" % ((int(line[-1]) + 1) % 10)), (chart.data, line, "")]
        changes += [(chart.path(form), f">{row[5]}<", ">0.99<") for form in FORMS]
        changes += [(chart.path(form), "rows: sha256 ", "rows: sha256 0") for form in FORMS]
        changes += [(chart.document, 'alt="', 'alt="Not '), (chart.document, "-dark.svg", "-black.svg")]
        for name, old, new in changes:
            seeded += 1
            if old not in read_file(name) or not list(faults_of(chart, lambda n: read_file(n).replace(old, new) if n == name else read_file(n))):
                missed.append(f"{name}: {old!r} changed to {new!r}")
    print("".join(f"draw_charts.py: missed: {fault}\n" for fault in missed), end="")
    print(f"draw_charts.py: {seeded - len(missed)} of {seeded} seeded faults found")
    return bool(missed)


def main():
    if sys.argv[1:] == ["--self-test"]:
        return self_test()
    if sys.argv[1:] != ["--check"]:
        draw(sys.argv[2] if sys.argv[1:2] == ["--png"] else None)
    found = [fault for chart in ALL for fault in faults_of(chart, read_file)]
    print("".join(f"{fault}\n" for fault in found) + f"draw_charts.py: {len(ALL)} charts in {len(FORMS)} forms, {len(found)} faults")
    return bool(found)


if __name__ == "__main__":
    sys.exit(main())
