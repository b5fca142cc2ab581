#!/usr/bin/env bash
# Benchmarks the calls of the Rattle crates and of the static C library against the crate wast 263.0.0, in one program (tools/bench/benchmark) over
# the loops of tools/bench/benchmark/rattle and library.c: interleaved passes, in processor time of a thread pinned to one processor; first passes of
# processes; instructions, counted by callgrind; memory. Writes rows to WORK/rattle.tsv, for docs/speed, and each contender's quartiles to
# WORK/times.tsv. Texts that exist in WORK are not generated again.
#
# usage: [NAME=VALUE ..] tools/bench/benchmark.sh WORK
#
#   WAST=FOLDER      the crate wast 263.0.0, if its registry is not available. Only a version with `Cursor::oracle_any`, which consumes any token, is
#                    benchmarked by steps
#   ARCHIVES=FOLDER  the folder of libwat_measure.a, libwat_c.a and liblibc_c.a; otherwise `rt lib` proves and builds the first two
#   REAL=FILE        the real text; otherwise tools/bench/real_text.sh generates it, if the machine has the tools and libraries it needs
#   PASSES=15 KINDS=5 FIRSTS=11  the number of passes, of passes over texts of one token kind, and of processes for each first pass
#   CPU=N            the processor; default: the last one
#   PARTS='lexing readers parsing faults'  the parts to benchmark
set -eu -o pipefail
mkdir -p "${1:?usage: [NAME=VALUE ..] tools/bench/benchmark.sh WORK}"
work=$(cd "$1" && pwd)
[ -z "${WAST:-}" ] || WAST=$(cd "$WAST" && pwd)
[ -z "${ARCHIVES:-}" ] || ARCHIVES=$(cd "$ARCHIVES" && pwd)
[ -z "${REAL:-}" ] || REAL=$(realpath "$REAL")
cd "$(dirname "$0")/../.."
passes=${PASSES:-15}
kinds=${KINDS:-5}
firsts=${FIRSTS:-11}
cpu=${CPU:-$(($(nproc --all) - 1))}
texts=$work/texts
program=$work/target/release/benchmark
# The program in which the crate's `parse` has only one caller.
program_one=$work/target/release/one

# shellcheck source=tools/bench/benchmark/rows.sh
. tools/bench/benchmark/rows.sh

# build_loops: proves and builds the loops, in a copy of the repository in which they are a crate, so that CI does not prove them
build_loops() {
    local file
    rm -rf "$copy"
    mkdir -p "$copy"
    cp -r crates crates.txt HANDLES "$copy/"
    echo 'wat_measure staticlib: wat_lexer_parser wat_lex wat_words' >> "$copy/crates.txt"
    while read -r file; do
        install -D -m 644 "tools/bench/benchmark/rattle/$file" "$copy/crates/wat_measure/${file%.in}"
    done < <(cd tools/bench/benchmark/rattle && find . -name '*.in')
    (cd "$copy/crates/wat_measure" && rt lib)
}

# Builds the archives.
copy=$work/copy
if [ -z "${ARCHIVES:-}" ]; then
    ARCHIVES=$work/archives
    mkdir -p "$ARCHIVES"
    tools/release/build_c_library.sh >&2
    build_loops >&2
    cp "$copy/crates/wat_measure/out/libwat_measure.a" crates/wat_c/out/{libwat_c,liblibc_c}.a "$ARCHIVES/"
fi
export ARCHIVES

# Builds the program.
rm -rf "$work/benchmark" "$work/benchmark_rust"
cp -r tools/bench/benchmark tools/bench/benchmark_rust "$work/"
features=()
if [ -n "${WAST:-}" ]; then
    sed -i "s|^wast = .*|wast = { path = \"$WAST\", default-features = false }|" "$work/benchmark/Cargo.toml"
    features=(--offline)
    if grep -q 'fn oracle_any' "$WAST/src/parser.rs"; then
        features+=(--features any)
    else
        say 'the steps of the crate are left out, as it has no Cursor::oracle_any'
    fi
fi
export INCLUDE=$PWD/include
(cd "$work/benchmark" && CARGO_TARGET_DIR=$work/target cargo build --release --quiet "${features[@]}")

# Generates the texts.
if [ ! -d "$texts" ]; then
    rm -rf "$texts.new"
    mkdir "$texts.new"
    tools/lib/generate_text.py 10 > "$texts.new/generated.wat"
    tools/lib/generate_kinds.py "$texts.new/kinds"
    tools/bench/benchmark/texts.py "$texts.new" "$texts.new/generated.wat"
    tools/bench/benchmark/forms.py "$texts.new/forms"
    mv "$texts.new" "$texts"
fi
if [ -n "${REAL:-}" ]; then
    cp "$REAL" "$texts/real.wat"
elif [ ! -e "$texts/real.wat" ]; then
    if [ -d /usr/lib/wasm32-wasi ] && has wasm2wat && has ar; then
        tools/bench/real_text.sh /usr/lib/wasm32-wasi "$texts/real.wat" >&2
    else
        say 'the real text is left out, as wasm2wat, ar or /usr/lib/wasm32-wasi is not here'
    fi
fi

# Cuts each text to its first megabyte and its first 4 MB, at the end of a line: glibc reuses the pages of a table of at most two million tokens.
mkdir -p "$texts/fronts"
for name in real generated annotated dense u32_decimal u32_hexadecimal u32_mixed groups; do
    for size in 1 4; do
        [ ! -e "$texts/$name.wat" ] || head -c "${size}000000" "$texts/$name.wat" | sed '$d' > "$texts/fronts/$name, $size MB.wat"
    done
done

# those NAME..: prints the paths of the texts with these names that exist
those() {
    local name
    for name; do
        [ ! -e "$texts/$name.wat" ] || echo "$texts/$name.wat"
    done
}

# over_all SUITE: prints the rows of a suite on all texts
over_all() {
    times "$1" "$passes" "${all[@]}"
    times "$1" "$kinds" "$texts"/kinds/*.wat "${forms[@]}"
}

# sized SUITE NAME: prints the rows of a suite on a text and on its fronts, those of first passes, and those of instructions
sized() {
    each "$1" "$texts/$2.wat" "$texts/fronts/$2, "{1,4}" MB.wat"
    first "$1" "$texts/$2.wat"
    counts "$1" "$texts/$2.wat"
}

lexing() {
    local some=("${all[@]}" "$texts"/kinds/{keywords,integers,parens,marks,blanks_single,line_long}.wat)
    over_all lexing
    counts lexing "${some[@]}"
    first lexing "${all[@]}"
    program=$program_one over_all 'lexing, one caller'
    program=$program_one counts 'lexing, one caller' "${some[@]}"
    over_all library
    counts library "${some[@]}"
    program=$program_one over_all 'library, one caller'
    program=$program_one counts 'library, one caller' "${some[@]}"
    times rows "$passes" "${all[@]}" "${forms[@]}"
}

readers() {
    local values=("$texts"/kinds/{strings,ids,integers,floats}_*.wat "$texts"/kinds/{hex,integers,floats,keywords,marks}.wat)
    values+=("$texts"/forms/{data,asserts,mangled,quoted,binary}.wat "$texts/real.wat")
    local comments=("$texts"/kinds/{line,block}_comments.wat "$texts"/kinds/{line,block}_long.wat "$texts"/forms/{comments,unicode}.wat)
    times readers "$kinds" "${values[@]}" "$texts/forms/data_one.wat"
    times comments "$kinds" "${comments[@]}"
    counts readers "${values[@]}"
    counts comments "${comments[@]}"
}

parsing() {
    local name
    for name in real generated annotated dense; do
        [ ! -e "$texts/$name.wat" ] || sized parser "$name"
    done
    each kinds "$texts"/{real,generated}.wat "$texts/forms/files"
    for name in u32_decimal u32_hexadecimal u32_mixed; do
        sized numbers "$name"
    done
    sized groups groups
    each parser "${forms[@]}" "$texts/forms/files"
    first parser "${forms[@]}"
    each refused "$texts"/forms/{refused,fault}_*.wat
    memory parser "${all[@]}"
}

# faults: benchmarks line and column of an offset, and printed errors
faults() {
    times places "$passes" "${all[@]}"
    times errors "$passes" "$texts"/line_*.wat
    counts places "$texts/generated.wat"
    counts errors "$texts"/line_*.wat
}

measure() {
    local part
    describe "$passes passes in turn, of texts of one kind $kinds, of first passes $firsts processes; medians"
    mapfile -t all < <(those real generated annotated dense)
    mapfile -t forms < <(those forms/{flat,crlf,minified,folded,mangled,quoted,data,data_one,asserts,binary,comments,unicode})
    for part in ${PARTS:-lexing readers parsing faults}; do
        "$part"
    done
}

: > "$work/times.tsv"
measure | tee "$work/rattle.tsv"
