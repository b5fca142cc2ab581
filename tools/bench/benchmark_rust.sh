#!/usr/bin/env bash
# Benchmarks the Rust crates and the C library built with cargo against the crate wast 263.0.0, in one program that cargo builds with its defaults
# (tools/bench/benchmark_rust); the suite `lexing` runs again with `-C target-cpu=native`. Prints interleaved passes, in processor time of a thread
# pinned to one processor; first passes of processes; instructions, counted by callgrind; memory. Writes rows to WORK/rust.tsv, for docs/speed.
#
# usage: WAST=FOLDER TEXTS=FOLDER [NAME=VALUE ..] tools/bench/benchmark_rust.sh WORK
#
#   WAST=FOLDER   the crate wast 263.0.0
#   TEXTS=FOLDER  the texts that tools/bench/benchmark.sh left in its WORK/texts
#   CARGO=cargo   cargo with its options, if no registry is available
#   PASSES=9 FIRSTS=11  the number of passes, and of processes for each first pass
#   CPU=N         the processor; default: the last one
#   PARTS='lexing readers parsing faults'  the parts to benchmark
set -eu -o pipefail
mkdir -p "${1:?usage: WAST=FOLDER TEXTS=FOLDER tools/bench/benchmark_rust.sh WORK}"
work=$(cd "$1" && pwd)
crate=$(cd "${WAST:?the crate wast}" && pwd)
texts=$(cd "${TEXTS:?a folder of texts}" && pwd)
cd "$(dirname "$0")/../.."
cpu=${CPU:-$(($(nproc --all) - 1))}
passes=${PASSES:-9}
firsts=${FIRSTS:-11}
program=$work/target/release/benchmark_rust

# shellcheck source=tools/bench/benchmark/rows.sh
. tools/bench/benchmark/rows.sh

# build FLAGS TARGET: builds the program with flags of rustc
build() {
    (cd "$work/benchmark_rust" && RUSTFLAGS=$1 CARGO_TARGET_DIR=$2 ${CARGO:-cargo} build --release --quiet)
}

# Builds the program, and the shared library for C.
rm -rf "$work/benchmark" "$work/benchmark_rust"
cp -r tools/bench/benchmark tools/bench/benchmark_rust "$work/"
sed -i "s|^wast = .*|wast = { path = \"$crate\", default-features = false }|; s|\"\.\./\.\./\.\./rust|\"$PWD/rust|" "$work/benchmark_rust/Cargo.toml"
(cd rust && CARGO_TARGET_DIR=$work/library ${CARGO:-cargo} build --locked --release --quiet --package wat-c)
export INCLUDE=$PWD/include SHARED=$work/library/release
build '' "$work/target"
build '-C target-cpu=native' "$work/native"

# kinds NAME..: prints the paths of texts of one token kind
kinds() {
    printf "$texts/kinds/%s.wat\n" "$@"
}

# forms NAME..: prints the paths of texts of a form
forms() {
    printf "$texts/forms/%s.wat\n" "$@"
}

lexing() {
    times lexing "$passes" "${all[@]}" "${kinds[@]}" "${forms[@]}"
    times library "$passes" "${all[@]}" "${kinds[@]}"
    times rows "$passes" "${all[@]}"
    counts lexing "${some[@]}"
    counts library "${some[@]}"
    first lexing "${all[@]}"
    program=$work/native/release/benchmark_rust times lexing "$passes" "${all[@]}" "${kinds[@]}" | sed 's/\t/, native\t/'
}

readers() {
    times readers "$passes" "${values[@]}" "$texts/forms/data_one.wat"
    times comments "$passes" "${comments[@]}"
    counts readers "${values[@]}"
}

parsing() {
    each parser "$texts"/{real,generated}.wat "${forms[@]}" "$texts/forms/files"
    each annotations "$texts/annotated.wat"
    each cursors "$texts"/{real,generated,forms/comments}.wat
    each peeks "$texts"/{real,generated,groups}.wat
    each numbers "$texts"/u32_*.wat "$texts"/fronts/u32_*.wat
    each ids "$texts"/kinds/ids_{short,quoted,escaped}.wat
    each strings "$texts"/kinds/strings_{short,mixed,escapes}.wat
    each floats "$texts"/kinds/floats{,_decimal,_hex}.wat
    each groups "$texts/groups.wat" "$texts"/fronts/groups*.wat
    each refused "$texts"/forms/{refused,fault}_*.wat
    first parser "$texts"/{real,generated}.wat "${forms[@]}"
    first numbers "$texts"/u32_*.wat
    counts parser "$texts"/{real,generated}.wat
    counts numbers "$texts"/u32_*.wat
    counts groups "$texts/groups.wat"
    memory parser "$texts"/{real,generated}.wat
}

# faults: benchmarks line and column of an offset, and printed errors
faults() {
    times places "$passes" "${all[@]}"
    times errors "$passes" "$texts"/line_*.wat
}

measure() {
    describe "$passes passes in turn, of first passes $firsts processes; medians"
    local all=("$texts"/{real,generated,annotated,dense}.wat) some kinds forms values comments part
    mapfile -t kinds < <(kinds parens marks keywords ids_short integers hex floats blanks_single line_comments line_long block_comments strings_short)
    mapfile -t forms < <(forms flat crlf minified folded mangled quoted data data_one asserts binary comments unicode)
    mapfile -t some < <(kinds parens marks blanks_single)
    some+=("$texts"/{real,generated}.wat)
    mapfile -t values < <(kinds strings_short strings_prose strings_mixed strings_escapes ids_short ids_quoted ids_escaped integers_decimal integers hex \
        floats_decimal floats_hex floats keywords marks)
    values+=("$texts/real.wat" "$texts"/forms/{data,asserts,binary,mangled,quoted}.wat)
    mapfile -t comments < <(kinds line_comments line_long block_comments)
    comments+=("$texts"/forms/{comments,unicode}.wat)
    for part in ${PARTS:-lexing readers parsing faults}; do
        "$part"
    done
}

: > "$work/times.tsv"
measure | tee "$work/rust.tsv"
