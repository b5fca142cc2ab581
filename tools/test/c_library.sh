#!/usr/bin/env bash
# Tests the C library, by both of its compilers: built with cargo from the Rust that tools/erase generates, static and shared, and built by Rattle's
# own compilers. Each library is tested with every C compiler that is installed: each function against golden results; C programs that list the golden
# texts and their identifiers; all functions on the golden texts and on mutations of them, under the address and undefined-behavior sanitizers and
# under valgrind; allocation-failure injection; the header as C99 and as C++, and the example at its head; the declarations of both. All libraries
# must return the same. Floats, also those read by wat-parser, are compared with `strtof` and `strtod`. A part that can't be run here is skipped and
# reported.
#
#   CRATES_FOLDER=FOLDER  the crates that cargo builds with, one folder each, if no registry is available
#
# usage: [CRATES_FOLDER=FOLDER] tools/test/c_library.sh [MUTANTS]
set -eu -o pipefail
cd "$(dirname "$0")/../.."
mutants=${1:-1000}
room=$(mktemp -d)
trap 'rm -rf "$room"' EXIT
texts=crates/wat_tokens/agreement
cpp=${CXX:-c++}
strict=(-Wall -Wextra -Werror -pedantic -Iinclude)

say() {
    echo "c_library.sh: $*"
}

fail() {
    say "$*"
    exit 1
}

has() {
    command -v "$1" > /dev/null
}

# stored: prints the golden texts whose lists need no arguments
stored() {
    local text
    for text in "$texts"/*; do
        case $text in
            *.stdout | *.args) continue ;;
        esac
        [ -e "$text.args" ] || echo "$text"
    done
}

# identifiers TEXT: prints each identifier of a golden text with its offset, according to its golden list
identifiers() {
    local from to
    sed -n 's/\.\.\(.*\) Id$/ \1/p' "$1.stdout" | while read -r from to; do
        printf '%s ' "$from"
        head -c "$to" "$1" | tail -c $((to - from))
        echo
    done
}

# list TEXT: prints the golden list
list() {
    cat "$1.stdout"
}

# split_modules: writes the texts of tests/modules.txt, and the result that the table has for each, to the files of two folders
split_modules() {
    local text result count=0
    mkdir "$room/texts" "$room/results"
    while IFS= read -r text && IFS= read -r result; do
        text=${text//⏎/$'\n'}
        printf '%s' "${text//␠/ }" > "$room/texts/$count"
        echo "${result#    }" > "$room/results/$count"
        count=$((count + 1))
    done < <(grep -v '^#' tests/modules.txt)
}

# compare NAME PROGRAM WANTED: checks that the program prints for each golden text what the function WANTED prints
compare() {
    local compared=0 text
    for text in $(stored); do
        "$2" < "$text" > "$room/output" 2> "$room/errors" || true
        "$3" "$text" | cmp - "$room/output"
        compared=$((compared + 1))
    done
    say "$1 prints what is wanted of $compared stored texts"
}

# sanitizes COMPILER: succeeds if a program can be built and run under the compiler's sanitizers
sanitizes() {
    printf 'int main(void) { return 0; }\n' > "$room/empty.c"
    "$1" -fsanitize=address,undefined -o "$room/empty" "$room/empty.c" 2> /dev/null && "$room/empty" 2> /dev/null
}

# read_all NAME COMPILER LIBRARY..: runs all functions on golden texts and on mutations of them, under the sanitizers
read_all() {
    local name=$1 compiler=$2 said
    shift 2
    "$compiler" -std=c99 -g -O1 -fsanitize=address,undefined -fno-sanitize-recover=all "${strict[@]}" -o "$room/readers" tools/test/c/readers.c "$@"
    said=$(find "$texts" -type f ! -name '*.stdout' ! -name '*.args' -print0 | sort -z | xargs -0 "$room/readers" "$mutants") || fail "$name: $said"
    say "$name, $compiler with sanitizers: $said"
    said_by "$compiler -std=c99 -g -O1 -fsanitize=address,undefined -fno-sanitize-recover=all" "$name" tokens "$@"
}

# check_modules NAME COMPILER LIBRARY..: compiles, checks and formats golden texts and mutations of them, under the sanitizers
check_modules() {
    local name=$1 compiler=$2 said
    shift 2
    "$compiler" -std=c99 -g -O1 -fsanitize=address,undefined -fno-sanitize-recover=all "${strict[@]}" -o "$room/modules" tools/test/c/modules.c "$@"
    said=$("$room/modules" check $((mutants / 50)) "$room"/texts/*) || fail "$name: $said"
    say "$name, $compiler with sanitizers: $said"
}

# watch NAME LIBRARY..: runs the functions under valgrind: each byte that they read must be initialized and readable
watch() {
    local name=$1 said
    shift
    "$c" -std=c99 -g -O1 "${strict[@]}" -o "$room/readers" tools/test/c/readers.c "$@"
    said=$(stored | xargs valgrind --quiet --error-exitcode=9 "$room/readers" 0 2> "$room/errors") || { cat "$room/errors"; fail "$name, valgrind: $said"; }
    say "$name, valgrind: $said"
    "$c" -std=c99 -g -O1 "${strict[@]}" -o "$room/modules" tools/test/c/modules.c "$@"
    said=$(valgrind --quiet --error-exitcode=9 "$room/modules" check 0 "$room"/texts/*[05] 2> "$room/errors") \
        || { cat "$room/errors"; fail "$name, valgrind: $said"; }
    say "$name, valgrind: $said"
}

# call_refused NAME INDEX: fails each allocation of a call in turn
call_refused() {
    local n asks=0 requests=0 held=0
    LD_PRELOAD="$room/refuse.so" TELL=9 "$room/refusals" "$2" > "$room/answer" 9> "$room/counts"
    # shellcheck disable=SC1091
    . "$room/counts"
    : > "$room/refused"
    for ((n = 1; n <= requests; n++)); do
        LD_PRELOAD="$room/refuse.so" REFUSE_AT=$n "$room/refusals" "$2" >> "$room/refused"
    done
    grep -q '^asks' "$room/answer" && asks=1
    [ "$asks" = "$((requests > 0))" ] || fail "$1: $requests requests: $(cat "$room/answer")"
    [ "$held" = 0 ] || fail "$1: $held bytes are held: $(cat "$room/answer")"
    ! grep -v 'status 2, 0 bytes written$' "$room/refused" || fail "$1: no want of memory where a request is refused"
    sort -u "$room/answer" "$room/refused" >> "$room/answers of $1"
    refused=$((refused + requests))
}

# refuse NAME LIBRARY..: fails each allocation of each call of a library
refuse() {
    local name=$1 number calls refused=0
    shift
    "$c" -std=c99 -O2 "${strict[@]}" -o "$room/refusals" tools/test/c/refusals.c "$@"
    calls=$("$room/refusals")
    : > "$room/answers of $name"
    for ((number = 0; number < calls; number++)); do
        call_refused "$name" "$number"
    done
    say "$name: $calls calls, each of their $refused requests for memory refused, which each answers"
}

# compare_table NAME: compares the results of `modules` for the texts of tests/modules.txt with those of the table
compare_table() {
    local text
    for text in "$room"/texts/*; do
        "$room/modules" binary < "$text" | cmp - "$room/results/${text##*/}" || fail "$1: another result for $(cat "$text")"
    done
    say "$1: the binaries and errors of the $(find "$room/texts" -type f | wc -l) texts of tests/modules.txt"
}

# compare_program NAME TEXT..: compares binaries with a name section, printed errors and formatted texts with those of the program. For an error without
# the source line, only the message is compared.
compare_program() {
    local name=$1 text status wanted
    shift
    for text in "$@"; do
        status=0 wanted=0
        "$wat_tokens" module --no-validate < "$text" > "$room/wanted" 2> "$room/wanted errors" || wanted=$?
        "$room/compile" < "$text" > "$room/output" 2> "$room/errors" || status=$?
        if [ "$status" != "$wanted" ] || ! cmp "$room/wanted" "$room/output"; then
            fail "$name: compile.c: another binary of $text"
        fi
        sed -i 's/ at byte offset .*//; t end; b; :end q' "$room/wanted errors"
        head -c "$(stat -c %s "$room/wanted errors")" "$room/errors" | cmp - "$room/wanted errors" || fail "$name: compile.c: another error of $text"
        "$wat_tokens" fmt < "$text" > "$room/wanted" 2> /dev/null || true
        "$room/modules" format < "$text" > "$room/output" || true
        cmp "$room/wanted" "$room/output" || fail "$name: another formatted text of $text"
    done
    say "$name, as wat_tokens: binaries, errors and formatted texts of $# texts"
}

# hold NAME: compares the memory that many calls hold at a time, and at the end, with that of few calls
hold() {
    local calls most held few=
    for calls in 18 1000000; do
        LD_PRELOAD="$room/refuse.so" TELL=9 "$room/modules" repeat "$calls" 9> "$room/counts" > /dev/null
        # shellcheck disable=SC1091
        . "$room/counts"
        if [ "$held" != 0 ] || [ "$most" != "${few:=$most}" ]; then
            fail "$1: $calls calls hold $held of $most bytes, 18 calls $few"
        fi
    done
    say "$1: $calls calls of the compiler and the formatter hold at most $most bytes at a time, and none at the end"
}

# modules NAME LIBRARY..: compares what a library compiles and formats with golden results and with the program
modules() {
    local name=$1 golden
    shift
    "$c" -std=c99 -O2 "${strict[@]}" -o "$room/modules" tools/test/c/modules.c "$@"
    "$c" -std=c99 -O2 "${strict[@]}" -o "$room/compile" tools/test/c/compile.c "$@"
    compare_table "$name"
    hold "$name"
    if [ -n "$wat_tokens" ]; then
        mapfile -t golden < <(stored)
        compare_program "$name" "$room"/texts/* "${golden[@]}"
    else
        say "$name: the comparison with wat_tokens is left out, as cargo does not build it here"
    fi
}

# said_by COMPILER NAME PROGRAM LIBRARY..: runs a program of tools/test/c over a library, built by a compiler with its options, and prints its output
said_by() {
    local compiler name=$2 program=$3 said
    read -ra compiler <<< "$1"
    shift 3
    "${compiler[@]}" "${strict[@]}" -o "$room/$program" "tools/test/c/$program.c" -x none "$@"
    said=$("$room/$program") || fail "$name, ${compiler[*]}: $said"
    say "$name, ${compiler[*]}: $said"
}

# extract_examples: writes the example programs of the header, and the outputs that the header states, to numbered files
extract_examples() {
    local number
    mkdir "$room/examples"
    awk -v folder="$room/examples" '
        /^ \* Example/ { number++; kind = "c"; next }
        /^ \* Output/ { kind = "wanted"; next }
        /^ \* [^ ]/ { if (kind == "wanted") kind = ""; next }
        kind == "wanted" && NF == 1 { next }
        kind { sub(/^ \*(     )?/, ""); print > (folder "/" number "." kind) }
        END { print number > (folder "/count") }' include/wat.h
    examples=$(cat "$room/examples/count")
    for ((number = 1; number <= examples; number++)); do
        if [ ! -s "$room/examples/$number.c" ] || [ ! -s "$room/examples/$number.wanted" ]; then
            fail "example $number of the header has no program or no output"
        fi
        cp "$room/examples/$number.c" "$room/examples/$number.cc"
    done
    [ "$examples" = 2 ] || fail "the header has $examples examples"
}

# run_example NAME NUMBER LIBRARY..: compiles an example of the header as C11 and as C++17, and compares what it prints with what the header states
run_example() {
    local name=$1 example=$room/examples/$2 compiler
    shift 2
    for compiler in "${compilers[@]}"; do
        "$compiler" -std=c11 "${strict[@]}" -o "$room/example" "$example.c" "$@"
        "$room/example" | diff "$example.wanted" - || fail "$name, $compiler: an example of the header prints something else"
    done
    if has "$cpp"; then
        "$cpp" -std=c++17 "${strict[@]}" -o "$room/example" "$example.cc" "$@"
        "$room/example" | diff "$example.wanted" - || fail "$name, $cpp: an example of the header prints something else"
    fi
    say "$name: an example of the header prints the $(wc -l < "$example.wanted") lines that the header states"
}

# compare_bits NAME LIBRARY..: compares the bits of floats with those of `strtof` and `strtod`
compare_bits() {
    local name=$1 said
    shift
    "$c" -std=c99 -O2 "${strict[@]}" -o "$room/floats" tools/test/c/floats.c
    "$c" -std=c99 -O2 "${strict[@]}" -o "$room/bits" tools/test/c/bits.c "$@"
    said=$("$room/floats" 200000 | "$room/bits") || fail "$name: $said"
    say "$name, as strtof and strtod: $said"
}

# suite NAME LIBRARY..: runs all tests of tools/test/c over a library
suite() {
    local name=$1 compiler level number
    shift
    libraries+=("$name")
    for ((number = 1; number <= examples; number++)); do
        run_example "$name" "$number" "$@"
    done
    for compiler in "${compilers[@]}"; do
        for level in -O0 -O2; do
            said_by "$compiler -std=c99 $level" "$name" answers "$@"
            said_by "$compiler -std=c99 $level" "$name" tokens "$@"
        done
        said_by "$compiler -std=c99 -O2" "$name" recovery "$@"
        if sanitizes "$compiler"; then
            read_all "$name" "$compiler" "$@"
            check_modules "$name" "$compiler" "$@"
        else
            say "$name: the functions on mutants are left out, as $compiler has no sanitizers here"
        fi
    done
    "$c" -std=c99 -O2 "${strict[@]}" -o "$room/list" tools/test/c/list.c "$@"
    compare "$name: list.c" "$room/list" list
    "$c" -std=c99 -O2 "${strict[@]}" -o "$room/identifiers" tools/test/c/identifiers.c "$@"
    compare "$name: identifiers.c" "$room/identifiers" identifiers
    compare_bits "$name" "$@"
    modules "$name" "$@"
    refuse "$name" "$@"
    if has valgrind; then
        watch "$name" "$@"
    else
        say "$name: valgrind is left out, as it is not here"
    fi
    if has "$cpp"; then
        "$cpp" -std=c++11 "${strict[@]}" -Wshadow -o "$room/names" -x c++ tools/test/c/names.cc -x none "$@"
        "$room/names" || fail "$name, $cpp: names.cc: status $?"
        say "$name: a program in C++11"
        said_by "$cpp -x c++ -std=c++11 -O2" "$name" tokens "$@"
    fi
}

# with_crates: prints the options with which cargo finds the crates, one a line; fails if the crates are not available
with_crates() {
    if [ -n "${CRATES_FOLDER:-}" ]; then
        printf '%s\n' --offline --config 'source.crates-io.replace-with="folder"' --config "source.folder.directory=\"$(realpath "$CRATES_FOLDER")\""
    else
        (cd rust && CARGO_NET_RETRY=0 timeout 60 cargo fetch --locked --quiet 2> /dev/null)
    fi
}

# by_cargo: tests the library that cargo builds and `make` installs
by_cargo() {
    local options installed=$room/installed words
    mapfile -t options < "$room/options"
    words=$(printf "'%s' " "${options[@]}")
    make -s install PREFIX="$installed" CARGO="cargo --quiet $words" CARGO_TARGET_DIR="$room/target" 2> "$room/errors" || fail "$(cat "$room/errors")"
    read -ra private <<< "$(cat "$room/target/release/libwat_c.libs")"
    suite 'cargo, static' "$installed/lib/libwat.a" "${private[@]}"
    suite 'cargo, shared' -L"$installed/lib" -lwat -Wl,-rpath,"$installed/lib"
    nm -D --defined-only "$installed/lib/libwat.so" | sed 's/.* //' | sort > "$room/exported"
    sed -n '/static/d; s/^[a-z].*\(wat_[a-z0-9_]*\)(.*/\1/p' include/wat.h | sort | cmp - "$room/exported"
    say "the shared library has the $(wc -l < "$room/exported") functions of the header, and no other name"
    if has pkg-config; then
        read -ra options < <(PKG_CONFIG_PATH="$installed/lib/pkgconfig" pkg-config --cflags --libs wat)
        "$c" -std=c99 -o "$room/list" tools/test/c/list.c "${options[@]}"
        LD_LIBRARY_PATH=$installed/lib compare 'cargo, by pkg-config: list.c' "$room/list" list
    fi
}

# by_cargo_with_sanitizer: tests all functions of an archive whose own code is built with the address sanitizer
by_cargo_with_sanitizer() {
    local options target
    mapfile -t options < "$room/options"
    target=$(rustc -vV | sed -n 's/^host: //p')
    if ! (cd rust && RUSTC_BOOTSTRAP=1 RUSTFLAGS=-Zsanitizer=address CARGO_TARGET_DIR=$room/checked cargo --quiet "${options[@]}" \
        rustc --locked --release --package wat-c --target "$target" --crate-type staticlib 2> "$room/errors"); then
        say 'an archive with the address sanitizer is left out, as this rustc does not build it'
        return
    fi
    for compiler in "${compilers[@]}"; do
        if sanitizes "$compiler"; then
            read_all 'cargo, with the address sanitizer' "$compiler" "$room/checked/$target/release/libwat_c.a" "${private[@]}"
            check_modules 'cargo, with the address sanitizer' "$compiler" "$room/checked/$target/release/libwat_c.a" "${private[@]}"
        fi
    done
}

# program: builds the program with cargo, which compiles and formats texts too
program() {
    local options
    mapfile -t options < "$room/options"
    (cd rust && CARGO_TARGET_DIR=$room/target cargo --quiet "${options[@]}" build --locked --release --package wat-tokens)
    wat_tokens=$room/target/release/wat_tokens
}

# floats: compares floats as wat-parser and as C read them
floats() {
    local options said
    mapfile -t options < "$room/options"
    (cd rust && CARGO_TARGET_DIR=$room/target cargo --quiet "${options[@]}" build --locked --release --package wat-parser --example floats)
    "$c" -std=c99 -O2 "${strict[@]}" -o "$room/floats" tools/test/c/floats.c
    said=$("$room/floats" 200000 | "$room/target/release/examples/floats") || fail "floats: $said"
    say "as strtof and strtod: $said"
}

tools/lint/compare_declarations.py
compilers=() libraries=() wat_tokens=
for compiler in "${CC:-cc}" gcc clang; do
    # Keeps each compiler once, even if it has several names.
    found=$(realpath "$(command -v "$compiler")" 2> /dev/null) || continue
    [[ " ${compilers[*]} " == *" $found "* ]] || compilers+=("$found")
done
if [ "${#compilers[@]}" = 0 ]; then
    say 'all else is left out, as no C compiler is here'
    exit 0
fi
c=${compilers[0]}
printf '#include "wat.h"\n' > "$room/alone.c"
"$c" -std=c99 "${strict[@]}" -c -o "$room/alone.o" "$room/alone.c"
extract_examples
split_modules
has "$cpp" || say "the header as C++ is left out, as no C++ compiler $cpp is here"
"$c" -O1 -fPIC -shared -nostdlib -o "$room/refuse.so" tools/lib/fail_allocations.c

if ! has cargo || ! has make; then
    say 'the library by cargo is left out, as no cargo or no make is here'
elif ! with_crates > "$room/options"; then
    say 'the library by cargo is left out, as CRATES_FOLDER names no folder and no registry is at hand'
else
    program
    by_cargo
    by_cargo_with_sanitizer
    floats
fi
if has rt; then
    folder=$(tools/release/build_c_library.sh)
    suite "Rattle's compilers" "$folder/libwat_c.a" "$folder/liblibc_c.a"
else
    say "the library by Rattle's compilers is left out, as no rt is here"
fi
for library in "${libraries[@]}"; do
    cmp "$room/answers of ${libraries[0]}" "$room/answers of $library"
done
say "${#libraries[@]} libraries answer alike: $(printf '%s; ' "${libraries[@]}")"
