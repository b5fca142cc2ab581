#!/usr/bin/env bash
# Tests the Rust packages for targets whose `usize` has 32 bits. All tests of all packages run for i686, on Linux for x86-64. For WebAssembly, node
# runs tests of wat-lex, wat-parser, wat-modules, wat-format and wat-tokens that start neither threads nor processes. Debug assertions and overflow
# checks are on. The proofs are for a `usize` of 64 bits.
#
#   CARGO_32=COMMAND      a cargo for both targets; default: tools/lib/cargo_with_std.sh, which lists its Debian packages
#   CRATES_FOLDER=FOLDER  as for tools/lib/cargo_with_std.sh
#
# usage: tools/test/targets_32_bit.sh [i686] [wasm]   both if none is named
set -euo pipefail
cd "$(dirname "$0")/../.."
read -ra cargo <<< "${CARGO_32:-$PWD/tools/lib/cargo_with_std.sh}"
export CARGO_TARGET_DIR=${CARGO_TARGET_DIR:-$PWD/rust/target}/32_bits
# std is built too: without optimization its tests take minutes; with debug information its build does.
export CARGO_PROFILE_DEV_OPT_LEVEL=1 CARGO_PROFILE_DEV_DEBUG=0
log=$(mktemp)
trap 'rm -f "$log"' EXIT
# Skips the tests that start threads or processes, which WASI lacks.
without_threads=(-- --skip a_refused_request_ends_the_program --skip no_depth_of_the_text_is_a_depth_of_the_stack)

# run NAME ARGUMENT..: runs cargo in rust, and reports the number of tests that passed; prints the output if cargo fails or runs no test
run() {
    local begun=$SECONDS
    if ! (cd rust && "${cargo[@]}" "${@:2}" > "$log" 2>&1) || ! grep -q '^test .* ok$' "$log"; then
        grep -vE '^ +(Compiling|Running|Finished)|^test .* ok$' "$log" || true
        echo "targets_32_bit.sh: $1: FAILED: ${*:2}"
        exit 1
    fi
    echo "targets_32_bit.sh: $1: $(grep -c '^test .* ok$' "$log") tests passed in $((SECONDS - begun)) s: ${*:2}"
}

# i686: tests all packages, their examples and their documentation
i686() {
    run i686 test --locked --workspace --target i686-unknown-linux-gnu
}

# wasm: compiles all packages, and runs the tests of five that start neither threads nor processes
wasm() {
    : "${CARGO_TARGET_WASM32_WASIP1_RUNNER:=node --no-warnings $PWD/tools/lib/wasi.mjs}"
    export CARGO_TARGET_WASM32_WASIP1_RUNNER
    (cd rust && "${cargo[@]}" check --locked --quiet --workspace --target wasm32-wasip1)
    echo 'targets_32_bit.sh: wasm: all packages compile'
    local test=(test --locked --target wasm32-wasip1)
    run wasm "${test[@]}" -p wat-lex --lib --test agreement --test stored --test random --test shim --test traits --test refusals "${without_threads[@]}"
    run wasm "${test[@]}" -p wat-parser --lib --test answers --test floats
    run wasm "${test[@]}" -p wat-modules -p wat-format --lib --tests "${without_threads[@]}"
    run wasm "${test[@]}" -p wat-tokens --test requests
}

if [ $# = 0 ]; then
    set -- i686 wasm
fi
for part in "$@"; do
    case $part in
        i686 | wasm) "$part" ;;
        *) echo "targets_32_bit.sh: no part $part" >&2 && exit 2 ;;
    esac
done
