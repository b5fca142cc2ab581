#!/usr/bin/env bash
# Tests the 16-byte blocks of wat-lex, and the lexer over them, with the vectors of AArch64 (NEON, under qemu) and of WebAssembly (simd128, in node).
# No other check compiles rust/wat-lex/src/shim/simd/neon.rs and wasm.rs: x86-64 has blocks of its own, and targets_32_bit.sh tests WebAssembly
# without vectors. Debug assertions and overflow checks are on.
#
#   CARGO_SIMD=COMMAND    a cargo for both targets; default: tools/lib/cargo_with_std.sh, which lists its Debian packages
#   CRATES_FOLDER=FOLDER  as for tools/lib/cargo_with_std.sh
#
# usage: tools/test/targets_simd.sh [aarch64] [wasm]   both if none is named
set -euo pipefail
cd "$(dirname "$0")/../.."
read -ra cargo <<< "${CARGO_SIMD:-$PWD/tools/lib/cargo_with_std.sh}"
export CARGO_TARGET_DIR=${CARGO_TARGET_DIR:-$PWD/rust/target}/simd
# std is built too: without optimization its tests take minutes; with debug information its build does.
export CARGO_PROFILE_DEV_OPT_LEVEL=1 CARGO_PROFILE_DEV_DEBUG=0
log=$(mktemp)
trap 'rm -f "$log"' EXIT
# The number of the tests of the blocks, which each part must run.
BLOCKS=5
# The tests of the lexer, over the blocks, that start neither threads nor processes.
tests=(--lib --test agreement --test stored --test random --test tokens --test numbers)

# run NAME ARGUMENT..: tests wat-lex, and reports the number of tests that passed; prints the output if cargo fails or the tests of the blocks do not run
run() {
    local begun=$SECONDS blocks
    if ! (cd rust && "${cargo[@]}" test --locked --package wat-lex "${tests[@]}" "${@:2}" > "$log" 2>&1) \
        || ! blocks=$(grep -c '^test shim::simd::tests::.* ok$' "$log") || [ "$blocks" -lt "$BLOCKS" ]; then
        grep -vE '^ +(Compiling|Running|Finished)|^test .* ok$' "$log" || true
        echo "targets_simd.sh: $1: FAILED: ${*:2}"
        exit 1
    fi
    echo "targets_simd.sh: $1: $(grep -c '^test .* ok$' "$log") tests passed, $blocks of blocks, in $((SECONDS - begun)) s"
}

# aarch64: runs the tests under emulation
aarch64() {
    : "${CARGO_TARGET_AARCH64_UNKNOWN_LINUX_GNU_RUNNER:=qemu-aarch64 -L /usr/aarch64-linux-gnu}"
    export CARGO_TARGET_AARCH64_UNKNOWN_LINUX_GNU_RUNNER
    run aarch64 --target aarch64-unknown-linux-gnu
}

# wasm: runs the tests in node
wasm() {
    : "${CARGO_TARGET_WASM32_WASIP1_RUNNER:=node --no-warnings $PWD/tools/lib/wasi.mjs}"
    export CARGO_TARGET_WASM32_WASIP1_RUNNER
    RUSTFLAGS=-Ctarget-feature=+simd128 run wasm --target wasm32-wasip1
}

if [ $# = 0 ]; then
    set -- aarch64 wasm
fi
for part in "$@"; do
    case $part in
        aarch64 | wasm) "$part" ;;
        *) echo "targets_simd.sh: no part $part" >&2 && exit 2 ;;
    esac
done
