#!/usr/bin/env bash
# Runs the differential tests of wat-parser and all tests of wat-lex in a release build with overflow checks, debug assertions and the address sanitizer.
# cargo's own tests run without optimization; in release builds the compiler may take advantage of code that is wrong. A compiler without the
# sanitizer's library runs them without it, and the last line says so.
#
# usage: [ROUNDS=N] tools/test/checked.sh     with N times as many rounds of the differential tests
set -euo pipefail
cd "$(dirname "$0")/../../rust"
host=$(rustc -vV | sed -n 's/^host: //p')
export CARGO_TARGET_DIR=${CARGO_TARGET_DIR:-$PWD/target}/checked
# A whole-program optimization takes minutes, and frames of inlined functions hide the offsets in a report.
export CARGO_PROFILE_RELEASE_LTO=off CARGO_PROFILE_RELEASE_CODEGEN_UNITS=16 CARGO_PROFILE_RELEASE_DEBUG=line-tables-only
checks='-C overflow-checks=on -C debug-assertions=on'
log=$(mktemp)
trap 'rm -f "$log"' EXIT

# is_here: succeeds if rustc has the library of the address sanitizer
is_here() {
    compgen -G "$(rustc --print target-libdir)/librustc*_rt.asan.a" > /dev/null
}

# run NAME ARGUMENT..: runs cargo, and reports the number of tests that passed; prints the output if cargo fails or runs no test
run() {
    local begun=$SECONDS
    if ! cargo test --locked --release --target "$host" "${@:2}" > "$log" 2>&1 || ! grep -q '^test .* ok$' "$log"; then
        grep -vE '^ +(Compiling|Running|Finished)|^test .* ok$' "$log" || true
        echo "checked.sh: FAILED: $1"
        exit 1
    fi
    echo "checked.sh: $(grep -c '^test .* ok$' "$log") tests passed in $((SECONDS - begun)) s: $1"
}

sanitizer='without the address sanitizer, which this rustc lacks'
if is_here; then
    export RUSTC_BOOTSTRAP=1
    checks="$checks -Zsanitizer=address" sanitizer='with the address sanitizer'
fi
export RUSTFLAGS=$checks
run "wat-lex, overflow checks, debug assertions, $sanitizer" --package wat-lex --lib --tests
run "differential tests, overflow checks, debug assertions, $sanitizer" --package wat-parser --test differential
