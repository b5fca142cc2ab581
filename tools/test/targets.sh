#!/usr/bin/env bash
# Tests the Rust crates with the oldest rustc that builds them, under the address sanitizer, with the SSSE3 code for 16-byte blocks, and on other
# machines: AArch64 under emulation, WebAssembly in node. A part whose compiler is missing is skipped and reported.
#
# Each part uses rustup's cargo, unless a variable names another: OLDEST, NIGHTLY, AARCH64 or WASM. For AArch64 and WebAssembly, cargo's own variables
# name the linker and the runner, such as CARGO_TARGET_AARCH64_UNKNOWN_LINUX_GNU_RUNNER. Without a registry, CRATES_FOLDER names a folder of the
# crates that cargo builds with. If WAST_FOLDER is set, or a registry is available, the parts also sum the results of differential fuzzing on 20,000
# texts (tools/differential/fuzz.sh); the sums of all targets must be equal.
#
# usage: tools/test/targets.sh
set -euo pipefail
cd "$(dirname "$0")/../.."
room=$(mktemp -d)
trap 'rm -rf "$room"' EXIT
options=()
if [ -n "${CRATES_FOLDER:-}" ]; then
    options+=(--offline --config 'source.crates-io.replace-with="handed"')
    options+=(--config "source.handed.directory=\"$(realpath "$CRATES_FOLDER")\"")
fi
: "${CARGO_TARGET_WASM32_WASIP1_RUNNER:=node --no-warnings $PWD/tools/lib/wasi.mjs}"
: "${CARGO_TARGET_AARCH64_UNKNOWN_LINUX_GNU_LINKER:=aarch64-linux-gnu-gcc}"
: "${CARGO_TARGET_AARCH64_UNKNOWN_LINUX_GNU_RUNNER:=qemu-aarch64 -L /usr/aarch64-linux-gnu}"
export CARGO_TARGET_WASM32_WASIP1_RUNNER CARGO_TARGET_AARCH64_UNKNOWN_LINUX_GNU_LINKER CARGO_TARGET_AARCH64_UNKNOWN_LINUX_GNU_RUNNER
# Without optimization, the tests of 16-byte blocks take minutes under emulation.
export CARGO_PROFILE_DEV_OPT_LEVEL=1
host=$(rustc -vV | sed -n 's/^host: //p')
faults=0 last_sum=

# is_here TARGET CARGO..: succeeds if this cargo builds and runs a program for the target
is_here() {
    local target=$1
    shift
    cargo new --quiet --vcs none --name trial "$room/trial" 2> /dev/null || true
    (cd "$room/trial" && "$@" run --offline --target "$target" > "$room/log" 2>&1)
}

# part NAME TARGET CARGO: starts a part, or reports that it is skipped
part() {
    name=$1 target=$2
    read -ra cargo <<< "$3"
    export CARGO_TARGET_DIR=$PWD/rust/target/targets/${name// /-}
    is_here "$target" "${cargo[@]}" && return
    echo "$name: left out: $(grep -m 1 error "$room/log" || tail -n 1 "$room/log")"
    return 1
}

# try ARGUMENT..: runs tests of the part
try() {
    if "${cargo[@]}" test "${options[@]}" --manifest-path rust/Cargo.toml --target "$target" "$@" > "$room/log" 2>&1; then
        echo "$name: $(grep -c '^test .* ok$' "$room/log") tests pass: $*"
    else
        faults=$((faults + 1))
        grep -E '^error|panicked|FAILED' "$room/log" || cat "$room/log"
        echo "$name: FAILS: $*"
    fi
}

# sum: sums the results on random texts; the sum must equal that of the preceding parts
sum() {
    local texts=(--manifest-path tools/differential/fuzz/Cargo.toml --release --no-default-features --target "$target") line
    [ -z "${WAST_FOLDER:-}" ] || texts+=(--config "patch.crates-io.wast.path=\"$(realpath "$WAST_FOLDER")\"")
    if ! line=$("${cargo[@]}" run "${options[@]}" "${texts[@]}" -- 1 20000 "$PWD/crates/wat_tokens/agreement" 2> "$room/log"); then
        echo "$name: random texts are left out: $(grep -m 1 '^error' "$room/log" || echo "$line")"
        return
    fi
    echo "$name: $line"
    if [ "${last_sum:=${line##* }}" != "${line##* }" ]; then
        faults=$((faults + 1))
        echo "$name: ANOTHER SUM"
    fi
}

# A test that starts its own program again cannot do so under emulation.
alone=(-- --skip a_refused_request_ends_the_program)
crates=(-p wat-lex -p wat-parser -p wat-c)
requests=(-p wat-tokens --test requests)

if part oldest "$host" "${OLDEST:-cargo +1.85}"; then
    try "${crates[@]}"
fi
if part plain "$host" cargo; then
    try -p wat-lex --lib
    sum
fi
if RUSTFLAGS=-Ctarget-feature=+ssse3 part ssse3 "$host" cargo; then
    export RUSTFLAGS=-Ctarget-feature=+ssse3
    try "${crates[@]}"
    sum
    unset RUSTFLAGS
fi
if RUSTFLAGS=-Zsanitizer=address part sanitizer "$host" "${NIGHTLY:-cargo +nightly}"; then
    export RUSTFLAGS=-Zsanitizer=address RUSTDOCFLAGS=-Zsanitizer=address
    try --workspace
    sum
    unset RUSTFLAGS RUSTDOCFLAGS
fi
if part aarch64 aarch64-unknown-linux-gnu "${AARCH64:-cargo}"; then
    try "${crates[@]}" "${alone[@]}"
    try "${requests[@]}"
    sum
fi
for feature in -simd128 +simd128; do
    flags="-Ctarget-feature=$feature ${WASM_FLAGS:-}"
    if RUSTFLAGS=$flags part "wasm $feature" wasm32-wasip1 "${WASM:-cargo}"; then
        export RUSTFLAGS=$flags
        try -p wat-lex --lib --test agreement --test stored --test random --test shim --test traits --test refusals "${alone[@]}"
        try -p wat-parser --test answers --test floats
        try "${requests[@]}"
        sum
        unset RUSTFLAGS
    fi
done
echo "targets.sh: $faults faults"
[ "$faults" = 0 ]
