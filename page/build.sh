#!/usr/bin/env bash
# Builds the npm package, page/out/wat-lex, and the page over it: the folder page/out, for a server, and page/out/wat.html, one file that opens
# without a server. cargo builds the module from rust/wat-page: rustup's, if its rustc has the target wasm32-unknown-unknown, otherwise Debian's, with
# tools/lib/cargo_with_std.sh. If neither is available, or with BY=rattle, Rattle's compiler builds it from the proved sources, without `format`,
# `compile` and `types`, and binaryen's wasm-opt lowers its memory to 32 bits. With BY=cargo, a missing cargo is an error. Needs python3.
#
#   WASM_CARGO=COMMAND  another cargo whose rustc has the target
#
# usage: page/build.sh
set -euo pipefail
shopt -s inherit_errexit
cd "$(dirname "$0")"
target=wasm32-unknown-unknown

# by_cargo, by_rattle: build the module, and print its sources and its compiler
by_cargo() {
    local folder=${CARGO_TARGET_DIR:-$PWD/../rust/target}/page command
    read -ra command <<< "$cargo"
    (cd ../rust && CARGO_TARGET_DIR=$folder CARGO_PROFILE_RELEASE_STRIP=symbols "${command[@]}" build --quiet --locked --release --package wat-page --target "$target")
    install -m 644 "$folder/$target/release/wat_page.wasm" out/wat-lex/wat_lex.wasm
    echo "of rust/wat-page by $(grep -o 'rustc [0-9][^\\"]*)' "$folder/.rustc_info.json" | sort -u | tail -n 1)"
}

by_rattle() {
    local kit
    kit=$(dirname "$(rt doc)")
    (cd ../crates/wat_wasm && rt lib --target wasm64-unknown-unknown) >&2
    "$kit/bin/rattle-link" --target wasm64-unknown-unknown --toolchain "$kit/toolchain" -o out/wide.wasm ../crates/wat_wasm/out/libwat_wasm.a
    wasm-opt --enable-memory64 --enable-bulk-memory --memory64-lowering -O3 -o out/wat-lex/wat_lex.wasm out/wide.wasm
    rm out/wide.wasm
    echo "of crates/wat_wasm by Rattle's compiler, $(rt version), and $(wasm-opt --version)"
}

# wasm_cargo: prints a cargo for the target, or nothing if there is none
wasm_cargo() {
    if [ -n "${WASM_CARGO:-}" ]; then
        echo "$WASM_CARGO"
    elif [ -d "$(rustc --print target-libdir --target "$target" 2> /dev/null)" ]; then
        echo cargo
    elif ../tools/lib/cargo_with_std.sh --is-here 2> /dev/null; then
        echo "$PWD/../tools/lib/cargo_with_std.sh"
    fi
}

# by: prints which of the two builds the module
by() {
    if [ "${BY:-cargo}" = cargo ] && [ -n "$cargo" ]; then
        echo cargo
    elif [ "${BY:-rattle}" = rattle ] && command -v rt > /dev/null && command -v wasm-opt > /dev/null; then
        echo rattle
    else
        echo "page/build.sh: no cargo for $target is here (page/README.md)" >&2
        return 1
    fi
}

cargo=$(wasm_cargo)
maker=$(by)
rm -rf out
mkdir -p out/wat-lex
made_by=$("by_$maker")
cp wat-lex/* ../LICENSE out/wat-lex/
cp index.html style.css ./*.js out/
python3 single.py out > out/wat.html
echo "page/build.sh: $made_by: the module has $(stat -c %s out/wat-lex/wat_lex.wasm) bytes, the page $(stat -c %s out/wat.html)"
