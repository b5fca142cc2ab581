#!/usr/bin/env bash
# Generates the "real text" of the benchmarks: the output of `wasm2wat` for each object of WASI's C and C++ libraries, concatenated.
#
# usage: tools/bench/real_text.sh FOLDER OUT [ARCHIVE..]     the text of libc.a, libc++.a and libc++abi.a in FOLDER, or of these archives in it, to OUT
#
# Debian 12 has these libraries in /usr/lib/wasm32-wasi: the packages wasi-libc 0.0~git20220510.9886d3d-2 (https://github.com/WebAssembly/wasi-libc,
# commit 9886d3d), libc++-14-dev-wasm32 and libc++abi-14-dev-wasm32 1:14.0.6-12 (https://github.com/llvm/llvm-project, tag llvmorg-14.0.6). With
# `wasm2wat` of the package wabt 1.0.32-1 the text has 12,270,615 bytes and 1,790,604 tokens. `ar` comes from binutils.
set -eu
usage='usage: tools/bench/real_text.sh FOLDER OUT [ARCHIVE..]'
folder=$(cd "${1:?$usage}" && pwd)
out=$(realpath -m "${2:?$usage}")
shift 2
[ $# -gt 0 ] || set -- libc.a libc++.a libc++abi.a
room=$(mktemp -d)
trap 'rm -rf "$room"' EXIT

for archive; do
    name=$(basename "$archive" .a)
    mkdir -p "$room/objects/$name"
    (cd "$room/objects/$name" && ar x "$folder/$archive")
done
find "$room/objects" -type f | LC_ALL=C sort > "$room/list"
: > "$out"
while read -r object; do
    wasm2wat --enable-all "$object" >> "$out"
done < "$room/list"
echo "real_text.sh: $(wc -l < "$room/list") objects, $(wc -c < "$out") bytes, sha256 $(sha256sum < "$out" | cut -c1-16)"
