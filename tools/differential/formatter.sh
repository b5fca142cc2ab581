#!/usr/bin/env bash
# Compares the formatted texts of crates/wat_format, built with cargo, with those of tools/differential/reference_formatter.py, which is written from
# the definition. FILE.. are also formatted by `fmt` of the proved program and compared, and so are the modules that wat2wasm writes for them before
# and after formatting.
#
# usage: tools/differential/formatter.sh [FILE..]
set -euo pipefail
here=$PWD
cd "$(dirname "$0")/../.."
root=$PWD
(cd rust && cargo build --locked --quiet --release --package wat-tokens --example layouts)
command=()
if [ $# != 0 ]; then
    command=(--command "$root/$(tools/release/build_program.sh wat_tokens)")
fi
cd "$here"
python3 "$root/tools/differential/compare_formatters.py" "${command[@]}" "$root/rust/target/release/examples/layouts" "$@"
