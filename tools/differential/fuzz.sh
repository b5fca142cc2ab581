#!/usr/bin/env bash
# Differential fuzzing: compares the crates below rust/ on random source texts with the crate wast 263.0.0 or with a program wat_tokens, or compares a
# parser's sources with each other. tools/differential/fuzz/src/main.rs describes the program.
# Without a registry, WAST_FOLDER names a folder with the crate wast, and CRATES_FOLDER one with the crates that cargo builds with.
#
# usage: tools/differential/fuzz.sh [--program PROGRAM | --sources] SEED COUNT [FILE or FOLDER]..
set -euo pipefail
project=$(cd "$(dirname "$0")/fuzz" && pwd)
options=(--release --quiet --manifest-path "$project/Cargo.toml")
if [ -n "${CRATES_FOLDER:-}" ]; then
    options+=(--offline --config 'source.crates-io.replace-with="handed"')
    options+=(--config "source.handed.directory=\"$(realpath "$CRATES_FOLDER")\"")
fi
if [ -n "${WAST_FOLDER:-}" ]; then
    options+=(--config "patch.crates-io.wast.path=\"$(realpath "$WAST_FOLDER")\"")
fi
cargo run "${options[@]}" -- "$@"
