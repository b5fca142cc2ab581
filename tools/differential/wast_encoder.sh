#!/usr/bin/env bash
# Builds the encoder of the crate wast 222.0.0, over the lowest layer of 263.0.0, as a program that encodes many source texts
# (tools/differential/wast_encoder describes its protocol), and prints its path. FOLDER contains workspace.sh, as for tools/differential/drop_in.sh.
# No other crate is needed.
#
# usage: tools/differential/wast_encoder.sh FOLDER WORK
set -eu -o pipefail
folder=$(cd "$1" && pwd)
mkdir -p "$2"
whole=$(cd "$2" && pwd)/whole
cd "$(dirname "$0")/../.."
[ -d "$whole" ] || bash "$folder/workspace.sh" "$whole"
mkdir -p "$whole/encoder"
rm -rf "$whole/encoder/src"
cp -r tools/differential/wast_encoder/. "$whole/encoder/"
sed -i "s|\"WAST\"|\"$whole/wast\"|" "$whole/encoder/Cargo.toml"
(cd "$whole/encoder" && cargo build --offline --release --quiet --target-dir target)
echo "$whole/encoder/target/release/encoder"
