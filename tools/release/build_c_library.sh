#!/usr/bin/env bash
# Proves and builds the static library, and copies the small C library of Rattle's toolchain, which it uses to allocate, to the same folder. Prints
# the folder of both archives. Libraries below that `rt ci` proved on this machine are not proved again.
#
# usage: tools/release/build_c_library.sh
set -eu
cd "$(dirname "$0")/../.."
tools/release/take_proved.py wat_c || true
if ! said=$(cd crates/wat_c && rt lib); then
    echo "$said" >&2
    exit 1
fi
cp "$(dirname "$(rt doc)")/c/liblibc_c.a" crates/wat_c/out/
echo crates/wat_c/out
