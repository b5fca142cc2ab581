#!/usr/bin/env bash
# Proves and builds a program of the repository, and prints its path: tools/release/build_program.sh NAME. If BUILT is set, the program is already
# built.
set -eu
cd "$(dirname "$0")/../.."
[ -n "${BUILT:-}" ] || (cd "crates/$1" && rt run < stdin > /dev/null)
echo "crates/$1/out/$1"
