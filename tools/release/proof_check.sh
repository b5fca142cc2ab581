#!/usr/bin/env bash
# Runs `rt ci` on committed crates. Writes its log also to a file, after a line with the commit, for tools/release/dist.sh (PROOF_LOG).
#
# usage: tools/release/proof_check.sh LOG
set -euo pipefail
log=$(realpath -m "${1:?usage: tools/release/proof_check.sh LOG}")
cd "$(dirname "$0")/../.."
if [ -n "$(git status --porcelain -- crates crates.txt HANDLES)" ]; then
    echo 'proof_check.sh: not all of the crates is committed'
    exit 1
fi
{ echo "commit $(git rev-parse HEAD)" && rt ci; } 2>&1 | tee "$log"
