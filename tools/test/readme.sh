#!/usr/bin/env bash
# Runs the commands of README.md and docs/cli.md in a clone, and compares their output. A command is a block ```sh, run from the top of the
# clone. Its status must be 0, and its standard output must equal the following block ```text, if there is one. A block after the line `<!-- slow -->`
# runs proofs; --quick skips it. A block after `<!-- built -->` runs the proved program, and is skipped if the clone does not contain it. If BUILT is
# set, the program of this repository is copied to the clone. Each block is reported, whether it ran or was skipped.
#
# usage: tools/test/readme.sh [--quick] [CLONE]     (no CLONE: one of HEAD is made in a temporary folder)
set -eu
quick=false
if [ "${1:-}" = --quick ]; then
    quick=true
    shift
fi
top=$(cd "$(dirname "$0")/../.." && pwd)
room=$(mktemp -d)
trap 'rm -rf "$room"' EXIT
clone=${1:-$room/clone}
[ $# -gt 0 ] || git clone --quiet "$top" "$clone"
clone=$(cd "$clone" && pwd)
built=crates/wat_tokens/out/wat_tokens
if [ $# = 0 ] && [ -n "${BUILT:-}" ]; then
    mkdir "$clone/crates/wat_tokens/out"
    cp "$top/$built" "$clone/$built"
fi
ran=0 left=0 differences=0

# blocks DOCUMENT: writes each command of a document to a file NNN.quick, NNN.slow or NNN.built, and its expected output, if there is one, to
# NNN.output
blocks() {
    awk -v room="$room/blocks" '
        /^```$/ && file { close(file); file = ""; next }
        file { print > file; next }
        /^<!-- (slow|built) -->$/ { kind = $2; next }
        /^```sh$/ { name = sprintf("%s/%03d", room, ++count); file = name "." (kind ? kind : "quick"); kind = ""; wanted = 1; printf "" > file; next }
        /^```text$/ && wanted { file = name ".output"; wanted = 0; printf "" > file; next }
        /^$/ { next }
        { wanted = 0; kind = "" }
    ' "$1"
}

# why_not BLOCK: prints the reason why a command is skipped, or nothing if it runs
why_not() {
    if [ "${1##*.}" = slow ] && $quick; then
        echo 'it proves'
    elif [ "${1##*.}" = built ] && [ ! -e "$clone/$built" ]; then
        echo "$built is not built"
    fi
}

# run BLOCK: runs a command, and compares its output
run() {
    local wanted=${1%.*}.output start=$SECONDS status=0
    (cd "$clone" && bash -eu -o pipefail "$1") > "$room/output" 2> "$room/errors" < /dev/null || status=$?
    ran=$((ran + 1))
    echo "readme.sh: ran, $((SECONDS - start)) s, status $status:"
    sed 's/^/    /' "$1"
    if [ "$status" != 0 ]; then
        tail -n 20 "$room/errors"
        differences=$((differences + 1))
    elif [ -e "$wanted" ] && ! diff "$wanted" "$room/output"; then
        differences=$((differences + 1))
    fi
}

for document in README.md docs/cli.md; do
    rm -rf "$room/blocks"
    mkdir "$room/blocks"
    blocks "$clone/$document"
    for block in "$room/blocks"/*.[qsb]*; do
        [ -e "$block" ] || continue
        why=$(why_not "$block")
        if [ -n "$why" ]; then
            left=$((left + 1))
            echo "readme.sh: left out, as $why: $(tr '\n' ';' < "$block" | cut -c 1-100)"
        else
            run "$block"
        fi
    done
done
echo "readme.sh: $ran commands ran, $differences are not as they must be; $left are left out"
[ "$ran" -gt 0 ] && [ "$differences" = 0 ]
