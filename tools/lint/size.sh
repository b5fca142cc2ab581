#!/usr/bin/env bash
# Prints the size of each part of the repository at a commit.
#
# usage: tools/lint/size.sh [COMMIT]
#
# A word of the documents' prose is a run of letters or digits outside fenced code, HTML comments, link targets and table rows.
set -eu -o pipefail
cd "$(dirname "$0")/../.."
commit=$(git rev-parse "${1:-HEAD}")
work=$(mktemp -d)
trap 'rm -rf "$work"' EXIT
git archive "$commit" | tar -x -C "$work"
cd "$work"

# row NAME COUNT: prints one line of the table
row() {
    printf '%-46s %8d\n' "$1" "$2"
}

lines() {
    find "$@" -type f -print0 | xargs -0 cat | wc -l
}

row 'crates' "$(find crates -mindepth 1 -maxdepth 1 -type d | wc -l)"
row 'lines of Rattle' "$(lines crates -path '*/src/*' -name '*.rt')"
row 'lines of definitions' "$(lines crates -path '*/specs/*')"
row 'lines of proofs' "$(lines crates -path '*/proofs/*')"
row 'lines of hand-written Rust' "$(find rust -name '*.rs' -print0 | xargs -0 grep -L ' by tools/erase from ' | xargs cat | wc -l)"
row 'lines of Rust generated from proved sources' "$(find rust -name '*.rs' -print0 | xargs -0 grep -l ' by tools/erase from ' | xargs -r cat | wc -l)"
row 'files of mutants' "$(find mutants crates/*/must-fail -type f | wc -l)"
row 'tools' "$(find tools -mindepth 2 -maxdepth 2 | wc -l)"
# prose FILE..: prints the number of words of the files' prose
prose() {
    perl -CSD -0777 -ne 's/<!--.*?-->//gs; s/^ *(```+|~~~+).*?^ *\1 *$//gms; s/^ *\|.*$//gm; s/\]\([^)]*\)/]/g; $n += () = /[\p{L}\p{N}]+/g; END { print $n }' "$@"
}

mapfile -d '' documents < <(find . -name '*.md' -print0)
row 'words of prose, all documents' "$(prose "${documents[@]}")"
row 'lines of README' "$(wc -l < README.md)"
