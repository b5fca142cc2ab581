#!/usr/bin/env bash
# Runs the program on all source texts below a folder at once, and on each file alone. The output for all files must consist of the outputs for the
# single files, separated by empty lines, each after a line with the file's name. The reports must be the same, and the exit status the greatest of
# them. The output for a source text on standard input must equal that for its file.
#
# usage: tools/test/many_files.sh FOLDER [PROGRAM]
set -eu
folder=$(realpath "$1")
cd "$(dirname "$0")/../.."
program=$(realpath "${2:-$(tools/release/build_program.sh wat_tokens)}")
room=$(mktemp -d)
trap 'rm -rf "$room"' EXIT
cd "$folder"
mapfile -t files < <(find . -name '*.wat' -o -name '*.wast' | sort)
options=()
for file in "${files[@]}"; do
    options+=(--file "$file")
done
differences=0

# each ARGUMENT..: runs the program with these arguments on each file alone
each() {
    local file status greatest=0 head='==> %s <==\n'
    : > "$room/each_output"
    : > "$room/each_errors"
    for file in "${files[@]}"; do
        status=0
        # shellcheck disable=SC2059
        printf "$head" "$file" >> "$room/each_output"
        head='\n==> %s <==\n'
        "$program" --file "$file" "$@" >> "$room/each_output" 2>> "$room/each_errors" || status=$?
        [ "$status" -le "$greatest" ] || greatest=$status
    done
    echo "$greatest" > "$room/each_status"
}

# all ARGUMENT..: runs the program with these arguments on all files at once
all() {
    local status=0
    "$program" "${options[@]}" "$@" > "$room/all_output" 2> "$room/all_errors" || status=$?
    echo "$status" > "$room/all_status"
}

# compare NAME: compares the results of `each` and `all`
compare() {
    local part
    for part in output errors status; do
        if ! cmp "$room/each_$part" "$room/all_$part"; then
            differences=$((differences + 1))
        fi
    done
    [ -s "$room/all_output" ] || differences=$((differences + 1))
    echo "many_files.sh: $1, ${#files[@]} files, $(wc -l < "$room/all_output") lines, $(wc -l < "$room/all_errors") lines of reports, status $(cat "$room/all_status")"
}

if [ "${#files[@]}" -eq 0 ]; then
    echo "many_files.sh: no *.wat or *.wast below $folder"
    exit 1
fi
each list
all list
compare list
each sig custom
all sig custom
compare sig
for file in "${files[@]}"; do
    "$program" list "$file" > "$room/each_output" 2> "$room/errors" || true
    "$program" < "$file" > "$room/all_output" 2> "$room/errors" || true
    cmp "$room/each_output" "$room/all_output" || differences=$((differences + 1))
done
echo "many_files.sh: ${#files[@]} files, together and one by one, $differences differences"
[ "$differences" = 0 ]
