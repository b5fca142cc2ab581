#!/usr/bin/env bash
# Measures the memory of the commands `list`, `sig`, `blank` and `play` of the program wat_tokens on source texts, and of `types` on 100,000 types:
# the peak resident memory, and the smallest address space, in MiB, with which the command still writes the same output. With less, the command must
# report the allocation failure as docs/cli.md says: one line on standard error, no output, status 2. Prints a Markdown table;
# docs/speed/older.tsv has an earlier one.
#
# usage: tools/bench/benchmark_memory.sh PROGRAM TEXT..     such as crates/wat_tokens/out/wat_tokens and texts that tools/bench/benchmark.sh leaves
set -eu -o pipefail
program=$(realpath "${1:?usage: tools/bench/benchmark_memory.sh PROGRAM TEXT..}")
shift
room=$(mktemp -d)
trap 'rm -rf "$room"' EXIT

# peak TEXT ARGUMENT..: prints the peak resident memory in KiB; records the output and the status
peak() {
    local status=0
    /usr/bin/time --quiet -f %M -o "$room/peak" "$program" "${@:2}" < "$1" > "$room/wanted" 2> "$room/errors" || status=$?
    echo "$status" > "$room/status"
    cat "$room/peak"
}

# under MEBIBYTES TEXT ARGUMENT..: succeeds if this limit does not change the command's output and status
under() {
    local status=0
    prlimit --as=$(($1 << 20)) "$program" "${@:3}" < "$2" > "$room/output" 2> "$room/refusal" || status=$?
    echo "$status" > "$room/refused"
    [ "$status" = "$(cat "$room/status")" ] && cmp -s "$room/output" "$room/wanted"
}

# least KIBIBYTES TEXT ARGUMENT..: prints the smallest limit, in MiB, under which the command's output and status are the same
least() {
    local low=0 high=$(($1 / 1024 + 1)) middle
    until under "$high" "${@:2}"; do
        low=$high high=$((high * 2))
    done
    while [ $((high - low)) -gt 1 ]; do
        middle=$(((low + high) / 2))
        if under "$middle" "${@:2}"; then
            high=$middle
        else
            low=$middle
        fi
    done
    # With a much smaller limit, the program does not start.
    under "$low" "${@:2}" || true
    if [ -s "$room/output" ] || [ "$(cat "$room/refused")" != 2 ] || [ "$(wc -l < "$room/refusal")" != 1 ]; then
        echo "benchmark_memory.sh: ${*:3} of $2 is not refused as it should be under $low MiB: status $(cat "$room/refused")" >&2
        exit 1
    fi
    echo "$high"
}

# row TEXT ARGUMENT..: prints a row of the table
row() {
    local bytes resident space
    bytes=$(wc -c < "$1")
    resident=$(peak "$@")
    space=$(least "$resident" "$@")
    awk -v bytes="$bytes" -v resident="$resident" -v space="$space" -v status="$(cat "$room/status")" -v text="$(basename "$1" .wat)" \
        -v words="${*:2}" 'BEGIN {
            resident *= 1024; space *= 1048576
            printf "| %s, %.1f MB | %s | %d | %.1f | %.2f | %.1f | %.2f |\n", text, bytes / 1e6, words == "" ? "(list)" : words, status,
                resident / 1e6, resident / bytes, space / 1e6, space / bytes
        }'
}

echo '| text | words | status | resident, MB | bytes a byte | address space, MB | bytes a byte |'
echo '|---|---|---|---|---|---|---|'
for text; do
    row "$text"
    row "$text" sig name
    row "$text" blank
    row "$text" play look
done
{
    echo '(module'
    yes '  (type (func (param i32 i64) (result f64)))' | head -n 100000
    echo ')'
} > "$room/types.wat" || true
row "$room/types.wat" types
