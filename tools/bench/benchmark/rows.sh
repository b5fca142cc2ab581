# Functions shared by tools/bench/benchmark.sh and tools/bench/benchmark_rust.sh. They print rows of figures, each a line of six columns separated by
# tabs: suite, text, call, ours, the crate's, ratio. The script that sources this file sets `program`, `cpu`, `passes`, `firsts` and `work`.
# shellcheck shell=bash disable=SC2154

say() {
    echo "$(basename "$0"): $*" >&2
}

has() {
    command -v "$1" > /dev/null
}

# describe PASSES: prints the date, the commit, the machine and the method of the benchmark
describe() {
    echo "# $(date -u +%F), commit $(git rev-parse --short HEAD), $(sed -n 's/^model name.*: //p' /proc/cpuinfo | head -1), $(nproc --all) processors, load $(cut -d' ' -f1-2 /proc/loadavg),"
    echo "# $(rustc --version | cut -d' ' -f1-2); $1"
    printf '# suite\ttext\tcall\tours\twast\tratio\n'
}

# times SUITE PASSES TEXT..: prints the rows of a suite, in milliseconds
times() {
    taskset -c "$cpu" "$program" "$2" "$1" "${@:3}" 2>> "$work/times.tsv" || { say "$(tail -n 1 "$work/times.tsv")" && exit 1; }
}

# each SUITE TEXT..: prints the rows of a suite, with a process for each text: earlier allocations decide which pages glibc gives to a table
each() {
    local text
    for text in "${@:2}"; do
        times "$1" "$passes" "$text"
    done
}

# median: prints the median of the numbers of standard input, one a line
median() {
    sort -n | awk '{ all[NR] = $1 } END { print all[int((NR + 1) / 2)] }'
}

# ratio THEIRS OURS: prints the quotient
ratio() {
    awk "BEGIN { printf \"%.2f\", $1 / $2 }"
}

# first SUITE TEXT..: prints the rows of the first pass of a process: the median over interleaved processes
first() {
    local text ours theirs what turn mine other
    for text in "${@:2}"; do
        while read -r ours theirs what; do
            rm -f "$work"/first.{ours,theirs}
            touch "$work"/first.{ours,theirs}
            for ((turn = 0; turn < firsts; turn++)); do
                taskset -c "$cpu" "$program" once "$ours" "$text" | cut -f4 >> "$work/first.ours"
                [ "$theirs" = - ] || taskset -c "$cpu" "$program" once "$theirs" "$text" | cut -f4 >> "$work/first.theirs"
            done
            mine=$(median < "$work/first.ours") other=$(median < "$work/first.theirs")
            row "first, $1" "$text" "$what" "$mine" "$other"
        done < <("$program" functions "$1")
    done
}

# row SUITE TEXT CALL OURS THEIRS: prints a row; an empty THEIRS becomes `-`
row() {
    local theirs=${5:--} divided=-
    [ "$theirs" = - ] || divided=$(ratio "$theirs" "$4")
    printf '%s\t%s\t%s\t%s\t%s\t%s\n' "$1" "$(basename "$2" .wat)" "$3" "$4" "$theirs" "$divided"
}

# instructions FUNCTION TEXT: prints the instructions of a call for each byte of the text's first megabyte
instructions() {
    local counted
    valgrind --tool=callgrind --callgrind-out-file=/dev/null --toggle-collect="$1" "$program" once "$1" "$2" 1000000 \
        > "$work/once" 2> "$work/valgrind" || { cat "$work/valgrind" >&2; exit 1; }
    counted=$(sed -n 's/.*Collected : *//p' "$work/valgrind")
    [ "${counted:-0}" != 0 ] || { say "callgrind saw no call of $1" && exit 1; }
    awk "BEGIN { printf \"%.2f\", $counted / $(cut -f3 "$work/once") }"
}

# counts SUITE TEXT..: prints the rows of a suite's instructions for each byte of a text's first megabyte
counts() {
    local text ours theirs what other
    has valgrind || { say "instructions of $1 are left out, as valgrind is not here" && return; }
    for text in "${@:2}"; do
        while read -r ours theirs what; do
            other=-
            [ "$theirs" = - ] || other=$(instructions "$theirs" "$text")
            row "instructions, $1" "$text" "$what" "$(instructions "$ours" "$text")" "$other"
        done < <("$program" functions "$1")
    done
}

# memory SUITE TEXT..: prints the rows of the process's growth, in bytes for each byte of the text
memory() {
    local text ours theirs what mine other
    for text in "${@:2}"; do
        while read -r ours theirs what; do
            mine=$("$program" once "$ours" "$text" | awk '{ printf "%.2f", $2 / $3 }') other=-
            [ "$theirs" = - ] || other=$("$program" once "$theirs" "$text" | awk '{ printf "%.2f", $2 / $3 }')
            printf 'memory, %s\t%s\t%s\t%s\t%s\t-\n' "$1" "$(basename "$text" .wat)" "$what" "$mine" "$other"
        done < <("$program" functions "$1")
    done
}
