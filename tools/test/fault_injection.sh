#!/usr/bin/env bash
# Allocation-failure injection for the program: fails each allocation, each read of standard input and each write on standard output, also with reads
# and writes of one byte, and prints the number of runs. A run must either complete with its whole output, or report the failure in one line with
# status 2; then standard output is empty, or has the bytes before the failed write.
#
# usage: tools/test/fault_injection.sh [PROGRAM]
# If BY_CARGO is set, the program is the one built with cargo. Its first allocations are those of Rust's standard library, which aborts the program if
# one fails; they are not failed here. Their number is found by runs of `--version`, in which the last such allocation is the one for its only
# argument.
set -eu
cd "$(dirname "$0")/../.."
program=${1:-$(tools/release/build_program.sh wat_tokens)}
room=$(mktemp -d)
trap 'rm -rf "$room"' EXIT
compiler=${CC:-cc}
command -v "$compiler" > /dev/null || compiler=$(dirname "$(rt doc)")/toolchain/bin/clang
"$compiler" -O1 -fPIC -shared -nostdlib -o "$room/refuse.so" tools/lib/fail_allocations.c
runs=0 faults=0 requests=0 reads=0 writes=0 library=0

# run VARIABLE=N..: runs the program with the arguments `words` on the text, and records output, errors, status and counts in files of the temporary
# directory
run() {
    local status=0
    env "$@" LD_PRELOAD="$room/refuse.so" TELL=9 "$program" "${words[@]}" < "$room/text" > "$room/output" 2> "$room/errors" 9> "$room/counts" \
        || status=$?
    echo "$status" > "$room/status"
    runs=$((runs + 1))
}

# is_whole: succeeds if the run produced its whole output
is_whole() {
    cmp -s "$room/output" "$room/whole_output" && cmp -s "$room/errors" "$room/whole_errors" && cmp -s "$room/status" "$room/whole_status"
}

# says MESSAGE: succeeds if the report is this line. A report of `fmt`, or of an input that is named as `-`, has the input's name, unless an allocation
# failed while the arguments were read, and may add a cause.
says() {
    local line
    line=$(cat "$room/errors")
    if [[ " ${words[*]} " == *\ @(fmt|-)\ * ]]; then
        [[ $line == "wat_tokens: <stdin>: $1"* && $line != *$'\n'* ]] || [ "$1: $line" = 'out of memory: wat_tokens: out of memory' ]
    else
        [ "$line" = "wat_tokens: $1" ]
    fi
}

# failed_with MESSAGE BYTES: succeeds if the run ended with this line and status 2, after BYTES bytes of its output
failed_with() {
    [ "$(cat "$room/status")" = 2 ] && says "$1" \
        && head -c "$2" "$room/whole_output" | cmp -s - "$room/output"
}

fault() {
    echo "fault_injection.sh: $*: status $(cat "$room/status"), $(head -1 "$room/errors")"
    faults=$((faults + 1))
}

# count: sets the numbers of allocations, reads and writes of the last run
count() {
    # shellcheck disable=SC1091
    . "$room/counts"
    if [ "$requests" = 0 ] || [ "$reads" = 0 ]; then
        fault "${words[*]}: nothing is counted"
    fi
}

# first: prints the index of the first allocation that is failed
first() {
    echo $((library ? library + ${#words[@]} + 1 : 1))
}

# refuse_each VARIABLE=N..: fails each allocation alone, and each allocation with all later ones, in runs with these variables
refuse_each() {
    local n
    for ((n = $(first); n <= requests; n++)); do
        run "$@" "REFUSE_AT=$n"
        is_whole || failed_with 'out of memory' 0 || fault "${words[*]}, $*, request $n refused"
        run "$@" "REFUSE_FROM=$n"
        failed_with 'out of memory' 0 || fault "${words[*]}, $*, requests from $n on refused"
    done
}

# fail_each VARIABLE COUNT MESSAGE BYTES: fails each of COUNT reads or writes of one byte, alone and together with each allocation
fail_each() {
    local n m
    for ((n = 1; n <= $2; n++)); do
        run MOST=1 "$1=$n"
        failed_with "$3" $(($4 * (n - 1))) || fault "${words[*]}, $1=$n"
        for ((m = $(first); m <= requests; m++)); do
            run MOST=1 "$1=$n" "REFUSE_AT=$m"
            failed_with "$3" $(($4 * (n - 1))) || failed_with 'out of memory' 0 || fault "${words[*]}, $1=$n, request $m refused"
        done
    done
}

# refuse STATUS TEXT ARGUMENT..: runs the arguments on the text, which must end with this status without failures; then fails each allocation
refuse() {
    local status=$1
    printf %s "$2" > "$room/text"
    shift 2
    words=("$@")
    run MOST=0
    [ "$(cat "$room/status")" = "$status" ] || fault "${words[*]} does not end with $status"
    for file in output errors status; do
        mv "$room/$file" "$room/whole_$file"
    done
    count
    refuse_each MOST=0
}

tell() {
    printf '%-28s %8d %6s %6s\n' "${words[*]:-(no words)}" "$requests" "$1" "$2"
}

# requests STATUS TEXT ARGUMENT..: does the runs of `refuse`, and prints their line of the table
requests() {
    refuse "$@"
    tell - -
}

# check STATUS TEXT ARGUMENT..: does the runs of `refuse`, also with one byte a call, fails each read and write, and prints the line of the table
check() {
    refuse "$@"
    run MOST=1
    is_whole || fault "${words[*]}, a byte a call"
    count
    refuse_each MOST=1
    fail_each FAIL_READ "$reads" 'read failed' 0
    fail_each FAIL_WRITE "$writes" 'write failed' 1
    tell "$reads" "$writes"
}

# find_library: finds the number of allocations of the library before those for the arguments
find_library() {
    local n
    words=(--version)
    : > "$room/text"
    run MOST=0
    # shellcheck disable=SC1091
    . "$room/counts"
    for ((n = 1; n <= requests; n++)); do
        run "REFUSE_AT=$n"
        [ "$(cat "$room/status")" -lt 128 ] || library=$((n - 1))
    done
    echo "fault_injection.sh: the library's own requests: $library, and one for each word"
}

# functions COUNT: prints COUNT functions with distinct types
functions() {
    local number digit
    for ((number = 0; number < $1; number++)); do
        printf '(func (param'
        for digit in 0 1 2 3 4 5; do
            printf ' i%d' $((32 << (number >> digit & 1)))
        done
        printf '))'
    done
}

[ -z "${BY_CARGO:-}" ] || find_library 2> /dev/null
printf '%-28s %8s %6s %6s\n' words requests reads writes
check 0 '(@a "x") b'
check 1 'x (;'
check 0 '(@a "x") b' sig a
check 1 'x (@a 1' sig
check 1 'x(;' --json
check 0 'x' --json sig
check 0 'a (; b ;)' blank
check 0 '(module (type (func (param i32) (result i64))))' types
check 1 '(module (func))' types
check 0 '(module (func (export "a") (i32.const 1) drop))' module
check 1 '(module (func frob))' module
check 0 '( a )' fmt
requests 1 '( a )' fmt --check
# The report of a named input does not allocate.
check 1 'x(;' -
requests 1 'x(;' --json list -
requests 1 'x (@a 1' --file - sig
requests 1 'x(;' blank -
requests 1 '(module (func frob))' module -
requests 1 'x(;' fmt
requests 1 'x(;' fmt --check -
check 0 '(@a) x' play look reg=a take parens=1
# shellcheck disable=SC2016
requests 0 '(module (func $foo))'
check 0 ''
requests 0 '(@a "x") b' --json
requests 1 'x (@a 1' --json sig
requests 0 '(@)' play look
requests 0 '(@"bad' play look
requests 0 '("bad' play look
requests 0 "$(functions 34)" module
requests 1 '(@a 1' sig
requests 0 '( @a)' sig
requests 0 'module (@name "m") x' play take look reg=name look unreg=name look unreg=name
requests 0 '(a b' play parens=1 look parens=2
requests 0 'x ;;c' play comment take comment look
requests 0 '(@a (@b) ) x' play reg=b look
requests 0 '(@b) x' play reg=b reg=b unreg=b look unreg=b look
requests 0 '(@) x' play reg= look
requests 0 '(@"b") x' play reg=b look
requests 0 '(@a (b' play reg=a parens=3 look unreg=a look
requests 0 'x (@b "' play take look reg=b look parens=1 look
requests 0 '(a) b' play parens=0 parens=1 parens=1 take take
requests 0 '(a (b) c)' play parens=9 parens=5 look
requests 0 "$(printf '(@a%.0s' {1..10000})" play look
check 2 $'a \377'
echo "fault_injection.sh: $runs runs, each with its whole answer or the line of what failed; $faults faults"
[ "$faults" = 0 ]
