#!/usr/bin/env bash
# Proves and builds the program, and runs it: its exit status, standard output and standard error must equal those written here. These are the runs
# that tests/runs.txt cannot hold, since they need pipes, closed or full streams, terminals, less memory, or files that change, and help and version.
# An input that is too long is left out, since it needs 4 GiB of memory; a test in rust/wat-tokens/tests/outcomes.rs checks its report and status.
#
# usage: tools/test/program.sh [PROGRAM]
# If BY_CARGO is set, the program is the one built with cargo, and a closed standard input is empty: Rust's standard library opens /dev/null instead.
set -eu
cd "$(dirname "$0")/../.."
program=$(realpath "${1:-$(tools/release/build_program.sh wat_tokens)}")
top=$PWD
room=$(mktemp -d)
trap 'rm -rf "$room"' EXIT
runs=0
differences=0

# compare FILE NAME: compares a file that the run wrote with the expected one
compare() {
    if ! cmp -s "$room/wanted_$1" "$room/$1"; then
        echo "$2: $1 is not as it must be:"
        diff "$room/wanted_$1" "$room/$1" || true
        differences=$((differences + 1))
    fi
}

# expect NAME STATUS OUTPUT ERRORS COMMAND..: runs the command on the script's input; `output` may name another file for the output
expect() {
    local name=$1 got=0
    printf '%s\n' "$2" > "$room/wanted_status"
    printf '%b' "$3" > "$room/wanted_output"
    printf '%b' "$4" > "$room/wanted_errors"
    shift 4
    : > "$room/output"
    "$@" > "${output:-$room/output}" 2> "$room/errors" || got=$?
    echo "$got" > "$room/status"
    runs=$((runs + 1))
    compare status "$name"
    compare output "$name"
    compare errors "$name"
}

# fault_in MESSAGE FILE COLUMN LINE MARGIN: prints the report of an error in line 1 of a file; MARGIN precedes the marker
fault_in() {
    printf '%s\\n     --> %s:1:%s\\n      |\\n    1 | %s\\n      | %s^\\n' "$@"
}

# headed NAME LINES..: prints the lists of several files, each after a line with its name
headed() {
    local gap=''
    while [ $# -gt 0 ]; do
        printf '%s==> %s <==\\n%s' "$gap" "$1" "$2"
        gap='\n'
        shift 2
    done
}

# unread NAME STATUS ERRORS COMMAND..: runs the command on the script's input, with a pipe as output whose reading end is closed
unread() {
    local name=$1 status=$2 errors=$3
    shift 3
    expect "$name, to a pipe that nobody reads" "$status" '' "$errors" python3 -c '
import os, subprocess, sys
reader, writer = os.pipe()
os.close(reader)
sys.exit(subprocess.run(sys.argv[1:], stdout=writer, check=False).returncode % 256)' "$@"
}

# expect_closed NAME ERRORS COMMAND..: runs the command with a closed standard input
expect_closed() {
    local name=$1 errors=$2 empty
    shift 2
    if [ -z "${BY_CARGO:-}" ]; then
        expect "$name" 2 '' "$errors" "$@" <&-
    else
        empty=$("$@" < /dev/null)
        expect "$name" 0 "${empty:+$empty\n}" '' "$@" <&-
    fi
}

usage='usage: wat_tokens [--allow-confusing] [--strict-underscores] [sig NAME.. | play CALL..]\n'

# failures ARGUMENT..: expects one line for each failure of input, output or memory, with any arguments of the specified interface
failures() {
    expect "a folder: $*" 2 '' 'wat_tokens: read failed\n' "$program" "$@" < /
    expect_closed "no input: $*" 'wat_tokens: read failed\n' "$program" "$@"
    output=/dev/full expect "no room: $*" 2 '' 'wat_tokens: write failed\n' "$program" "$@" < <(printf x)
    unread "the words $*" 2 'wat_tokens: write failed\n' "$program" "$@" < <(printf x)
    # shellcheck disable=SC2016
    expect "no memory: $*" 2 '' 'wat_tokens: out of memory\n' \
        bash -c 'ulimit -v 100000; exec "$0" "$@"' "$program" "$@" < <(head -c 200000000 /dev/zero)
}
for options in '' --allow-confusing --strict-underscores '--allow-confusing --strict-underscores' '--strict-underscores --allow-confusing'; do
    for words in '' sig 'sig --name x' 'play look'; do
        # shellcheck disable=SC2086
        failures $options $words
    done
done
output=/dev/full expect 'no lines' 0 '' '' "$program" < /dev/null
yes '(' | head -n 40000 > "$room/long"
# shellcheck disable=SC2016
expect 'a pipe that is closed early' 2 '0' 'wat_tokens: write failed\n' \
    bash -c 'set -o pipefail; "$0" < "$1" | head -c 1' "$program" "$room/long" < /dev/null
# shellcheck disable=SC2016
expect 'sig, a pipe that is closed early' 2 '0' 'wat_tokens: write failed\n' \
    bash -c 'set -o pipefail; "$0" sig < "$1" | head -c 1' "$program" "$room/long" < /dev/null

# shellcheck disable=SC2016
expect 'the input is left' 2 'rest' "$usage" bash -c '"$0" play Look; status=$?; cat; exit $status' "$program" < <(printf rest)

# Extensions of the specified interface.
output=/dev/full expect 'json, no room' 2 '' 'wat_tokens: write failed\n' "$program" --json < <(printf x)
output=/dev/full expect 'json, sig, no room' 2 '' 'wat_tokens: write failed\n' "$program" --json sig < <(printf x)
unread json 2 'wat_tokens: write failed\n' "$program" --json < <(printf x)
unread list 2 'wat_tokens: write failed\n' "$program" list < <(printf x)
expect 'list, a folder' 2 '' 'wat_tokens: read failed\n' "$program" list < /
output=/dev/full expect 'blank, no room' 2 '' 'wat_tokens: write failed\n' "$program" blank < <(printf x)
output=/dev/full expect 'types, no room' 2 '' 'wat_tokens: write failed\n' "$program" types < <(printf '(module)')
output=/dev/full expect 'module, no room' 2 '' 'wat_tokens: write failed\n' "$program" module < <(printf '(module)')
unread blank 2 'wat_tokens: write failed\n' "$program" blank < <(printf x)

# Files.
mkdir "$room/here"
cd "$room/here"
printf x > a
printf 'ab\377' > bytes
: > empty
word='0..1 Keyword\n'
output=/dev/full expect 'a file, no room' 2 '' 'wat_tokens: a: write failed: no space left on device\n' "$program" a < /dev/null
output=/dev/full expect 'a second file, no room' 2 '' 'wat_tokens: empty: write failed: no space left on device\n' "$program" empty a < /dev/null
output=/dev/full expect 'blank, a file, no room' 2 '' 'wat_tokens: a: write failed: no space left on device\n' "$program" blank a < /dev/null
unread 'a file' 0 '' "$program" a < /dev/null
unread 'blank, a file' 0 '' "$program" blank a < /dev/null
unread 'sig, a file' 0 '' "$program" --file a sig < /dev/null
mkfifo once
printf x > once &
expect 'a file that can be opened once' 0 "$(headed once "$word" a "$word")" '' timeout 10 "$program" list once a < /dev/null
rm once

# A module written to a file: the file is written if the text compiles, and otherwise stays as it is.
# expect_module NAME STATUS ERRORS TEXT ARGUMENT..: runs arguments that write the module of a text to the file `made`, and compares it with `module`
expect_module() {
    local name=$1 status=$2 errors=$3 text=$4
    shift 4
    expect "$name" "$status" '' "$errors" "$program" "$@" < <(printf %s "$text")
    printf '%b' "$module" > "$room/wanted_output"
    cp made "$room/output"
    compare output "$name"
}
module='\0asm\01\0\0\0'
printf '(module)' > module.wat
expect_module 'module, into a file' 0 '' '' module module.wat -o made
module='\0asm\01\0\0\0\01\04\01`\0\0'
expect_module 'types, into a file that is there' 0 '' '(module (type (func)))' types --output made
expect_module 'module, into a file, refused' 1 "$(fault_in 'unknown module field `frob`' '<stdin>' 10 '(module (frob))' '         ')" '(module (frob))' -o made module
expect_module 'module, into a file, no such file' 2 'wat_tokens: none: open failed: no such file or directory\n' '' module none -o made
expect_module 'module, into a file, no UTF-8' 2 'wat_tokens: bytes: input is not UTF-8 at byte 2\n' '' module -o made bytes
expect 'module, into a file, no room' 2 '' 'wat_tokens: /dev/full: write failed: no space left on device\n' "$program" module module.wat -o /dev/full < /dev/null
rm made module.wat

# The report of an error in a line of more than 500 characters has a part of the line, except for standard input.
# letters LETTER COUNT: prints a letter COUNT times
letters() {
    head -c "$2" /dev/zero | tr '\0' "$1"
}
# expect_part NAME LIST BEFORE AFTER COLUMN LINE MARGIN: lists a file that has the text BEFORE, an é, and the text AFTER
expect_part() {
    printf '%s' "$3é$4" > long.wat
    expect "$1" 1 "$2" "$(fault_in "unexpected character '\\\\u{e9}'" long.wat "$5" "$6" "$7")" "$program" long.wat < /dev/null
}
expect_part 'a line of 500 characters' '0..497 Keyword\n497..498 Whitespace\n' "$(letters x 497) " y 499 "$(letters x 497) éy" "$(letters ' ' 498)"
expect_part 'the start of a long line' '' '' "$(letters y 500)" 1 "é$(letters y 499)..." ''
expect_part 'column 250 of a long line' '0..248 Keyword\n248..249 Whitespace\n' "$(letters x 248) " "$(letters y 251)" 250 \
    "$(letters x 248) é$(letters y 250)..." "$(letters ' ' 249)"
expect_part 'the middle of a long line' '0..700 Keyword\n700..701 Whitespace\n' "$(letters x 700) " "$(letters y 900)" 702 \
    "...$(letters x 248) é$(letters y 250)..." "$(letters ' ' 252)"
expect_part 'the end of a long line' '0..700 Keyword\n700..701 Whitespace\n' "$(letters x 700) " '' 702 "...$(letters x 248) é" "$(letters ' ' 252)"
expect 'a long line of standard input' 1 '' "$(fault_in "unexpected character '\\\\u{e9}'" '<anon>' 1 "é$(letters y 2000)" '')" "$program" \
    < <(printf '%s' "é$(letters y 2000)")
rm long.wat

# terminal WORDS..: runs the program on a module, with a terminal as standard output and as standard error
terminal() {
    printf '(module)' | python3 -c '
import os, pty, subprocess, sys
reader, writer = pty.openpty()
done = subprocess.run(sys.argv[1:], stdout=writer, stderr=writer, check=False)
os.close(writer)
sys.stdout.buffer.write(os.read(reader, 1000))
sys.exit(done.returncode)' "$program" "$@"
}
terminal_line='wat_tokens: standard output is a terminal; -o FILE writes to a file\r\n'
expect 'module, to a terminal' 2 "$terminal_line" '' terminal module
expect 'types, to a terminal' 2 "$terminal_line" '' terminal types -
expect 'module, to a terminal by its name' 0 '\0asm\01\0\0\0' '' terminal module -o -
expect 'blank, to a terminal' 0 '(module)' '' terminal blank

# Standard input given by name.
expect 'standard input, named, a folder' 2 '' 'wat_tokens: <stdin>: read failed: is a directory\n' "$program" - < /
expect_closed 'standard input, named, none' 'wat_tokens: <stdin>: read failed: bad file descriptor\n' "$program" -
output=/dev/full expect 'standard input, named, no room' 2 '' 'wat_tokens: <stdin>: write failed: no space left on device\n' "$program" - < <(printf x)
unread 'standard input, named' 0 '' "$program" - < <(printf x)
cd "$top"

# Help and version.
help=$("$program" --help | sed 's/\\/\\\\/g')
case $help in
*usage:*'sig NAME..'*'reg=NAME'*examples:*) ;;
*) echo 'the help is not as it must be' && differences=$((differences + 1)) ;;
esac
expect 'help' 0 "$help\n" '' "$program" --help < /dev/null
expect 'help, short' 0 "$help\n" '' "$program" -h sig < /dev/null
expect 'help, a word' 0 "$help\n" '' "$program" help < /dev/null
expect 'help, after options' 0 "$help\n" '' "$program" --json list help < /dev/null
version=$(sed -n 's/^version = "\(.*\)"/\1/p' rust/Cargo.toml)
expect 'version' 0 "wat_tokens $version, of wast 263.0.0\n" '' "$program" --version < /dev/null
expect 'version, short' 0 "wat_tokens $version, of wast 263.0.0\n" '' "$program" -V < /dev/null
output=/dev/full expect 'help, no room' 2 '' 'wat_tokens: write failed\n' "$program" --help < /dev/null

if [ "$differences" -ne 0 ]; then
    echo "program.sh: $differences differences in $runs runs"
    exit 1
fi
echo "program.sh: $runs runs, each as it must be"
