#!/usr/bin/env bash
# Runs the first command of README.md in a fresh clone three times: with cargo and its crates, with Rattle's toolchain and no cargo, and with
# neither. The first two must print what README says; the last must fail and say what to install. Prints the seconds of the first two.
#
# usage: [CRATES_FOLDER=FOLDER] tools/test/first_command.sh
set -euo pipefail
top=$(cd "$(dirname "$0")/../.." && pwd)
scratch=$(mktemp -d)
trap 'rm -rf "$scratch"' EXIT
git clone --quiet "$top" "$scratch/clone/wat"
cd "$scratch/clone/wat"

# block LANGUAGE: prints the first block of this language in README.md
block() {
    awk -v fence="^\`\`\`$1\$" '$0 ~ fence { inside = 1; next } inside && /^```$/ { exit } inside' README.md
}

# tools_without NAME..: creates a folder of links to the system's commands, except the given ones
tools_without() {
    local name
    rm -rf "$scratch/bin"
    mkdir "$scratch/bin"
    cp -s /usr/bin/* "$scratch/bin/" 2> /dev/null || true
    for name; do
        rm -f "$scratch/bin/$name"
    done
}

# first_command NAME=VALUE..: runs the command in this environment, and records its output, its messages, its status and its seconds
first_command() {
    local begun=$SECONDS
    status=0
    env "$@" bash -euo pipefail -c "$(block sh)" > "$scratch/output" 2> "$scratch/messages" || status=$?
    seconds=$((SECONDS - begun))
    message=$(head -n 1 "$scratch/messages")
}

# expect_tokens HOW: ends the run unless the command printed the lines of README
expect_tokens() {
    if [ "$status" != 0 ] || ! diff <(block text) "$scratch/output"; then
        cat "$scratch/messages"
        echo "first_command.sh: $1: status $status, or other lines than README's"
        exit 1
    fi
    echo "first_command.sh: $1: $(wc -l < "$scratch/output") lines in $seconds s; $message"
}

# with_cargo: checks the command with cargo, and the crates of CRATES_FOLDER or of a registry
with_cargo() {
    first_command "CARGO_TARGET_DIR=$scratch/target"
    expect_tokens 'with cargo'
}

# with_rattle: checks the command with the toolchain alone
with_rattle() {
    local rt
    rt=$(command -v rt) || { echo 'first_command.sh: with rt alone: skipped: rt is not installed' && return; }
    tools_without cargo rustc rustup
    ln -sf "$rt" "$scratch/bin/rt"
    first_command "PATH=$scratch/bin" CRATES_FOLDER=
    expect_tokens 'with rt alone'
}

# with_neither: checks that the command says what to install
with_neither() {
    tools_without cargo rustc rustup rt
    first_command "PATH=$scratch/bin" CRATES_FOLDER=
    if [ "$status" = 0 ] || ! grep -q 'apt-get install cargo-web' "$scratch/messages"; then
        echo "first_command.sh: with neither: status $status, and no word of what to install"
        exit 1
    fi
    echo "first_command.sh: with neither: status $status; $message"
}

with_cargo
with_rattle
with_neither
echo 'first_command.sh: the first command works with cargo and with rt, and says what to install where neither is there'
