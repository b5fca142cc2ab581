#!/usr/bin/env bash
# Clean-install test: uses a release without a clone, without `rt`, with an empty home and an empty cargo home. Runs the commands of its README in an
# empty folder, the packages' own tests, C programs, the program with its manual page and completions, a Python and a Node project, and the page in a
# browser. A part that can't be run here is skipped and reported.
#
#   CRATES_FOLDER=FOLDER  the crates of rust/Cargo.lock, one folder each: the Rust commands also run with these as the registry
#   CHROMIUM=PROGRAM      the browser; default: `chromium`
#
# usage: tools/release/clean_install.sh DIST
set -euo pipefail
work=$(mktemp -d)
trap 'rm -rf "$work"' EXIT
tools=$(cd "$(dirname "$0")" && pwd)
archive=$(realpath "${1:?usage: tools/release/clean_install.sh DIST}"/wat-*.tar.gz)
crates_folder=${CRATES_FOLDER:+$(realpath "$CRATES_FOLDER")}
chromium=$(command -v "${CHROMIUM:-chromium}" || true)

say() {
    echo "clean_install.sh: $*"
}

fail() {
    say "$*"
    exit 1
}

has() {
    command -v "$1" > /dev/null
}

# timed NAME MOST COMMAND..: runs a command, which must use less than MOST seconds of processor time
timed() {
    local what=$1 most=$2 seconds user system status=0 TIMEFORMAT='%0R %0U %0S'
    shift 2
    { time "$@" > "$work/log" 2>&1 || status=$?; } 2> "$work/times"
    [ "$status" = 0 ] || fail "$what: $(tail -n 20 "$work/log")"
    read -r seconds user system < "$work/times"
    say "$what: $seconds s, $((user + system)) s of processor time"
    [ "$((user + system))" -lt "$most" ] || fail "$what takes $most s of processor time or more"
}

# expect NAME WANTED COMMAND..: compares the output of a command
expect() {
    local what=$1 wanted=$2 said
    shift 2
    said=$("$@" 2>&1) || fail "$what: $said"
    [ "$said" = "$wanted" ] || fail "$what prints: $said"
    say "$what: as wanted"
}

# leave: sets a path without `rt`, and empty homes; the current folder then has only the archive of the release
leave() {
    local name
    export RUSTUP_HOME=${RUSTUP_HOME:-$HOME/.rustup}
    mkdir "$work/bin" "$work/home" "$work/empty" "$work/nothing"
    for name in cargo rustc rustdoc node npm; do
        ! has "$name" || ln -s "$(command -v "$name")" "$work/bin/$name"
    done
    export PATH=$work/bin:/usr/bin:/bin HOME=$work/home CARGO_HOME=$work/home/cargo CARGO_NET_OFFLINE=true
    export npm_config_offline=true npm_config_audit=false npm_config_fund=false npm_config_update_notifier=false
    unset CARGO_TARGET_DIR RUSTFLAGS CRATES_FOLDER
    ! has rt || fail 'rt is on the path'
    cd "$work/empty"
    cp "$archive" .
    tar -xzf "$archive" -C "$work"
    release=$(basename "$archive" .tar.gz)
    readme=$work/$release/README.md
}

# pages: runs the commands of README in the empty folder, and checks the links of all documents
pages() {
    "$tools/release_pages.py" check "$work/$release"
    "$tools/run_document.py" "$readme" || fail 'a command of README is wrong'
    say "$(wc -l < "$release/SHA256SUMS") sums are right"
}

# with_registry: runs README's Rust commands with crates from a registry, like a project with other dependencies. Only the source of the crates
# differs, so nothing is optimized.
with_registry() {
    [ -n "$crates_folder" ] || { say 'Rust with a registry: skipped: CRATES_FOLDER is not set' && return; }
    local registry=$work/registry
    mkdir -p "$registry/home"
    printf '[source.crates-io]\nreplace-with = "folder"\n[source.folder]\ndirectory = "%s"\n' "$crates_folder" > "$registry/home/config.toml"
    tar -xzf "$archive" -C "$registry"
    rm -rf "$registry/$release/rust/.cargo" "$registry/$release/rust/vendor"
    (
        cd "$registry"
        export CARGO_HOME=$registry/home CARGO_PROFILE_RELEASE_LTO=off CARGO_PROFILE_RELEASE_OPT_LEVEL=0
        "$tools/run_document.py" --section Rust --without hello/.cargo/config.toml "$readme"
    ) || fail 'a command of README is wrong with a registry'
}

# rust_packages: runs the tests that the packages contain, a debug build, and the installed program
rust_packages() {
    (cd "$release/rust" && CARGO_TARGET_DIR=$work/target timed "the packages' own tests" 300 cargo test --quiet --locked --workspace)
    say "$(awk '/^test result: / { passed += $4 } END { print passed " tests passed" }' "$work/log")"
    (cd hello && timed 'Rust: first build for debugging' 60 cargo build --quiet)
    expect 'Rust: the program that cargo installs' $'0..1 LParen\n1..2 Keyword\n2..3 RParen' "$CARGO_HOME/bin/wat_tokens" < <(printf '(a)')
}

# c_project: compiles a C program with strict warnings, and also links it with -static
c_project() {
    local folder flags
    folder=$(echo "$release/c/$(uname -m)"-*)
    [ -d "$folder" ] || { say 'C: skipped: the release has no library for this machine' && return; }
    cat > version.c << 'C'
#include "wat.h"

#include <stdio.h>

int main(void) {
    static const char text[] = "(func $f (call $g))";
    struct wat_token tokens[32] = {{0, 0, {0, 0, 0, 0}}};
    const size_t len = sizeof text - 1;
    const struct wat_filled filled = wat_fill((const uint8_t *)text, len, 0, false, false, tokens, 32);
    printf("%zu\n", filled.count);
    return wat_version() == WAT_VERSION && filled.why == WAT_END ? 0 : 1;
}
C
    export PKG_CONFIG_PATH=$folder/lib/pkgconfig
    read -ra flags < <(pkg-config --cflags --libs wat)
    timed 'C: shared, by pkg-config' 20 cc -std=c99 -Wall -Wextra -Wpedantic -Werror -o shared version.c "${flags[@]}"
    expect 'C: a program with the shared library' 11 env LD_LIBRARY_PATH="$folder/lib" ./shared
    read -ra flags < <(pkg-config --static --cflags --libs wat)
    timed 'C: static, by pkg-config' 20 cc -std=c99 -static -o static version.c "${flags[@]}"
    expect 'C: a program with the static library' 11 ./static
    ! has cmake || cmake_libraries "$PWD/$folder"
}

# cmake_libraries FOLDER: links both libraries through their CMake targets, and checks that other versions are not found
cmake_libraries() {
    local name
    mkdir cmake
    cat > cmake/CMakeLists.txt << CMAKE
cmake_minimum_required(VERSION 3.13)
project(versions C)
find_package(wat \${WANTED} REQUIRED)
foreach(name static shared)
    add_executable(by_\${name} ../version.c)
    target_link_libraries(by_\${name} wat::\${name})
endforeach()
CMAKE
    timed 'CMake: configures' 60 cmake -S cmake -B cmake/built -DCMAKE_PREFIX_PATH="$1" -DWANTED="${release#wat-}"
    timed 'CMake: builds' 60 cmake --build cmake/built
    for name in static shared; do
        expect "CMake: a program with wat::$name" 11 "cmake/built/by_$name"
    done
    for name in 0.0.1 0.9 1.0; do
        ! cmake -S cmake -B cmake/rejected -DCMAKE_PREFIX_PATH="$1" -DWANTED="$name" > "$work/log" 2>&1 || fail "CMake accepts version $name"
    done
    say 'CMake: versions 0.0.1, 0.9 and 1.0 are not found'
}

# the_program: checks the program and the files of `share`, as README installs them
the_program() {
    local program=$HOME/.local/bin/wat_tokens share=$HOME/.local/share header body
    [ -x "$program" ] && "$program" --version > "$work/log" || { say 'the program: skipped: the release has none for this machine' && return; }
    body='{"jsonrpc":"2.0","method":"exit"}'
    header="Content-Length: ${#body}"
    printf '%s\r\n\r\n%s' "$header" "$body" | "$HOME/.local/bin/wat_language_server" && fail 'the language server: exits with status 0 without a shutdown'
    [ "${PIPESTATUS[1]}" = 1 ] && say 'the language server: ends as its protocol says'
    described "$program" "$share"
    completed "$share"
    if has man; then
        MANPATH=$share/man man --warnings wat_tokens > "$work/man" 2> "$work/log" && [ ! -s "$work/log" ] || fail "the manual page: $(cat "$work/log")"
        say "the manual page: $(wc -l < "$work/man") lines, no warning"
    fi
}

# help_words PROGRAM: prints the commands and options of --help
help_words() {
    "$1" --help | awk '
        /^[A-Za-z]/ { wanted = tolower($0) ~ /^(commands|options)/ }
        wanted && /^  [a-z]/ { print $1 }
        wanted && /^  -/ { for (i = 1; i <= NF && i <= 2; i++) if ($i ~ /^--?[a-zA-Z]/) { sub(/,$/, "", $i); print $i } }'
}

# described PROGRAM SHARE: checks that the manual page and the completions of each shell have each command and option of --help
described() {
    local words word file
    words=$(help_words "$1")
    for word in list sig play blank types module fmt --json --file --help --version; do
        grep -qx -e "$word" <<< "$words" || fail "--help has no $word"
    done
    for word in $words; do
        for file in man/man1/wat_tokens.1 bash-completion/completions/wat_tokens zsh/site-functions/_wat_tokens fish/vendor_completions.d/wat_tokens.fish; do
            sed 's/\\-/-/g; s/ -s \([a-zA-Z]\)/ -\1/g; s/ -l \([a-z-]*\)/ --\1/g' "$2/$file" | grep -q -e "[^a-z-]$word\([^a-z-]\|$\)" || fail "$file has no $word"
        done
    done
    say "manual page and completions: each has the $(wc -w <<< "$words") words of --help"
}

# completions: prints what is typed, and the only completion that each shell must offer
completions() {
    cat << 'ROWS'
wat_tokens m|module
wat_tokens --js|--json
wat_tokens fmt --d|--diff
wat_tokens fmt --check a.wat --js|--json
wat_tokens play un|unreg=
ROWS
}

# by_bash SHARE LINE: prints what bash offers for a line
by_bash() {
    # shellcheck disable=SC2016
    bash -c 'source "$1"; read -ra COMP_WORDS <<< "$2"; COMP_CWORD=$((${#COMP_WORDS[@]} - 1)); _wat_tokens; printf "%s\n" "${COMPREPLY[@]}"' \
        bash "$1/bash-completion/completions/wat_tokens" "$2"
}

# by_fish SHARE LINE: prints what fish offers for a line
by_fish() {
    # shellcheck disable=SC2016
    fish --no-config -c 'source $argv[1]; complete -C $argv[2]' "$1/fish/vendor_completions.d/wat_tokens.fish" "$2" | cut -f 1
}

# by_zsh SHARE LINE: prints the word that zsh completes on a line after a TAB, in a pseudo-terminal
by_zsh() {
    cat > "$work/complete.zsh" << 'ZSH'
zmodload zsh/zpty
zpty shell zsh -f -i
zpty -w shell "PS1=''; fpath=($1 \$fpath); autoload -U compinit; compinit -D -u; print re''ady"
zpty -r -m shell said "*ready*"
zpty -w -n shell "$2"$'\t'
zpty -w -n shell $'\x01print -r -- \'[\x05]\'\n'
zpty -r -m shell said $'*\n\\[wat_tokens*\\]*'
print -r -- "$said"
ZSH
    timeout 60 zsh -f "$work/complete.zsh" "$1/zsh/site-functions" "$2" | sed -n "s/^\[wat_tokens.* \([^ ]*\) *\].*/\1/p"
}

# completed SHARE: compares the completions of each installed shell, in a folder without files
completed() {
    local shell line wanted said
    for shell in bash fish zsh; do
        has "$shell" || { say "completions for $shell: skipped: no $shell" && continue; }
        while IFS='|' read -r line wanted; do
            said=$(cd "$work/nothing" && "by_$shell" "$1" "$line" < /dev/null) || fail "$shell, $line: no completion"
            [ "$said" = "$wanted" ] || fail "$shell, $line: $said"
        done < <(completions)
        say "completions for $shell: $(completions | wc -l) as wanted"
    done
}

# python_project: installs the wheel in an empty virtual environment, with cffi and numpy of the system, and runs a program
python_project() {
    local said=$'[0 1 5 6] LParen\n8 (module)\ninvalid string escape \'q\': line 1 column 9'
    python3 -m venv --system-site-packages environment
    timed 'Python: pip install' 60 environment/bin/pip install --quiet --no-index "$release"/python/wat_lex-*.whl
    cat > main.py << 'PYTHON'
import wat_lex

rows = wat_lex.tokens("(func $f)")[:4]
print(rows["offset"], wat_lex.KIND_NAMES[rows["kind"][0]])
print(len(wat_lex.compile("(module)")), wat_lex.format("( module )").strip())
try:
    wat_lex.tokens('(data "\\q")')
except wat_lex.LexError as error:
    print(error)
PYTHON
    expect 'Python: a program' "$said" environment/bin/python main.py
}

# node_project: runs a program that uses the npm package
node_project() {
    mkdir node_project
    printf '{ "name": "project", "private": true, "type": "module" }\n' > node_project/package.json
    timed 'Node: npm install' 60 npm install --silent --offline --no-audit --no-fund --prefix node_project "./$release"/npm/wat-lex-*.tgz
    cat > node_project/main.js << 'JS'
import { load, loadSync } from 'wat-lex';

const { tokens, fault } = loadSync().lex('(func "é\u{1f600}" $f)');
console.log(tokens.filter(({ kind }) => kind !== 'Whitespace').map(({ kind, start, end }) => `${start}..${end} ${kind}`).join(' '), fault);
const document = (await load()).open('(module\n( func "é" $f ) )');
document.change(21, 21, 'oo');
console.log(document.text.slice(document.start(9), document.end(9)));
if (process.argv.length > 2) console.log(JSON.stringify(document.format()), (await load()).compile('(module (type (func)))').length);
document.change(16, 17, '\\q');
const { start, line, column, message } = document.fault;
console.log(start, line, column, message);
JS
    local read=$'0..1 LParen 1..5 Keyword 6..11 String 12..14 Id 14..15 RParen null\n$foo' formatted=$'\n"(module\\n  (func \\"é\\" $foo))\\n" 14'
    local faulty=$'\n17 1 9 invalid string escape \'q\''
    expect 'Node: a program, no flag' "$read$faulty" node node_project/main.js
    if grep -qa wat_page_room node_project/node_modules/wat-lex/wat_lex.wasm; then
        expect 'Node: formatted text and a binary module' "$read$formatted$faulty" node node_project/main.js formatted
    else
        say "Node: formatted text and binary modules: skipped: the package's module is that of Rattle's compiler"
    fi
}

# the_page: opens the page from the disk, in two widths, and checks that its first text is lexed to the end
the_page() {
    local width said
    for width in 360 1200; do
        said=$("$chromium" --headless --no-sandbox --disable-gpu --disable-dev-shm-usage --no-first-run --user-data-dir="$work/profile" \
            --window-size="$width,900" --virtual-time-budget=20000 --dump-dom "file://$PWD/$release/page/wat.html" 2> "$work/log") || fail "the page: $(cat "$work/log")"
        grep -q 'data-ready="yes"' <<< "$said" && grep -q '>No lexical error\.<' <<< "$said" && grep -q 'class="Keyword"' <<< "$said" \
            || fail "the page, $width pixels: $(grep -o '<span id="report".*' <<< "$said" | head -c 400)"
        say "the page in $("$chromium" --version 2> /dev/null), $width pixels: read, in colours"
    done
}

# part NAME FILES COMMAND PROGRAM..: runs a part if the release has its files, and its programs are installed
part() {
    local what=$1 files=$2 command=$3 name
    shift 3
    compgen -G "$files" > "$work/found" || { say "$what: skipped: the release has no $files" && return; }
    for name in "$@"; do
        [ -n "$name" ] && has "$name" || { say "$what: skipped: no ${name:-browser}" && return; }
    done
    "$command"
}

leave
has cargo || fail 'no cargo'
pages
with_registry
part "the packages' own tests" "$release/rust/Cargo.toml" rust_packages cargo
part 'C' "$release/c/*/lib" c_project cc pkg-config
part 'the program' "$release/bin/*" the_program
part 'Python' "$release/python/*.whl" python_project python3
part 'Node' "$release/npm/*.tgz" node_project node npm
part 'the page' "$release/page/wat.html" the_page "$chromium"
say "all ran as wanted, in $SECONDS s"
