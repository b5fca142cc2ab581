#!/usr/bin/env bash
# Runs the language server of rust/wat-language-server in editors without a window: Neovim, and Emacs with eglot and with lsp-mode, with the sessions
# of tools/test/editors. Each session opens a source text with a lexical error, fixes and formats it, and then a module with an error of the compiler,
# and one in which it goes to a definition; Neovim and lsp-mode also request semantic tokens, for colours, and Neovim symbols, a hover and completions.
# An editor that is not installed is skipped and reported.
#
# usage: tools/test/editors.sh SERVER
set -euo pipefail
server=$(realpath "${1:?usage: tools/test/editors.sh SERVER}")
sessions=$(dirname "$(realpath "$0")")/editors
room=$(mktemp -d)
trap 'rm -rf "$room"' EXIT
faults=0

# wanted NAME BEYOND COLOURS: prints the expected output of the session of an editor, for a text with the character BEYOND; without COLOURS, none are
# expected
wanted() {
    local more=()
    [[ $1 != NVIM* ]] || more=('symbols module $f func 1' 'hover ```wat|(func $f (param $x i32))|```|function 0' 'completion $f')
    wanted_text "$2" "$3"
    printf '%s\n' 'fault 0 wat frob' "${more[@]}" 'definition 14'
}

# wanted_text BEYOND COLOURS: prints the part of it for the first text
wanted_text() {
    printf '%s\n' "fault 1 invalid character in string '\\n' \"open)" 'no fault' ${2:+"colours $2"} "(module ;; é $1" "  (data (; $1é ;) \"open\")" '  (func nop))'
}

# session NAME BEYOND COLOURS COMMAND..: runs a session on a text with the character BEYOND, and compares its output with the expected one
session() {
    local name=$1 beyond=$2 colours=$3
    shift 3
    printf '(module ;; é %s\n( data (; %sé ;) "open)\n( func nop ) )\n' "$beyond" "$beyond" > "$room/a.wat"
    if (cd "$room" && HOME=$room SERVER=$server timeout 300 "$@" a.wat > said 2> errors) && diff <(wanted "$name" "$beyond" "$colours") "$room/said"; then
        echo "editors.sh: $name: as wanted"
    else
        faults=$((faults + 1))
        echo "editors.sh: $name: FAILS: $(tail -n 5 "$room/errors")"
    fi
}

# has_library NAME: succeeds if Emacs has the library
has_library() {
    emacs --batch --eval "(progn (package-initialize) (kill-emacs (if (locate-library \"$1\") 0 1)))" 2> /dev/null
}

# in_emacs LIBRARY BEYOND COLOURS: runs the session of an Emacs library, or reports that it is skipped
in_emacs() {
    if command -v emacs > /dev/null && has_library "$1"; then
        session "$(emacs --version | head -n 1), $1" "$2" "$3" emacs --batch -l "$sessions/$1.el"
    else
        echo "editors.sh: Emacs with $1: left out, as it is not here"
    fi
}

if command -v nvim > /dev/null; then
    session "$(nvim --version | head -n 1)" 😀 '0 1 6 2 0 0 7 7 0 0 1 2 4 2 0 0 5 9 0 0 0 10 6 1 0 1 2 4 2 0 0 5 3 2 0' \
        nvim --headless -u NONE -c "luafile $sessions/neovim.lua"
else
    echo 'editors.sh: Neovim: left out, as it is not here'
fi
in_emacs eglot 😀 ''
# lsp-mode counts columns in characters instead of UTF-16 units.
in_emacs lsp-mode 漢 '0 1 6 2 0 0 7 6 0 0 1 2 4 2 0 0 5 8 0 0 0 9 6 1 0 1 2 4 2 0 0 5 3 2 0'
echo "editors.sh: $faults faults"
[ "$faults" = 0 ]
