#!/usr/bin/env bash
# Builds the whole crate wast 222.0.0 over its own lowest layer, that of 263.0.0, and over this project's, without changing a line above, and compares
# the results of both on the same source texts: bytes, trees with spans, printed errors. Each is built twice: ours also with buffers that cache
# visible tokens as wast does (`ParseBuffer::keep_shown`), theirs also without that cache. Ours must equal theirs without a cache, and ours with a
# cache must equal theirs; the numbers of differences between ours and theirs are printed. Then differential fuzzing calls both lowest layers directly
# (tools/differential/drop_in/plays), under the same rule.
#
# The drivers are left as WORK/ours/target/release/driver and WORK/theirs/target/release/driver, and in WORK/kept and WORK/fresh. FOLDER contains
# workspace.sh, which unpacks wast 222.0.0 over the layer of 263.0.0, and edge.sh, which writes edge-case texts. CRATES is a folder with the crates
# that rust/wat-lex depends on (memchr, smallvec, unicode-width), one folder each.
#
# MUTANTS, 20,000 by default, is the number of mutated texts and of plays.
#
# usage: CRATES_FOLDER=CRATES tools/differential/drop_in.sh FOLDER WORK [MUTANTS]
set -eu -o pipefail
folder=$(cd "$1" && pwd)
mkdir -p "$2"
work=$(cd "$2" && pwd)
crates=$(cd "${CRATES_FOLDER:?a folder with the crates memchr, smallvec and unicode-width}" && pwd)
mutants=${3:-20000}
cd "$(dirname "$0")/../.."
project=$PWD
layer=(encode error gensym lexer lib parser token)

say() {
    echo "drop_in.sh: $*"
}

# unpack NAME: creates a fresh workspace of wast over its own lowest layer; keeps its earlier build
unpack() {
    local target=$work/$1/target
    [ ! -d "$target" ] || mv "$target" "$work/$1.target"
    rm -rf "${work:?}/$1"
    bash "$folder/workspace.sh" "$work/$1"
    local crate vendor=$work/$1/upper/vendor
    for crate in "$crates"/*/; do
        [ -d "$vendor/$(basename "$crate")" ] || cp -r "$crate" "$vendor/"
    done
    [ ! -d "$work/$1.target" ] || mv "$work/$1.target" "$target"
}

# ours NAME: creates a workspace of wast over this project's lowest layer
ours() {
    unpack "$1"
    local wast=$work/$1/wast module
    for module in "${layer[@]}"; do
        rm "$wast/src/$module.rs"
    done
    cp -r rust/wat-parser/src/. tools/differential/drop_in/lib.rs "$wast/src/"
    # Renames the crate in the examples of the documentation.
    sed -i 's/^\( *\/\/\/ .*\)wat_parser::/\1wast::/' "$wast/src/parser.rs" "$wast"/src/parser/*.rs
    # Adds the keywords that 222.0.0 has and 263.0.0 dropped.
    sed -n 's/^+ *\(custom_keyword!.*\)/\1/p' "$folder/lib-263-to-222.diff" >> "$wast/src/kw.rs"
    sed -i "s|^\[features\]|[dependencies.wat-lex]\npath = \"$project/rust/wat-lex\"\n\n[features]|" "$wast/Cargo.toml"
}

# unchanged NAME: fails if a file above the lowest layer differs from wast's
unchanged() {
    local path changed=0 above=0
    while IFS= read -r path; do
        case " ${layer[*]} " in
            *" ${path%.rs} "*) continue ;;
        esac
        above=$((above + 1))
        cmp -s "$work/$1/upper/wast-222.0.0/src/$path" "$work/$1/wast/src/$path" || changed=$((changed + 1))
    done < <(cd "$work/$1/upper/wast-222.0.0/src" && find . -name '*.rs' -printf '%P\n')
    say "$1: $changed of $above files above the lowest layer changed"
    [ "$changed" = 0 ]
}

# build NAME: builds the driver of a workspace
build() {
    (cd "$work/$1" && cargo build --offline --release --quiet -p driver)
}

# answers NAME: prints the driver's results for all texts, a line for each question
answers() {
    local driver=$work/$1/target/release/driver texts=("$work"/texts/*)
    "$driver" files "${texts[@]}" | sed 's/^/plain\t/'
    "$driver" files --allow "${texts[@]}" | sed 's/^/allow\t/'
    "$driver" mutants "$each" "$work"/tests/* | sed 's/^/mutant\t/'
}

# different ONE OTHER KIND: prints the number of results of a kind that differ
different() {
    diff -a <(grep -a "^$3" "$work/$1.answers") <(grep -a "^$3" "$work/$2.answers") | grep -ac '^<' || true
}

# plays NAME [keep]: compares random calls of this wast's lowest layer with ours; with `keep`, our buffers cache visible tokens
plays() {
    local at=$work/$1/plays
    rm -rf "$at/src"
    mkdir -p "$at"
    cp -r tools/differential/drop_in/plays/. "$at/"
    sed -i "s|\"WAST\"|\"$work/$1/wast\"|; s|\"WAT_PARSER\"|\"$project/rust/wat-parser\"|" "$at/Cargo.toml"
    (cd "$at" && cargo build --offline --release --quiet)
    local answer status=0
    answer=$("$at/target/release/plays" "$mutants" "${@:2}") || status=$?
    say "$*: $answer"
    return "$status"
}

unpack theirs
unpack fresh
# Disables the cache: the token that an earlier peek found is looked up again.
sed -i 's/^\( *\)Some(token) => Ok(Some(token)),$/\1Some(_) => self.parser.buf.advance_token(self.pos.offset),/' "$work/fresh/wast/src/parser.rs"
ours ours
ours kept
# Enables the cache also in buffers that wast creates above.
sed -i 's/^\( *\)keep_shown: false,$/\1keep_shown: true,/' "$work/kept/wast/src/parser/buffer.rs"
! cmp -s "$work/ours/wast/src/parser/buffer.rs" "$work/kept/wast/src/parser/buffer.rs"
unchanged ours
unchanged kept
for name in theirs fresh ours kept; do
    build "$name"
done
(cd "$work/ours" && cargo test --offline --release -p wast) > "$work/tests.log" 2>&1 || {
    tail -40 "$work/tests.log"
    exit 1
}
say "tests of wast over ours: $(grep -Eo '[0-9]+ passed; [0-9]+ failed' "$work/tests.log" | tr '\n' ',')"

rm -rf "$work/texts" "$work/tests"
mkdir "$work/texts" "$work/tests"
cp "$work"/theirs/wast/tests/parse-fail/*.wat "$work/tests/"
cp "$work"/tests/* "$work/texts/"
bash "$folder/edge.sh" "$work/texts"
for text in crates/wat_tokens/agreement/*; do
    case $text in
        *.stdout | *.args) ;;
        *) cp "$text" "$work/texts/" ;;
    esac
done
# Some mutated texts are not UTF-8, so more than MUTANTS are generated.
each=$((mutants * 5 / 4 / $(find "$work/tests" -type f | wc -l) + 1))
for name in theirs fresh ours kept; do
    answers "$name" > "$work/$name.answers"
done
for pair in 'ours theirs' 'ours fresh' 'kept theirs'; do
    read -r one other <<< "$pair"
    for kind in plain allow mutant; do
        say "$one and $other: $(different "$one" "$other" "$kind") of $(grep -ac "^$kind" "$work/$other.answers") answers differ ($kind)"
    done
done
cmp "$work/ours.answers" "$work/fresh.answers"
cmp "$work/kept.answers" "$work/theirs.answers"
plays fresh
plays theirs keep
if cmp -s "$work/ours.answers" "$work/theirs.answers"; then
    say 'no answer shows that theirs keeps what was shown: the texts are not those that they should be'
    exit 1
fi
