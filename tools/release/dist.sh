#!/usr/bin/env bash
# Writes a release of HEAD to a folder, from committed files alone: the packages for Rust, the program, the C library and the Python package for this
# machine, the npm package, the page, the guides, and a report of the sources and the compiler of each file. A second run writes the same bytes. A part that can't be
# built here is skipped, and the report states the reason. docs/releasing.md describes the folder.
#
#   CRATES_FOLDER=FOLDER  the crates that cargo needs, one folder each, if no registry is available
#   WASM_CARGO=COMMAND    as for page/build.sh
#   PROOF_LOG=FILE         the log that tools/release/proof_check.sh wrote for this commit; the release includes it, and the verdict for each crate
#   BY=rattle             also archives for C built by Rattle's compilers, for x86-64-v2 and AArch64, with the proofs that exist in `crates`
#
# usage: tools/release/dist.sh OUT
set -euo pipefail
shopt -s inherit_errexit
export LC_ALL=C TZ=UTC
top=$(cd "$(dirname "$0")/../.." && pwd)
. "$top/tools/lib/python.sh"
out=$(realpath -m "${1:?usage: tools/release/dist.sh OUT}")
work=$(mktemp -d)
trap 'rm -rf "$work"' EXIT
source=$work/source made=$work/dist
crates_folder=${CRATES_FOLDER:+$(realpath "$CRATES_FOLDER")}
proof_log=${PROOF_LOG:+$(realpath -m "$PROOF_LOG")}

say() {
    echo "dist.sh: $*"
}

die() {
    say "$*" >&2
    exit 1
}

has() {
    command -v "$1" > /dev/null
}

# skip PART REASON: reports that the release lacks a part
skip() {
    say "$1: skipped: $2"
    echo "Skipped: $1: $2." >> "$work/skipped"
}

# record FILE.. -- TEXT: records the sources and the compiler of files
record() {
    local files=()
    while [ "$1" != -- ]; do
        files+=("${1#"$made"/}") && shift
    done
    printf '%s\n  %s\n' "${files[*]}" "$2" >> "$work/built"
}

# from_folder FOLDER: prints the settings with which cargo loads its crates from a folder
from_folder() {
    printf '[source.crates-io]\nreplace-with = "folder"\n[source.folder]\ndirectory = "%s"\n[net]\noffline = true\n' "$1"
}

# crate_names: prints the names of crates.txt
crate_names() {
    sed -n 's/^\([a-z0-9_]*\)[ :].*/\1/p' "$top/crates.txt"
}

# check_proof_log: ends the run unless the log is one of HEAD, says that all checks passed, and has a proof of each crate
check_proof_log() {
    local name
    [ -f "$proof_log" ] || die "PROOF_LOG: there is no file $proof_log"
    [ "$(head -n 1 "$proof_log")" = "commit $(git -C "$top" rev-parse HEAD)" ] || die 'PROOF_LOG is of another commit, or of none'
    [[ $(tail -n 1 "$proof_log") == *' passed, 0 failed' ]] || die 'PROOF_LOG is not of a run that passed'
    for name in $(crate_names); do
        grep -qx "rt: $name proved" "$proof_log" || die "PROOF_LOG has no proof of $name"
    done
}

# verdicts: prints the name of each crate and the log's last verdict for its proof
verdicts() {
    awk '/^== / { name = /: its tests$/ ? "" : $2 } /^logic=/ && name { print "  " name ": " $0; name = "" }' "$proof_log"
}

# take_crates: copies the crates of Cargo.lock to $work/crates. `cargo vendor` counts files that git tracks, so it gets a copy outside of git.
take_crates() {
    if [ -n "$crates_folder" ]; then
        mkdir -p "$work/given" "$work/given_home"
        cp -r "$crates_folder"/*/ "$work/given/"
        chmod -R u+w "$work/given"
        from_folder "$work/given" > "$work/given_home/config.toml"
        export CARGO_HOME=$work/given_home
    fi
    (cd rust && cargo vendor --locked --quiet --versioned-dirs --respect-source-config "$work/crates" > /dev/null)
}

# prepare: clones HEAD, and creates a cargo home whose only crates are those of Cargo.lock. rustc writes no path of either into its output.
prepare() {
    [ -z "$proof_log" ] || check_proof_log
    git clone --quiet "$top" "$source"
    cd "$source"
    [ -z "$(git -C "$top" status --porcelain)" ] || say 'what is not committed is not in the release'
    mkdir -p "$made/proof" "$work/home"
    [ -z "$proof_log" ] || cp "$proof_log" "$made/proof/proof.log"
    take_crates
    mkdir -p "$made/rust"
    cp -r "$work/crates" "$made/rust/vendor"
    from_folder "$work/crates" > "$work/home/config.toml"
    export CARGO_HOME=$work/home CARGO_TARGET_DIR=$work/target
    export RUSTFLAGS="--remap-path-prefix=$work/crates=crates --remap-path-prefix=$source=wat"
    version=$(sed -n 's/^version = "\(.*\)"/\1/p' rust/Cargo.toml)
    host=$(rustc -vV | sed -n 's/^host: //p')
    compiler=$(rustc --version)
    commit=$(git rev-parse HEAD)
}

# package NAME: builds a package from its .crate file alone, as a registry distributes it; later packages find it among the crates
package() {
    local crate=$work/target/package/$1-$version.crate folder=$work/crates/$1-$version
    (cd rust && cargo package --quiet --locked --package "$1" --registry crates-io)
    tar -xzf "$crate" -C "$work/crates"
    printf '{"files":{},"package":"%s"}' "$(sha256sum "$crate" | cut -d ' ' -f 1)" > "$folder/.cargo-checksum.json"
    install -D -m 644 -t "$made/crates" "$crate"
    record "$made/crates/$1-$version.crate" -- "the sources of rust/$1; built here by $compiler"
}

# workspace_files NAME: prints the files of a package of the workspace
workspace_files() {
    (cd rust && cargo package --quiet --list --package "$1") | grep -vxE 'Cargo\.lock|Cargo\.toml\.orig|\.cargo_vcs_info\.json' | sed "s|^|$1/|"
}

# workspace: writes the packages as a workspace with its crates in `vendor`, so that a project can use each by its path, without a registry
workspace() {
    local name
    for name in $(sed -n '/^members/s/[^"]*"\([^"]*\)"[^"]*/\1 /gp' rust/Cargo.toml); do
        workspace_files "$name" | tar -C rust -cf - -T - | tar -C "$made/rust" -xf -
    done
    cp rust/Cargo.toml rust/Cargo.lock "$made/rust/"
    mkdir "$made/rust/.cargo"
    printf '[source.crates-io]\nreplace-with = "vendor"\n[source.vendor]\ndirectory = "vendor"\n' > "$made/rust/.cargo/config.toml"
    record "$made/rust" -- "the sources of rust; in rust/vendor the crates of Cargo.lock, as cargo vendor copies them"
}

crates() {
    local name
    for name in wat-lex wat-parser wat-modules wat-format wat-tokens wat-language-server; do
        package "$name"
    done
    workspace
}

program() {
    has make || { skip 'the program' 'no make' && return; }
    env -u MAKEFLAGS CARGO_PROFILE_RELEASE_STRIP=symbols make --silent install-program PREFIX="$made" BINDIR="$made/bin/$host" CARGO='cargo --quiet'
    record "$made/bin/$host/wat_tokens" "$made/bin/$host/wat_language_server" -- "rust/wat-tokens and rust/wat-language-server, by $compiler"
    record "$made/share" -- 'rust/wat-tokens/man and rust/wat-tokens/completions'
}

# declared: prints the names of the functions of the header
declared() {
    sed -n '/static/d; s/^[a-z].*\(wat_[a-z0-9_]*\)(.*/\1/p' include/wat.h | sort
}

# one_object TO ARCHIVE..: writes an archive of one object, with all code that the header's functions reach, and no other global names
one_object() {
    local to=$1 roots
    shift
    declared > "$work/declared"
    mapfile -t roots < <(sed 's/^/--undefined=/' "$work/declared")
    "${TOOLS:-}ld" -r --gc-sections "${roots[@]}" -o "$work/all.o" "$@"
    "${TOOLS:-}objcopy" --strip-unneeded --keep-global-symbols="$work/declared" "$work/all.o" "$work/wat.o"
    rm -f "$to"
    "${TOOLS:-}ar" rcsD "$to" "$work/wat.o"
    "${TOOLS:-}nm" --defined-only --extern-only "$to" | awk 'NF == 3 { print $3 }' | sort | cmp - "$work/declared"
}

# c_folder FOLDER [LIBRARIES]: writes the header, and descriptions that find the libraries relative to their own location; the archive needs LIBRARIES
c_folder() {
    # shellcheck disable=SC2016
    env -u MAKEFLAGS make --silent install-descriptions DESTDIR='' PREFIX="$1" PKG_PREFIX='$${pcfiledir}/../..' PRIVATE="${2:-}"
}

# check_answers NAME LIBRARY..: compares the results of the C library with golden ones, and its tokens with those of the header's inline functions.
# TOOLS is the prefix of the compiler's name, EMULATOR the command that runs its programs.
check_answers() {
    local name=$1 program said
    shift
    for program in answers tokens; do
        "${TOOLS:+${TOOLS}g}cc" -std=c99 -O2 -Iinclude -o "$work/$program" "tools/test/c/$program.c" "$@"
        said=$(${EMULATOR:-} "$work/$program") || die "$name: $said"
        say "$name: ${said##*$'\n'}"
    done
}

c_library() {
    local folder=$made/c/$host installed=$work/installed/lib
    if [ "$(uname -s)" != Linux ] || ! has make || ! has cc; then
        skip 'the C library by cargo' 'not a Linux with make and cc'
        return
    fi
    env -u MAKEFLAGS make --silent install BY='' DESTDIR="$work" PREFIX=/installed CARGO='cargo --quiet'
    c_folder "$folder" "$(sed -n 's/^Libs.private: //p' "$installed/pkgconfig/wat.pc")"
    cp tools/test/c/identifiers.c tools/test/c/compile.c "$made/c/"
    one_object "$folder/lib/libwat.a" "$installed/libwat.a"
    install -m 755 "$(realpath "$installed/libwat.so")" "$folder/lib/"
    strip --strip-unneeded "$folder"/lib/libwat.so.*
    cp -P "$installed/libwat.so" "$folder/lib/"
    check_answers 'C, static' "$folder/lib/libwat.a"
    check_answers 'C, shared' -L"$folder/lib" -lwat -Wl,-rpath,"$folder/lib"
    record "$folder/lib/libwat.a" "$folder/lib/libwat.so.${version%%.*}" -- "rust/wat-c, by $compiler"
}

# by_rattle KIND TARGET PROCESSOR TOOLS SOURCE..: builds an archive with Rattle's compilers, and with the C files that it needs
by_rattle() {
    local kind=$1 folder=$made/c/$1 target=$2 processor=$3 log=$made/proof/$1.log TOOLS=$4 objects=() name
    shift 4
    (cd crates/wat_c && rt lib --target "$target" --cpu "$processor") > "$log" 2>&1 || die "$kind: $(tail -n 5 "$log")"
    for name in "$@"; do
        "${TOOLS}gcc" -std=c99 -O2 -fPIC -Wall -Wextra -Werror -c -o "$work/$name.o" "tools/test/c/$name.c"
        objects+=("$work/$name.o")
    done
    c_folder "$folder"
    one_object "$folder/lib/libwat.a" "${objects[@]}" crates/wat_c/out/libwat_c.a
    record "$folder/lib/libwat.a" -- "crates/wat_c, by Rattle's compilers ($(rt version)), and $(printf 'tools/test/c/%s.c ' "$@")by $("${TOOLS}gcc" --version | head -n 1)
  $(tail -n 1 "$log")"
}

# take_proofs CRATE..: copies the proofs that exist here, from which `rt lib` uses those that fit, and the licences of the code that it builds
take_proofs() {
    local crate file
    if ! grep -q "^==== Rattle's toolchain" "$made/THIRD-PARTY.txt"; then
        for file in "$(dirname "$(rt doc)")"/rattle/{memchr,smallvec,unicode_width}/LICENSE*; do
            printf "\n==== Rattle's toolchain: %s\n\n" "${file##*/rattle/}" && cat "$file"
        done >> "$made/THIRD-PARTY.txt"
        printf "\n==== Rattle's toolchain: core, std, heap, compilers\n\nNo licence in writing: README.md.\n" >> "$made/THIRD-PARTY.txt"
    fi
    for crate in "$@"; do
        [ ! -d "$top/crates/$crate/out" ] || cp -a "$top/crates/$crate/out" "$source/crates/$crate/"
    done
}

rattle_libraries() {
    [ "${BY:-}" = rattle ] || { skip "archives by Rattle's compilers" 'BY=rattle was not given' && return; }
    has rt || { skip "archives by Rattle's compilers" 'no rt' && return; }
    take_proofs wat_{lex,words,floats,lexer_parser,modules,tokens_io,format,c_records,c} wat_module_{tokens,lexer,ast,instructions,parser,encoder}
    by_rattle rattle-x86_64-v2-linux x86_64-unknown-linux-gnu x86-64-v2 '' heap processor
    check_answers 'C, by Rattle for x86-64-v2' "$made/c/rattle-x86_64-v2-linux/lib/libwat.a"
    if has aarch64-linux-gnu-gcc; then
        by_rattle rattle-aarch64-linux aarch64-unknown-linux-gnu generic aarch64-linux-gnu- heap
        if has qemu-aarch64; then
            TOOLS=aarch64-linux-gnu- EMULATOR='qemu-aarch64 -L /usr/aarch64-linux-gnu' check_answers 'C, by Rattle for AArch64, emulated' "$made/c/rattle-aarch64-linux/lib/libwat.a"
        else
            say 'C, by Rattle for AArch64: not run: no qemu-aarch64'
        fi
    else
        skip "the archive by Rattle's compilers for AArch64" 'no aarch64-linux-gnu-gcc'
    fi
}

# python_package: builds the wheel of the package for Python, with the shared library for C, and tries its first call
python_package() {
    local python library=$made/c/$host/lib/libwat.so.${version%%.*}
    [ -e "$library" ] || { skip 'the package for Python' 'no shared library for C' && return; }
    python=$(python_with cffi numpy setuptools wheel) || { skip 'the package for Python' 'no Python with cffi, numpy, setuptools and wheel' && return; }
    cp "$made/THIRD-PARTY.txt" python/
    SOURCE_DATE_EPOCH=$(git log -1 --format=%ct) WAT_LIBRARY=$library make --silent python/dist PYTHON="$python" > "$work/wheel" 2>&1 || die "$(cat "$work/wheel")"
    install -D -m 644 -t "$made/python" python/dist/*.whl
    record "$made"/python/*.whl -- "python, with $(basename "$library")"
}

# makes_module: succeeds if page/build.sh can build the module without proving the libraries first
makes_module() {
    [ -n "${WASM_CARGO:-}" ] || [ -d "$(rustc --print target-libdir --target wasm32-unknown-unknown)" ] \
        || tools/lib/cargo_with_std.sh --is-here 2> /dev/null && return
    if has rt && has wasm-opt && { [ "${BY:-}" = rattle ] || [ -e "$top/crates/wat_wasm/out/libwat_wasm.a" ]; }; then
        take_proofs wat_lex wat_wasm
        return
    fi
    skip 'the npm package and the page' 'no cargo for wasm32-unknown-unknown, and page/build.sh has not been run with rt and wasm-opt'
    return 1
}

# npm_and_page: builds the npm package, and the page that uses it
npm_and_page() {
    local package=page/out/wat-lex said
    has npm || { skip 'the npm package and the page' 'no npm' && return; }
    makes_module || return 0
    said=$(BY='' page/build.sh 2> "$work/errors") || die "page/build.sh: $(cat "$work/errors")"
    cp "$made/THIRD-PARTY.txt" "$package/"
    mkdir -p "$made/npm"
    (cd "$package" && npm pack --silent --offline --pack-destination "$made/npm" > /dev/null)
    install -D -m 644 page/out/wat.html "$made/page/wat.html"
    record "$made"/npm/*.tgz "$made/page/wat.html" -- "page, with the module ${said##*build.sh: }"
}

# third_parties: writes the licences of the third-party code in the program, the libraries and the module
third_parties() {
    local file library
    library=$(rustc --print sysroot)/share/doc/rust/COPYRIGHT-library.html
    cp LICENSE "$made/"
    {
        echo 'What the program, the libraries for C and the module for JavaScript contain in addition to the code of this project. The files of `crates`'
        echo 'contain none of it; rust/vendor has the crates whole. Only the language server contains serde_json, serde, itoa and ryu.'
        for file in "$work"/crates/{memchr,smallvec,unicode-width,serde_json,serde,itoa,ryu}-*/{LICENSE*,COPYING,COPYRIGHT,UNLICENSE}; do
            [ ! -e "$file" ] || { printf '\n==== %s\n\n' "${file#"$work/crates/"}" && cat "$file"; }
        done
        printf '\n==== The standard library of Rust\n\nMIT or Apache-2.0; COPYRIGHT-library.html of the release, or of Rust, lists its parts.\n'
    } > "$made/THIRD-PARTY.txt"
    [ ! -e "$library" ] || cp "$library" "$made/"
}

# proof: writes the sources and the compiler of each file
proof() {
    local logic
    logic=$(sed -n 's/.*`rt version` prints `\([^`]*\)`.*/\1/p' README.md)
    [ -n "$logic" ] || die 'README.md does not say what `rt version` prints'
    {
        printf 'wat %s, commit %s of %s\nproved sources: crates, git tree %s, for the toolchain whose `rt version` prints `%s`\n' \
            "$version" "$commit" "$(git log -1 --format=%cI)" "$(git rev-parse HEAD:crates)" "$logic"
        [ -z "$proof_log" ] && echo 'proof check: no log was given (PROOF_LOG=FILE)' || { echo "proof check: proof.log, $(tail -n 1 "$proof_log")" && verdicts; }
        printf 'Rust generated from the proved sources: %s\n\n' "$(tools/erase/check.py --committed | tail -n 1)"
        cat "$work/built" "$work/skipped"
    } > "$made/proof/PROOF.txt"
}

# documents: writes README and guides, and checks that they have no broken link
documents() {
    tools/release/release_pages.py write "$made" "$host" "$version"
    tools/release/release_pages.py check "$made" > "$work/links" || die "$(cat "$work/links")"
    say "$(tail -n 1 "$work/links")"
}

# sums: writes the checksums of all files, and an archive of all files
sums() {
    local stamp name=wat-$version.tar.gz
    stamp=$(git log -1 --format=%ct)
    (cd "$made" && find . -type f ! -name SHA256SUMS -printf '%P\0' | sort -z | xargs -0 sha256sum > SHA256SUMS)
    tar --sort=name --mtime="@$stamp" --owner=0 --group=0 --numeric-owner --mode=u+w,go=u-w --transform "flags=r;s,^\.,wat-$version," -C "$made" -cf - . | gzip -n9 > "$work/$name"
    mv "$work/$name" "$made/"
    find "$made" -exec touch --no-dereference --date="@$stamp" {} +
}

main() {
    : > "$work/skipped"
    prepare
    third_parties
    crates
    program
    c_library
    python_package
    rattle_libraries
    npm_and_page
    proof
    documents
    sums
    rm -rf "$out"
    mv "$made" "$out"
    say "$(sha256sum "$out/wat-$version.tar.gz" | cut -d ' ' -f 1) wat-$version.tar.gz, $(stat -c %s "$out/wat-$version.tar.gz") bytes, in $SECONDS s"
}

main
