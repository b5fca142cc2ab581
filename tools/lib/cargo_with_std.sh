#!/usr/bin/env bash
# Runs a cargo that builds the standard library from source, for targets for which Debian has no binary of it. The default is Debian's cargo:
# cargo-web, rustc-web and rust-web-src. The targets also need: i686-unknown-linux-gnu gcc-multilib, wasm32-unknown-unknown lld-22, wasm32-wasip1
# lld-22 and wasi-libc, aarch64-unknown-linux-gnu lld-22, libc6-dev-arm64-cross and libgcc-12-dev-arm64-cross.
#
#   RUST_BIN=FOLDER       the folder of cargo and rustc; default: /usr/bin
#   CRATES_FOLDER=FOLDER  the crates that cargo builds with, one folder each, if no registry is reachable and cargo's configuration names none
#
# usage: tools/lib/cargo_with_std.sh COMMAND --target TARGET ..   as cargo
#        tools/lib/cargo_with_std.sh --is-here                    the status is 0 if the compiler and the sources are here
set -euo pipefail
shopt -s inherit_errexit
bin=${RUST_BIN:-/usr/bin}
library=$("$bin/rustc" --print sysroot)/lib/rustlib/src/rust/library
export RUSTC=$bin/rustc RUSTDOC=$bin/rustdoc RUSTC_BOOTSTRAP=1

die() {
    echo "cargo_with_std.sh: $*" >&2
    exit 1
}

# setting KEY: prints a string of cargo's configuration, or nothing if it is not set
setting() {
    "$bin/cargo" -Z unstable-options config get --format json-value "$1" 2> /dev/null | sed 's/^"\(.*\)"$/\1/' || true
}

# crates_folder: prints the folder from which cargo loads crates, or nothing if it uses a registry
crates_folder() {
    local name
    if [ -n "${CRATES_FOLDER:-}" ]; then
        realpath "$CRATES_FOLDER"
        return
    fi
    name=$(setting source.crates-io.replace-with)
    [ -z "$name" ] || setting "source.$name.directory"
}

# joined FOLDER: prints a folder of links to the crates of FOLDER and to those of the standard library. Its name depends only on these crates, so that
# cargo builds them once. It is outside the repository, in which `rt ci` rejects links.
joined() {
    local crates=("$library"/vendor/* "$1"/*) cache=${XDG_CACHE_HOME:-$HOME/.cache}/wat folder
    mkdir -p "$cache"
    folder=$cache/crates-$(printf '%s\n' "${crates[@]}" | cksum | cut -d ' ' -f 1)
    if [ ! -d "$folder" ]; then
        mkdir "$folder.$$"
        ln -sf "${crates[@]}" "$folder.$$/"
        mv -T "$folder.$$" "$folder" 2> /dev/null || rm -r "$folder.$$"
    fi
    echo "$folder"
}

# linkers: sets the variables that name the linkers of WebAssembly and AArch64
linkers() {
    local version
    version=$("$bin/rustc" -vV | sed -n 's/^LLVM version: \([0-9]*\).*/\1/p')
    command -v "wasm-ld-$version" > /dev/null || return 0
    : "${CARGO_TARGET_WASM32_UNKNOWN_UNKNOWN_LINKER:=wasm-ld-$version}" "${CARGO_TARGET_WASM32_WASIP1_LINKER:=wasm-ld-$version}"
    : "${CARGO_TARGET_AARCH64_UNKNOWN_LINUX_GNU_LINKER:=ld.lld-$version}"
    export CARGO_TARGET_WASM32_UNKNOWN_UNKNOWN_LINKER CARGO_TARGET_WASM32_WASIP1_LINKER CARGO_TARGET_AARCH64_UNKNOWN_LINUX_GNU_LINKER
}

# aarch64_flags: prints the flags with which rustc links Debian's libraries for AArch64 without its C compiler, which excludes gcc-multilib. Prints
# nothing if another linker is chosen.
aarch64_flags() {
    local folder=/usr/aarch64-linux-gnu/lib file
    [[ ${CARGO_TARGET_AARCH64_UNKNOWN_LINUX_GNU_LINKER:-} == ld.lld-* ]] || return 0
    printf ' -C linker-flavor=ld -C link-arg=--dynamic-linker=/lib/ld-linux-aarch64.so.1'
    for file in Scrt1.o crti.o crtn.o; do
        printf ' -C link-arg=%s' "$folder/$file"
    done
    echo " -L native=$folder -L native=$(compgen -G '/usr/lib/gcc-cross/aarch64-linux-gnu/*' | tail -n 1)"
}

# wasi_flags: prints the flags with which rustc links Debian's wasi-libc. That library lacks pthread_join and pthread_detach; std refers to them but
# never calls them, as WASI has no threads.
wasi_flags() {
    local folder=/usr/lib/wasm32-wasi
    printf ' -C link-arg=%s' "$folder/crt1-command.o" --unresolved-symbols=ignore-all
    echo " -C link-self-contained=no -L native=$folder"
}

[ -d "$library" ] || die "the sources of the standard library are not at $library; Debian's rust-web-src has them"
[ "${1:-}" != --is-here ] || exit 0
linkers
options=() flags=${RUSTFLAGS:-}
[[ " $* " != *' wasm32-wasip1 '* ]] || flags+=$(wasi_flags)
[[ " $* " != *' aarch64-unknown-linux-gnu '* ]] || flags+=$(aarch64_flags)
crates=$(crates_folder)
if [ -n "$crates" ]; then
    crates=$(joined "$crates")
    options=(--offline --config 'source.crates-io.replace-with="joined"' --config "source.joined.directory=\"$crates\"")
    # Keeps the folder's path out of the bytes that rustc writes.
    flags+=" --remap-path-prefix=$crates=crates"
fi
[ -z "$flags" ] || export RUSTFLAGS=$flags
exec "$bin/cargo" -Z build-std=std,panic_abort "${options[@]}" "$@"
