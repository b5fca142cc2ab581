# Functions that find the crates cargo builds with. Sourced by run and .ci/run, from the top of the repository.
#
# The packages below `rust` use memchr, smallvec and unicode-width, and the language server serde_json, with serde, itoa and ryu, in the versions of
# rust/Cargo.lock. cargo must find all of them. They come from the folder that CRATES_FOLDER names, from cargo's cache or its registry, or from the
# folder ../shared/vendor, in this order.

# The minor version of the oldest cargo that builds every package: 1.OLDEST.
OLDEST=87

# has COMMAND: succeeds if the command is installed
has() {
    command -v "$1" > /dev/null
}

# cargo_minor: prints the minor version of cargo or of rustc, the smaller one; nothing if one of them is missing or does not start
cargo_minor() {
    local tool
    for tool in cargo rustc; do
        "$tool" --version 2> /dev/null < /dev/null | sed -n 's/^[a-z]* 1\.\([0-9]*\)\..*/\1/p' | grep . || return 0
    done | sort -n | head -n 1
}

# has_cargo: succeeds if cargo and rustc are new enough
has_cargo() {
    local minor
    has cargo && has rustc || return 1
    minor=$(cargo_minor)
    [ -n "$minor" ] && [ "$minor" -ge "$OLDEST" ]
}

# fetches OPTION..: succeeds if cargo gets every crate of the lock file. Without a cached crate it makes one request of at most 5 s.
fetches() {
    (cd rust && CARGO_NET_RETRY=0 CARGO_HTTP_TIMEOUT=5 cargo fetch --locked --quiet "$@") > /dev/null 2>&1 < /dev/null
}

# folder_settings FOLDER: prints the configuration with which cargo loads crates from a folder alone
folder_settings() {
    cat << CONFIG
[source.crates-io]
replace-with = "folder"
[source.folder]
directory = "$1"
[net]
offline = true
CONFIG
}

# find_crates: sets `crates` to the folder of crates to use, or to nothing if cargo finds them itself; otherwise sets `why_no_crates`
find_crates() {
    crates='' why_no_crates=''
    if ! has_cargo; then
        why_no_crates="cargo 1.$OLDEST or later is not installed (Debian: apt-get install cargo-web rustc-web)"
    elif [ -n "${CRATES_FOLDER:-}" ]; then
        crates=$(realpath "$CRATES_FOLDER")
    elif fetches --offline || fetches; then
        return
    elif [ -d ../shared/vendor ]; then
        crates=$(realpath ../shared/vendor)
    else
        why_no_crates='there is no crate registry, and CRATES_FOLDER names no folder of crates'
    fi
}
