# Read by fetch and run: where things stand, and how to say that one of them is missing.

oracle=$(cd "$(dirname "${BASH_SOURCE[0]}")" && pwd)
registry=$oracle/registry
crates=$registry/usr/share/cargo/registry
rust=${INGTHABOR_RUST:-}

fail() {
    printf 'oracle: %s\n' "$*" >&2
    exit 1
}

need_command() {
    command -v "$1" >/dev/null || fail "no $1 here: $2"
}

need_cargo() {
    need_command cargo "install Rust with cargo"
    need_command rustc "install Rust with cargo"
}

# The folder of the Rust being ported: it has src/ad and src/utils.
need_rust() {
    [ -n "$rust" ] || fail "set INGTHABOR_RUST to the folder of the Rust being ported, the one with src/ad and src/utils in it"
    [ -f "$rust/src/ad/forward.rs" ] && [ -f "$rust/src/utils/errors.rs" ] ||
        fail "no src/ad/forward.rs and src/utils/errors.rs in INGTHABOR_RUST, $rust"
    rust=$(cd "$rust" && pwd)
}
