# Read by run, fit and listing: optimised builds of both sides. `programs` names what is built.

build_rust() { # DRIVER
    need_cargo
    need_rust
    [ -d "$crates" ] || fail "the crates are not there: run oracle/fetch first"
    INGTHABOR_PROFILE=release "$oracle/run" "$1" </dev/null >&2
    programs[rust]=$oracle/target/release/$1
}

# The program that the gate runs, under the kit's own C library. The kit compiles for x86-64 alone.
build_port() { # PROGRAM
    local libraries
    need_command rt "the port is built by the Rattle kit"
    [ "$(uname -m)" = x86_64 ] || fail "no way to build the port for $(uname -m)"
    mkdir -p "$bench/target"
    prove_program "$1" || fail "the port does not check"
    libraries=$(kit_libraries)
    printf '#!/bin/sh\nexec %q --library-path %q %q "$@"\n' "$libraries/ld-linux-x86-64.so.2" "$libraries" "$repository/crates/$1/out/$1" >"$bench/target/$1"
    chmod +x "$bench/target/$1"
    programs[port]=$bench/target/$1
}
