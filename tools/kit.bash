# Read by scripts that prove a program of this repository and run what was built.

repository=$(cd "$(dirname "${BASH_SOURCE[0]}")/.." && pwd)

# Proves and builds a program, and says all that rt says of it: build_program NAME
# `rt run` also runs it, here with no input and no arguments. What was proved and built before is only run.
build_program() {
    (cd "$repository/crates/$1" && rt run 2>&1 </dev/null)
}

# The same, and says what went wrong only where something did: prove_program NAME
prove_program() {
    local said
    said=$(build_program "$1") || {
        printf '%s\n' "$said" >&2
        return 1
    }
}

# Where the kit keeps its loader and C library, which may be newer than the machine's.
kit_libraries() {
    local guide
    guide=$(rt doc) || return
    echo "${guide%/*}/toolchain/lib"
}

# Runs crates/NAME/out/NAME under them, in the folder that it is called from: run_program NAME ARGS..
run_program() {
    local libraries program=$repository/crates/$1/out/$1
    libraries=$(kit_libraries) || return
    shift
    "$libraries/ld-linux-x86-64.so.2" --library-path "$libraries" "$program" "$@"
}
