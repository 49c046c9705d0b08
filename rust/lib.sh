# shellcheck shell=bash
# For the scripts of rust/ and tests/ (source it): what the Rust side needs, the proved archive, and a
# build. Words that the caller may set:
#   GILLACORN_LIB      a folder that has libgillacorn.a already; else it is made
#   GILLACORN_INSTALL  no: fetch and install nothing
#   PDB_SRC            the folder of pdb's source; else ../shared/docs/src beside the repository

rust=$(cd "$(dirname "${BASH_SOURCE[0]}")" && pwd)
repository=$(dirname "$rust")

# Everything that a build needs, for the archive that users link (x86-64, under an emulator where the
# machine is of another kind; c, where no Rust is built) or for this machine's own (native). Exits with
# 77 where something can't be had.
ready() { # [c|x86-64|native]
    local kind=${1:-x86-64}
    bash "$rust/setup.sh" "$kind" || exit $?
    # shellcheck disable=SC1090
    . "$rust/target/setup/$kind"
    # A backtrace needs what the emulator does not give.
    export RUST_BACKTRACE=0
    if [ -n "${GILLACORN_LIB:-}" ]; then
        GILLACORN_LIB=$(cd "$GILLACORN_LIB" && pwd)
    elif [ "$kind" = native ] && [ "$(uname -m)" != x86_64 ]; then
        bash "$rust/native.sh" || exit $?
        GILLACORN_LIB=$rust/target/native
    else
        archive
        GILLACORN_LIB=$repository/target/staticlib
    fi
    export GILLACORN_LIB
}

# A source of the crates, or a folder of them, that is newer than what was made of them. What `rt` keeps in out/ is none,
# nor is a crate's own folder, where out/ comes and goes.
newer() { # what was made
    find "$repository/crates.txt" -newer "$1" -print -quit
    find "$repository/crates" -mindepth 2 -name out -prune -o -newer "$1" -print -quit
}

# target/staticlib/libgillacorn.a takes a proof to make: once for all scripts, until a source is newer.
archive() {
    (
        cd "$repository"
        made=target/staticlib/libgillacorn.a
        if [ -f "$made" ] && [ -z "$(newer "$made")" ]; then
            exit 0
        fi
        mkdir -p target
        (cd crates/gillacorn_c && rt lib) >target/staticlib.log 2>&1 || {
            cat target/staticlib.log >&2
            exit 1
        }
        mkdir -p target/staticlib
        cp crates/gillacorn_c/out/libgillacorn_c.a "$made"
    ) || exit $?
}

# pdb's own files, without which nothing can be compared; then as `ready`.
ready_for_pdb() { # [x86-64|native]
    PDB_SRC=$(cd "${PDB_SRC:-$repository/../shared/docs/src}" 2>/dev/null && pwd) || PDB_SRC=
    export PDB_SRC
    if [ ! -f "$PDB_SRC/src/omap.rs" ] && [ ! -f "$PDB_SRC/omap.rs" ]; then
        echo "setup: not to be had: the source of pdb 0.8.0 (PDB_SRC names its folder)" >&2
        exit 77
    fi
    ready "${1:-x86-64}"
}

cargo_here() { # what to do, then words for it
    "$CARGO" "$1" --offline --quiet --manifest-path "$rust/Cargo.toml" "${@:2}"
}

# The command line `gillacorn`, over the archive that users link.
build_cli() {
    ready
    bash "$rust/setup_cli.sh" || exit $?
    "$CARGO" build --offline --quiet --release --manifest-path "$rust/cli/Cargo.toml" --target-dir "$rust/target"
}

# Runs a program of the release build, under the emulator where there is one.
run() {
    local program=$1
    shift
    # shellcheck disable=SC2154 # built: of target/setup
    ${GILLACORN_EMULATOR:-} "$built/$program" "$@"
}
