#!/usr/bin/env bash
# The wrapper's own tests and the examples in its documentation, and what a build says that can't link.
# Exits with 77, after one line, where the Rust can't be built here.
set -euo pipefail
. "$(dirname "$0")/../rust/lib.sh"

ready
tests=(test -p gillacorn)
if [ -n "${GILLACORN_EMULATOR:-}" ]; then
    # Examples in the documentation are run for another machine only if cargo is told so, and older
    # ones take the word as an unstable one.
    export RUSTC_BOOTSTRAP=1
    tests+=(-Z doctest-xcompile)
fi
cargo_here "${tests[@]}"

# Without an allocator, and without std.
cargo_here check -p gillacorn --no-default-features
cargo_here check -p gillacorn --no-default-features --features alloc

work=$(mktemp -d)
trap 'rm -rf "$work"' EXIT

# What a build says that can't link: one sentence of build.rs, and no word of a linker.
refused_build() { # what it is, words of the sentence, then words for cargo
    if cargo_here check -p gillacorn "${@:3}" 2>"$work/build"; then
        echo "$1: built all the same" >&2
        exit 1
    fi
    grep -q "^ *gillacorn: .*$2" "$work/build" && ! grep -q "linking with" "$work/build" || {
        cat "$work/build" >&2
        echo "$1: not told" >&2
        exit 1
    }
    echo "$1: told"
}
(
    export GILLACORN_LIB=$work
    refused_build "build without an archive" "there is no archive $work/libgillacorn.a"
)
(
    unset GILLACORN_LIB
    refused_build "build for another machine" "this build is for aarch64" \
        --target aarch64-unknown-linux-gnu
)
