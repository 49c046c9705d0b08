#!/usr/bin/env bash
# boundary.sh [c|native]: the boundary between C and the archive (boundary.c), on the archive that
# users link or on this machine's own; then over each stand-in with a planted fault, which the test has
# to see in the group that the fault names.
# Exits with 77, after one line, where a compiler for it can't be had.
set -euo pipefail
. "$(dirname "$0")/../rust/lib.sh"
tests=$repository/tests
ready "${1:-c}"

work=$(mktemp -d)
trap 'rm -rf "$work"' EXIT

build() { # words for the compiler
    # Functions are called through pointers to other types on purpose.
    # shellcheck disable=SC2154 # compile_c: of target/setup
    $compile_c -std=c99 -Wall -Wextra -Werror -static -O1 -I "$repository/include" "$@" \
        "$tests/boundary.c" "$GILLACORN_LIB/libgillacorn.a" -o "$work/boundary"
}

build
${GILLACORN_EMULATOR:-} "$work/boundary"

faults=0
while read -r number group; do
    build -DFAULT="$number"
    if ${GILLACORN_EMULATOR:-} "$work/boundary" >"$work/said"; then
        echo "boundary: fault $number ($group) is not seen" >&2
        exit 1
    fi
    grep -q "^boundary: $group: " "$work/said" || {
        echo "boundary: fault $number is not seen by the group $group, but:" >&2
        cat "$work/said" >&2
        exit 1
    }
    faults=$((faults + 1))
done < <(sed -n 's|.*/\* fault \([0-9]*\): \(.*\) \*/$|\1 \2|p' "$tests/boundary_faults.h")
[ "$faults" -gt 0 ]
echo "boundary: nothing wrong, and each of $faults planted faults is seen"
