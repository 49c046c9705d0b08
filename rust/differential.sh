#!/usr/bin/env bash
# Gillacorn and pdb on the same inputs: builds both and runs the comparison with the given words,
# as `rust/differential.sh --full` or `rust/differential.sh --seed 7 --inputs 100000`.
#     --archive x86-64|native   the archive that users link, or this machine's own out of the same
#                               module, which needs no emulator. --full takes the native one where it
#                               can be had; everything else takes x86-64.
# Exits with 77, after one line, where the Rust can't be built here.
set -euo pipefail
. "$(dirname "$0")/lib.sh"

kind='' full='' words=()
while [ $# -gt 0 ]; do
    case $1 in
    --archive)
        kind=${2:-}
        shift
        [ "$kind" = native ] || [ "$kind" = x86-64 ] || {
            echo "differential: --archive takes x86-64 or native" >&2
            exit 2
        }
        ;;
    *)
        [ "$1" != --full ] || full=yes
        words+=("$1")
        ;;
    esac
    shift
done
if [ -z "$kind" ]; then
    kind=x86-64
    if [ -n "$full" ]; then
        status=0
        (ready native) || status=$?
        case $status in
        0) kind=native ;;
        77) echo "differential: on the x86-64 archive" >&2 ;;
        *) exit "$status" ;;
        esac
    fi
fi

ready_for_pdb "$kind"
echo "archive $kind"
cargo_here build --release -p differential
run differential "${words[@]}"
