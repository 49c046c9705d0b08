#!/usr/bin/env bash
# Gillacorn and pdb timed from one driver in one run, as the tables of docs/PERFORMANCE.md: native code
# on both sides, on Arm and on x86-64. Words measure only the rows that have them in their text.
#     bench.sh [WORDS]
#     bench.sh --before FOLDER [WORDS]   the same driver over the archive of an earlier checkout too, in
#                                        turn, and both beside pdb in one table
# Exits with 77, after one line, where native code can't be had.
set -euo pipefail
. "$(dirname "$0")/lib.sh"

before=
if [ "${1:-}" = --before ]; then
    if [ ! -f "${2:-}/rust/native.sh" ]; then
        echo "bench: --before takes the folder of a checkout that has a rust/native.sh" >&2
        exit 2
    fi
    before=$(cd "$2" && pwd)
    shift 2
fi

measured() { # what was taken
    echo
    echo "Measured on $(uname -m)$(lscpu 2>/dev/null | sed -n 's/^Model name: */, /p' | head -n 1) with $("$RUSTC" --version | cut -d ' ' -f 1,2) and $(rt version | cut -d ' ' -f 1): the processor time of one question, $1."
}

ready_for_pdb native
if [ -z "$before" ]; then
    cargo_here build --release -p bench
    run bench "$@"
    measured "the least of 15 rounds or more, both sides in turn"
    exit 0
fi

# The archive of the earlier checkout, made out of its own sources by its own scripts.
if [ "$(uname -m)" = x86_64 ]; then
    (. "$before/rust/lib.sh" && archive)
    its=$before/target/staticlib
else
    bash "$before/rust/native.sh"
    its=$before/rust/target/native
fi

# shellcheck disable=SC2154 # built: of target/setup
rows=$built/bench-rows
mkdir -p "$rows"
rm -f "$rows"/*
# The driver over that archive and over ours; a driver that calls what the archive lacks is not linked.
GILLACORN_LIB=$its cargo_here build --release -p bench 2>"$rows/log" || {
    lacking=$(grep -oE 'undefined (reference to|symbol)[^_]*gillacorn_[a-z_]+' "$rows/log" | sed 's/.*gillacorn_/gillacorn_/' |
        sort -u | paste -sd ' ') || true
    [ -n "$lacking" ] || cat "$rows/log" >&2
    echo "bench: the driver can't be built over the archive of $before${lacking:+, which lacks what it calls: $lacking}" >&2
    exit 1
}
cp "$built/bench" "$built/bench-before"
cargo_here build --release -p bench
cp "$built/bench" "$built/bench-now"
for round in 1 2 3; do
    for side in before now; do
        echo "bench: round $round of 3, $side" >&2
        run "bench-$side" --plain "$@" >>"$rows/$side"
    done
done

awk -F '\t' '
    function least(a, b) { return a == "" || b < a ? b : a }
    function ratio(a, b) { return a == "" || b == "" ? "–" : sprintf("%.2f", a / b) }
    function shown(ns) {
        if (ns == "") return "–"
        if (ns < 1e3) return sprintf("%.2f ns", ns)
        return ns < 1e6 ? sprintf("%.2f µs", ns / 1e3) : sprintf("%.2f ms", ns / 1e6)
    }
    !($1 in met) { met[$1]; order[++rows] = $1 }
    side == "before" { before[$1] = least(before[$1], $2 + 0) }
    side == "now" { now[$1] = least(now[$1], $2 + 0) }
    $3 != "" { pdb[$1] = least(pdb[$1], $3 + 0) }
    END {
        print "| question | before | now | pdb | ratio before | ratio now |\n|---|---:|---:|---:|---:|---:|"
        for (i = 1; i <= rows; i++) {
            q = order[i]
            print "| " q " | " shown(before[q]) " | " shown(now[q]) " | " shown(pdb[q]) \
                " | " ratio(before[q], pdb[q]) " | " ratio(now[q], pdb[q]) " |"
        }
    }' side=before "$rows/before" side=now "$rows/now"
measured "the least of three runs of each archive in turn, each the least of 15 rounds or more"
