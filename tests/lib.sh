# shellcheck shell=bash
# For the tests of the Rattle programs (source it): inputs in hex, and what `./run` makes of them.
here=$(cd "$(dirname "${BASH_SOURCE[0]}")/.." && pwd)
work=$(mktemp -d)
trap 'rm -rf "$work"' EXIT
failed=0 tried=0

u32() { # numbers in hex, as little-endian bytes
    local n
    for n in "$@"; do
        printf "\\x${n:6:2}\\x${n:4:2}\\x${n:2:2}\\x${n:0:2}"
    done
}

# Runs a command and compares what it leaves: on standard output the lines of $work/expected, on
# standard error those of $work/complaint, and the status.
leaves() { # what it is, the status, the command
    local what=$1 status=$2 got=0
    shift 2
    "$@" >"$work/out" 2>"$work/err" || got=$?
    compare "$what" "$status" "$got"
}

compare() { # what it is, the status expected, the status
    tried=$((tried + 1))
    if diff "$work/expected" "$work/out" >"$work/diff" && diff "$work/complaint" "$work/err" >>"$work/diff" &&
        [ "$2" -eq "$3" ]; then
        return 0
    fi
    echo "$1: other than expected (status $3, expected $2)"
    cat "$work/diff"
    failed=$((failed + 1))
}

# What a program prints on an input: an answer with status 0, or a refusal with status 1.
prints() { # program, what it is, then the lines expected; the input is on standard input
    local program=$1 what=$2 status=0
    shift 2
    printf '%s\n' "$@" >"$work/expected"
    : >"$work/complaint"
    case $1 in 'refused '*) status=1 ;; esac
    leaves "$program, $what" "$status" "$here/run" "$program"
}

# A proved program without `./run` before it.
by_itself() { # program
    "$here/crates/$1/out/$1"
}

ended() { # what was tried
    echo "$1: $tried inputs, $failed failed"
    [ "$failed" -eq 0 ]
}
