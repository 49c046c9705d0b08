#!/usr/bin/env bash
# The programs where a read or a write fails: it is told on standard error, nothing is answered, and
# `./run` ends with 2; and what `./run` makes of its words.
# Exits with 77, after one line, where perl, which makes the failing input, can't be had.
set -euo pipefail
. "$(dirname "$0")/lib.sh"
command -v perl >/dev/null || {
    echo "programs: not to be had: perl" >&2
    exit 77
}

# A pipe that has some bytes of a file in it, whose reader does not wait and whose writer is still
# there: after those bytes a read fails, where a reader that takes this for the end has a part.
after() { # number of bytes, a file, the command
    perl -MFcntl -e '
        my ($many, $file) = splice @ARGV, 0, 2;
        pipe my $read, my $write or die;
        open my $from, "<", $file or die;
        sysread $from, my $bytes, $many;
        syswrite $write, $bytes if $many;
        fcntl $read, F_SETFL, O_NONBLOCK or die;
        # A handle above 2 is closed by exec, but for this one.
        fcntl $write, F_SETFD, 0 or die;
        open STDIN, "<&", $read or die;
        exec @ARGV or die' "$@"
}

# All of a file as one message on a socket: a reader that asks for less of it than there is loses the rest.
message() { # a file, the command
    perl -MSocket -e '
        my $file = shift;
        socketpair my $read, my $write, AF_UNIX, SOCK_SEQPACKET, PF_UNSPEC or die;
        open my $from, "<:raw", $file or die;
        my $bytes = do { local $/; <$from> };
        syswrite($write, $bytes) == length $bytes or die;
        close $write;
        open STDIN, "<&", $read or die;
        exec @ARGV or die' "$@"
}

# An input of some 16,000 bytes.
long() { # program
    perl -e '
        print $ARGV[0] eq "window"
            ? pack("V*", 0, 0x10000000, map { 16 * $_, 0x1000 + 8 * $_ } 1 .. 2000)
            : pack("V", 16000) . join("", map { pack("V3v2", 16 * $_, 8, 0, 0, 0) } 1 .. 1000)' "$1"
}

complains() { # of what, then as `leaves`
    echo "failed: standard $1" >"$work/complaint"
    : >"$work/expected"
    leaves "${@:2}"
}

# As `leaves`, with a standard output that takes nothing.
unwritten() { # what it is, the status, the command
    local got=0
    "${@:3}" <"$input" >/dev/full 2>"$work/err" || got=$?
    : >"$work/out"
    compare "$1" "$2" "$got"
}

closed() {
    "$@" >&-
}

for program in window frames; do
    input=$here/crates/$program/stdin
    size=$(wc -c <"$input")
    run=("$here/run" "$program")
    "${run[@]}" <"$input" >/dev/null # proved, so that only the program speaks
    # A part that by itself gets an answer: nothing but the failed read tells it from a whole.
    part=24
    [ "$program" = window ] || part=116
    head -c "$part" "$input" >"$work/part"
    "${run[@]}" <"$work/part" >/dev/null

    complains "input can't be read" "$program, a read that fails at the first byte" 2 after 0 "$input" "${run[@]}"
    complains "input can't be read" "$program, a read that fails midway" 2 after "$part" "$input" "${run[@]}"
    complains "input can't be read" "$program, a read that fails at the end" 2 after "$size" "$input" "${run[@]}"
    complains "input can't be read" "$program, a folder" 2 "${run[@]}" <"$here"
    complains "input can't be read" "$program, a closed input" 2 "${run[@]}" <&-

    long "$program" >"$work/long"
    "${run[@]}" <"$work/long" >"$work/expected"
    : >"$work/complaint"
    leaves "$program, an input that comes as one message" 0 message "$work/long" "${run[@]}"

    echo "failed: standard output can't be written" >"$work/complaint"
    : >"$work/expected"
    unwritten "$program, a full output" 2 "${run[@]}"
    # By itself a program has no status of its own.
    unwritten "$program by itself, a full output" 0 by_itself "$program"
    echo "failed: standard output can't be written" >"$work/complaint"
    leaves "$program, a closed output" 2 closed "${run[@]}" <"$input"
done

: >"$work/expected"
echo "run: no program nosuch; there are: $(cd "$here/crates" && echo */src/main.rt | sed 's,/src/main.rt,,g')" >"$work/complaint"
leaves "run, a program that is not there" 2 "$here/run" nosuch
"$here/run" --help >"$work/complaint"
leaves "run, no words" 2 "$here/run"
leaves "run, an option that is not there" 2 "$here/run" --nosuch
cp "$work/complaint" "$work/expected"
: >"$work/complaint"
leaves "run, help" 0 "$here/run" --help
grep -q '^usage: ' "$work/out" || failed=$((failed + 1))

ended programs
