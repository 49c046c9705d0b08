#!/usr/bin/env bash
# The command line `gillacorn` as a person runs it: each word, each refusal, bad words, and files,
# pipes and outputs that fail. `sections`, `bundle` and `locate` have files of their own,
# cli_sections.sh, cli_bundle.sh and cli_locate.sh. Refusals 5 and 6 can't come: the output always has
# room, and every walk begins at a window.
# Exits with 77, after one line, where something can't be had.
set -euo pipefail
. "$(dirname "$0")/../rust/lib.sh"

build_cli

work=$(mktemp -d)
trap 'rm -rf "$work"' EXIT
cd "$work"
asked=0

fail() {
    echo "cli: $*" >&2
    exit 1
}

# Holds what the last question gave, in $status and the files out and err, to what is expected.
gave() { # what was asked, exit status, standard output, a pattern for standard error
    local out err
    out=$(cat out) err=$(cat err)
    [ "$status" -eq "$2" ] || fail "$1: exit status $status and not $2: $err"
    [ "$out" = "$3" ] || fail "$1: on standard output: $out"
    # shellcheck disable=SC2053
    [[ $err == $4 ]] || fail "$1: on standard error: $err"
    asked=$((asked + 1))
}

# Exit status, standard output and standard error that are expected, then words for the program.
# The variable `from` names a file for standard input.
is() {
    status=0
    run gillacorn "${@:4}" <"${from:-/dev/null}" >out 2>err || status=$?
    gave "${*:4}" "$1" "$2" "$3"
}

bytes() { # numbers of 32 bits, as a table holds them
    local number
    for number; do
        number=$(printf '%08x' "$number")
        printf '%b' "\\x${number:6:2}\\x${number:4:2}\\x${number:2:2}\\x${number:0:2}"
    done
}

long="the table's length is no multiple of its record"
many="the table has more records than allowed"
unordered="the table is out of order"
large="a sum or product exceeds 32 bits"

# ---- tables: document 01's T, which clashes from 1300 on, and damaged ones

bytes 0x1000 0x5000 0x1100 0 0x1200 0x4000 0x1300 0x5080 >T
head -c 31 T >cut
head -c 8388616 /dev/zero >more
bytes 0x1200 0x4000 0x1000 0x5000 >swapped
bytes 0x1000 0xFFFFFFF0 >high
: >empty

# ---- draw

is 0 '00000800..00001000 hole
00001000..00001100 00005000..00005100
00001100..00001200 hole
00001200..00001300 00004000..00004100' '' draw T 800 1300
is 0 '00001000..00001080 00005000..00005080' '' draw T 1000 1080
is 0 '00001120..00001180 hole' '' draw T 1120 1180
is 0 '' '' draw T 1000 1000
is 0 '00000000..FFFFFFFF hole' '' draw empty 0 FFFFFFFF
is 0 '00000FFF hole
000010FF 000050FF
00001100 hole
000012AB 000040AB' '' draw T 0x800 0X1300 fff 0x10ff 1100 12Ab
clash='clash: 00001080 and 00001300 both translate to 00005080; nothing is drawn'
is 1 '' "$clash" draw T 800 1400
is 1 '' "$clash" draw T 800 1400 1000
from=T is 0 '00001000 00005000' '' draw - 800 1300 1000
printf '1000\n 1100 0x1200\n\n' >samples
from=samples is 0 '00001000 00005000
00001100 hole
00001200 00004000' '' draw T 800 1300 -
is 2 '' 'gillacorn: 00001300 is outside the window 00000800..00001300' draw T 800 1300 1000 1300
is 2 '' 'gillacorn: 000007FF is outside the window 00000800..00001300' draw T 800 1300 7FF
is 2 '' 'gillacorn: the window 00001300..00000800 ends before it begins' draw T 1300 800
printf '1000\nhalf\n' >samples
from=samples is 2 '' 'gillacorn: standard input, line 2: "half" is no hexadecimal address' \
    draw T 800 1300 -
is 2 '' 'gillacorn: standard input can be read once' draw - 800 1300 -
is 2 '' 'gillacorn: standard input can be read once' draw T 800 1300 - -

# ---- lookup: any addresses, clash or not; the search alone on any table

is 0 '000007FF hole
000010FF 000050FF
00001100 hole
00001300 00005080' '' lookup T 7FF 0x10ff 1100 1300
is 0 '000007FF hole probes 3
000010FF 000050FF probes 3
00001250 00004050 probes 2
00001300 00005080 probes 2' '' lookup --quick T 7ff 10FF 1250 1300
is 0 '00000001 hole probes 0' '' lookup empty 1 --quick
printf '1000\n 1100 0x1200\n\n' >samples
from=samples is 0 '00001000 00005000
00001100 hole
00001200 00004000' '' lookup T -
from=T is 0 '00001000 00005000' '' lookup - 1000
# Out of order: the full lookup refuses, and the search answers by its steps.
is 1 '' "refused 3: $unordered" lookup swapped 1100
is 0 '00001100 00005100 probes 1' '' lookup swapped 1100 --quick
for quick in '' --quick; do
    is 1 '' "refused 1: $long" lookup cut 1000 $quick
    is 1 '' "refused 2: $many" lookup more 1000 $quick
    is 1 '' "refused 4: $large" lookup high 100F 1010 $quick
done
is 0 '0000100F FFFFFFFF' '' lookup high 100F
is 0 '0000100F FFFFFFFF probes 1' '' lookup --quick high 100F

# ---- each refusal of an OMAP table, by each word that reads one

for word in draw window clash back; do
    target=
    [ $word = back ] && target=1
    is 1 '' "refused 1: $long" $word cut 800 1300 $target
    is 1 '' "refused 2: $many" $word more 800 1300 $target
    is 1 '' "refused 3: $unordered" $word swapped 800 1300 $target
    is 1 '' "refused 4: $large" $word high 800 1300 $target
done
from=cut is 1 '' "refused 1: $long" draw - 800 1300 1000

# ---- window, clash, back

is 0 "$(cat "$repository/crates/window/stdout")" '' window T 800 1400
is 0 'pieces 0' '' window T 1100 1200
is 0 'no clash' '' clash T 800 1300
is 1 '00001080 00001300 00005080' 'clash: 00001080 and 00001300 both translate to 00005080' \
    clash T 800 1400
is 0 '00005100 00001380
00000001 none' '' back T 800 1400 5100 1
is 1 '000050A0 clash 000010A0 00001320' \
    'clash: 000010A0 and 00001320 both translate to 000050A0' back T 800 1400 50A0
is 0 '000050A0 000010A0' '' back T 800 1300 50A0

# ---- frames: those of the program's example, which has the old table's length before it

example=$repository/crates/frames/stdin
tail -c +5 "$example" | head -c 80 >old
tail -c +85 "$example" >new
frames=$(cat "$repository/crates/frames/stdout")
head=$(head -n 1 <<<"$frames")
is 0 "$frames" '' frames --old old --new new
from=old is 0 "$frames" '' frames --new new --old -
is 0 "$head
00000200 00000010 00000000 00000000 0000   0000  00000040 00000012 fdata scf-
0000ABCD 12345678 00000009 FFFFFFFF 001F   0102  00000000 DEADBEEF fdata --f-
frames 2" '' frames --new new
is 0 "$head"$'\nframes 0' '' frames --old empty
bytes 0x100 4 0x40000000 0 >locals
is 1 '' "refused 1: $long" frames --old cut --new new
is 1 '' "refused 1: $long" frames --old old --new cut
is 1 '' "refused 4: $large" frames --old locals
head -c $((16 * 1048577)) /dev/zero >more_frames
is 1 '' "refused 2: $many" frames --old more_frames
is 2 '' '*required*--old*--new*' frames
is 2 '' 'gillacorn: standard input can be read once' frames --old - --new -

# ---- JSON

is 0 '{"addresses":[{"source":4096,"target":20480},{"source":4352,"target":null}]}' '' \
    draw T 800 1300 1000 1100 --json
is 0 '{"pieces":[{"source":[4096,4352],"target":[20480,20736]},{"source":[4352,4353],"target":null}]}' \
    '' --json draw T 1000 1101
is 1 '{"clash":{"first":4224,"second":4864,"target":20608}}' "$clash" draw --json T 800 1400
is 1 "{\"refused\":1,\"sentence\":\"$long\"}" "refused 1: $long" draw --json cut 800 1400
is 0 '{"addresses":[{"source":4096,"target":20480},{"source":4352,"target":null}]}' '' \
    lookup T 1000 1100 --json
is 0 '{"addresses":[{"source":4608,"target":16384,"probes":2}]}' '' lookup T 1200 --json --quick
is 0 '{"pieces":[[20480,20736]]}' '' window --json T 800 1200
is 0 '{"clash":null}' '' clash --json T 800 1300
is 1 '{"targets":[{"target":20640,"sources":[4256,4896]},{"target":1,"sources":[]}]}' 'clash:*' \
    back --json T 800 1400 50A0 1
is 0 '{"frames":[]}' '' frames --json --old empty
head -c 32 new >one
is 0 '{"frames":[{"type":"fdata","code_start":512,"code_size":16,"locals_size":0,"params_size":0,'\
'"prolog_size":0,"saved_regs_size":0,"has_structured_eh":true,"has_cpp_eh":true,'\
'"is_function_start":true,"uses_base_pointer":false,"max_stack_size":64,"program":18}]}' '' \
    frames --json --new one

. "$repository/tests/cli_sections.sh"
. "$repository/tests/cli_bundle.sh"
. "$repository/tests/cli_locate.sh"

# ---- bad words and help

is 2 '' '*requires a subcommand*'
is 2 '' '*requires a subcommand*pack, list, unpack*' bundle
is 2 '' '*<OUT>*' bundle pack
is 2 '' '*<FILE>*' bundle list
is 2 '' '*<DIR>*' bundle unpack T
is 2 '' "*'drow'*" drow
is 2 '' '*<B>*' draw T 800
is 2 '' '*"12G" is no hexadecimal address*' draw T 800 12G
is 2 '' '*"0x" is no hexadecimal address*' draw T 0x 1300
is 2 '' '*"+5" is no hexadecimal address*' draw T +5 1300
is 2 '' '*"100000000" is greater than FFFFFFFF*' draw T 0 100000000
is 2 '' "*'-8'*" draw T -8 1300
is 2 '' '*TARGET*' back T 800 1300
is 2 '' '*ADDRESS*' lookup T
is 2 '' '*ADDRESS*' lookup T --quick
is 2 '' 'gillacorn: standard input can be read once' lookup - -
is 2 '' "*'--jsn'*" window T 800 1300 --jsn
is 2 '' '*<FILE>*' sections
for words in --help -h 'draw --help' 'help frames' 'bundle --help' 'bundle pack -h' --version; do
    # shellcheck disable=SC2086
    run gillacorn $words >out 2>err || fail "$words: exit status $?"
    [ -s out ] && [ ! -s err ] || fail "$words: no help on standard output"
    asked=$((asked + 1))
done
run gillacorn --help >out
for word in draw lookup window clash back sections locate frames bundle; do
    grep -q "^  $word " out || fail "--help has no word $word"
done

# ---- input that fails

is 2 '' "gillacorn: can't read nothing: No such file*" draw nothing 800 1300
is 2 '' "gillacorn: can't read .: Is a directory*" window . 800 1300
is 2 '' "gillacorn: can't read nothing: No such file*" sections nothing
is 2 '' "gillacorn: can't read nothing: No such file*" frames --old old --new nothing
is 2 '' "gillacorn: can't read nothing: No such file*" frames --bundle nothing
# Opened, and then each read fails.
is 2 '' "gillacorn: can't read /proc/self/mem: *" draw /proc/self/mem 800 1300
from=/proc/self/mem is 2 '' "gillacorn: can't read standard input: *" draw - 800 1300
# Root may read anything, so the question is asked as someone else.
: >locked
chmod 0 locked
chmod 755 .
program=$rust/target/$CARGO_BUILD_TARGET/release/gillacorn
cp "$program" program
status=0
perl -e '
    if ($> == 0) { $( = $) = "65534 65534"; $< = $> = 65534 }
    exec @ARGV or die' -- ${GILLACORN_EMULATOR:-} ./program draw locked 800 1300 >out 2>err || status=$?
gave "an unreadable file" 2 '' "gillacorn: can't read locked: Permission denied*"
# A pipe that has half of the table, and no end in sight.
status=0
perl -MFcntl -e '
    pipe(R, W);
    fcntl(R, F_SETFL, O_NONBLOCK);
    fcntl(W, F_SETFD, 0);
    open T, "<", "T"; read T, my $half, 16; syswrite W, $half;
    open STDIN, "<&", R;
    exec @ARGV or die' -- ${GILLACORN_EMULATOR:-} "$program" draw - 800 1300 >out 2>err || status=$?
gave "half of a table" 2 '' "gillacorn: can't read standard input: *"
status=0
run gillacorn draw - 800 1300 <&- >out 2>err || status=$?
gave "a closed input" 2 '' "gillacorn: can't read standard input: it is closed"

# ---- output that fails

: >out
for words in 'draw T 800 1300' 'window T 800 1400 --json' 'draw cut 800 1300 --json' --help; do
    wrong="*gillacorn: can't write the answer: "
    # shellcheck disable=SC2086
    {
        status=0
        run gillacorn $words >/dev/full 2>err || status=$?
        gave "$words, a full output" 2 '' "${wrong}No space*"
        status=0
        run gillacorn $words 2>err >&- || status=$?
        gave "$words, a closed output" 2 '' "${wrong}standard output is closed"
        # The reader is gone before a word is written.
        mkfifo pipe
        exec 3<>pipe 4>pipe 3<&-
        status=0
        run gillacorn $words >&4 2>err || status=$?
        exec 4>&-
        rm pipe
        gave "$words, a closed pipe" 2 '' "${wrong}Broken pipe*"
    }
done
status=0
run gillacorn draw T 800 1400 >out 2>&- || status=$?
: >err
gave "a closed standard error" 1 '' ''

# ---- on a terminal, work that takes long is counted

if command -v script >/dev/null; then
    perl -e 'print pack "V2", 16 * $_ + 16, 16 * $_ + 16 for 0 .. 99999' >wide
    perl -e 'printf "%x\n", 0x100 + $_ for 0 .. 1499' >samples
    {
        declare -f run
        declare -p built
        declare -p GILLACORN_EMULATOR 2>/dev/null || true
        echo 'run gillacorn back wide 0 FFFFFFFF - <samples >found'
    } >long.sh
    began=$SECONDS
    script -qec "bash long.sh" /dev/null </dev/null >terminal || fail "on a terminal: $(cat terminal)"
    # What takes less than a second is not counted.
    if [ $((SECONDS - began)) -ge 2 ]; then
        grep -aq 'targets: [0-9]* of 1500' terminal || fail "nothing is counted on a terminal"
    fi
    [ "$(wc -l <found)" -eq 1500 ] || fail "on a terminal the answer is another"
    asked=$((asked + 1))
fi

echo "cli: $asked questions, all answered as they should be"
