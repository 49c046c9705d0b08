# shellcheck shell=bash disable=SC2034,SC2154
# Bundles at the command line: each sub-word, `--part` and `--bundle`, refusals 8, 9 and 10, files that
# are there, and outputs that fail. A part of cli.sh, which sources it once its tables are made.
# Refusal 4 of a bundle takes 4 GiB: the Rust crate's own tests have it.

absent=0xFFFFFFFF

# The end of a bundle. Parts that are left out are absent.
trailer() { # start and length of each part, then the version
    local numbers=("${@:1:$#-1}")
    while [ ${#numbers[@]} -lt 12 ]; do
        numbers+=("$absent")
    done
    bytes "${numbers[@]}" "${@: -1}"
    printf BACK
}

same() { # two files
    cmp "$1" "$2" >&2 || fail "$1 and $2 differ"
    asked=$((asked + 1))
}

# Holds a folder to what it has to have: a temporary file would be seen.
holds() { # folder, names in order
    local found
    found=$(find "$1" -mindepth 1 -printf '%P\n' | LC_ALL=C sort)
    [ "$found" = "$(printf '%s\n' "${@:2}")" ] || fail "$1 holds: $found"
    asked=$((asked + 1))
}

# ---- pack and list

head -c 40 table >one_section
parts=(--original-sections table --transformed-sections one_section --to-original T
    --to-transformed swapped --old-frames old --new-frames new)
columns='part                 start    length   records   table'
all="$columns
original-sections    00000000 00000078 3         good
transformed-sections 00000078 00000028 1         good
to-original          000000A0 00000020 4         good
to-transformed       000000C0 00000010 2         good
old-frames           000000D0 00000050 5         good
new-frames           00000120 00000040 2         good
parts 6"
mkdir packed
is 0 "$all" '' bundle pack packed/all "${parts[@]}"
{
    cat table one_section T swapped old new
    trailer 0 0x78 0x78 0x28 0xA0 0x20 0xC0 0x10 0xD0 0x50 0x120 0x40 1
} >all
same all packed/all
is 0 "$all" '' bundle list all
from=all is 0 "$all" '' bundle list -
is 0 "$columns
original-sections    absent
transformed-sections absent
to-original          absent
to-transformed       absent
old-frames           absent
new-frames           absent
parts 0" '' bundle pack packed/none
trailer 1 >none
same none packed/none
# An absent part and an empty one are not the same.
is 0 "$columns
original-sections    absent
transformed-sections 00000000 00000028 1         good
to-original          00000028 00000000 0         good
to-transformed       absent
old-frames           absent
new-frames           absent
parts 2" '' bundle pack packed/some --to-original empty --transformed-sections one_section
{
    cat one_section
    trailer $absent $absent 0 0x28 0x28 0 1
} >some
same some packed/some
from=T is 0 "$columns
original-sections    absent
transformed-sections absent
to-original          00000000 00000020 4         good
to-transformed       absent
old-frames           absent
new-frames           absent
parts 1" '' bundle pack packed/omap --to-original -
{
    cat T
    trailer $absent $absent $absent $absent 0 0x20 1
} >omap
same omap packed/omap
# Parts are bytes: what is no table is packed, and told. Order is not looked at.
is 0 "$columns
original-sections    00000000 00000027 0         refused 1: $long
transformed-sections 00000027 00280000 65536     refused 2: $many
to-original          00280027 0000001F 3         refused 1: $long
to-transformed       00280046 00800008 1048577   refused 2: $many
old-frames           00A8004E 01000010 1048577   refused 2: $many
new-frames           01A8005E 0000001F 0         refused 1: $long
parts 6" '' bundle pack packed/bad --original-sections half --transformed-sections more_sections \
    --to-original cut --to-transformed more --old-frames more_frames --new-frames cut
is 0 '{"parts":[{"part":"original-sections","present":true,"start":0,"length":39,"records":0,'\
"\"refused\":1,\"sentence\":\"$long\"},"\
'{"part":"transformed-sections","present":false},'\
'{"part":"to-original","present":true,"start":39,"length":32,"records":4,"refused":null},'\
'{"part":"to-transformed","present":false},{"part":"old-frames","present":false},'\
'{"part":"new-frames","present":true,"start":71,"length":0,"records":0,"refused":null}]}' '' \
    bundle pack packed/json --json --original-sections half --to-original T --new-frames empty
is 2 '' 'gillacorn: standard input can be read once' bundle pack packed/twice --to-original - --old-frames -
is 2 '' 'gillacorn: a bundle goes to a file*' bundle pack - --to-original T
is 2 '' "gillacorn: can't read nothing: No such file*" bundle pack packed/twice --to-original nothing
holds packed all bad json none omap some

# ---- unpack

is 0 'file                 length
original-sections    00000078
transformed-sections 00000028
to-original          00000020
to-transformed       00000010
old-frames           00000050
new-frames           00000040
files 6' '' bundle unpack all unpacked
six=(new-frames old-frames original-sections to-original to-transformed transformed-sections)
unpacked() { # a folder that has all of the parts
    holds "$1" "${six[@]}"
    same table "$1/original-sections"
    same one_section "$1/transformed-sections"
    same T "$1/to-original"
    same swapped "$1/to-transformed"
    same old "$1/old-frames"
    same new "$1/new-frames"
}
unpacked unpacked
from=some is 0 '{"files":[{"file":"transformed-sections","length":40},{"file":"to-original","length":0}]}' '' \
    --json bundle unpack - from_some
holds from_some to-original transformed-sections
same empty from_some/to-original
is 0 'file                 length
files 0' '' bundle unpack none from_none
holds from_none

# ---- a bundle in the place of a table

for word in 'draw @ 800 1300' 'lookup @ 10FF 1100' 'lookup --quick @ 10FF' 'window @ 800 1300' \
    'clash @ 800 1300' 'back @ 800 1300 5010' 'draw --json @ 800 1300 1000'; do
    # shellcheck disable=SC2086
    told=$(run gillacorn ${word/@/T})
    # shellcheck disable=SC2086
    is 0 "$told" '' ${word/@/all} --part to-original
    # shellcheck disable=SC2086
    from=all is 0 "$told" '' ${word/@/-} --part to-original
    # shellcheck disable=SC2086
    is 2 '' 'gillacorn: some has no part to-transformed' ${word/@/some} --part to-transformed
    # shellcheck disable=SC2086
    from=none is 2 '' 'gillacorn: standard input has no part to-original' ${word/@/-} --part to-original
    # shellcheck disable=SC2086
    is 2 '' '*old-frames*possible values: to-original, to-transformed*' ${word/@/all} --part old-frames
done
is 0 '00000001 hole' '' lookup some 1 --part to-original
is 1 '' "refused 3: $unordered" lookup all 1100 --part to-transformed
is 1 '' "refused 1: $long" draw packed/bad 800 1300 --part to-original
is 0 "$listed" '' sections all --part original-sections
from=all is 0 "$(run gillacorn sections one_section)" '' sections - --part transformed-sections
is 2 '' 'gillacorn: some has no part original-sections' sections some --part original-sections
is 2 '' '*to-original*possible values: original-sections, *' sections all --part to-original
is 0 "$frames" '' frames --bundle all
from=all is 0 "$frames" '' frames --bundle -
is 2 '' 'gillacorn: some has no part old-frames or new-frames' frames --bundle some
run gillacorn bundle pack packed/new --new-frames new >/dev/null
is 0 "$(run gillacorn frames --new new)" '' frames --bundle packed/new
is 2 '' "*'--bundle <FILE>' cannot be used with '--old <FILE>'*" frames --bundle all --old old
# Nothing is guessed: a bundle is no table, and a part that begins as a PE file does is one.
is 1 '' "refused 1: $long" sections all
is 1 '' "refused 3: $unordered" lookup omap 1000
run gillacorn bundle pack packed/image --original-sections begun >/dev/null
is 1 '' "refused 1: $long" sections packed/image --part original-sections
rm packed/new packed/image

# ---- refusals 8, 9 and 10

{
    cat T
    trailer $absent $absent $absent $absent 0 0x20 2
} >version_2
head -c 55 none >no_trailer
cat T none >loose
trailer 0 $absent 1 >half_absent
trailer 0 0 1 0 1 >late
{
    cat T
    trailer $absent $absent $absent $absent 0 0x21 1
} >into_trailer
mkdir refused
for words in 'bundle list @' 'bundle unpack @ refused' 'draw @ 800 1300 --part to-original' \
    'sections @ --part original-sections' 'frames --bundle @'; do
    for file in empty no_trailer T more; do
        # shellcheck disable=SC2086
        is 1 '' 'refused 8: this is no bundle: it has fewer than 56 bytes or does not end in BACK' \
            ${words/@/$file}
    done
    # shellcheck disable=SC2086
    is 1 '' 'refused 9: the bundle has another version than 1' ${words/@/version_2}
    for file in loose half_absent late into_trailer; do
        # shellcheck disable=SC2086
        is 1 '' 'refused 10: the parts of the bundle break its layout' ${words/@/$file}
    done
done
is 1 '{"refused":9,"sentence":"the bundle has another version than 1"}' 'refused 9: *' \
    bundle list version_2 --json
is 1 '' 'refused 9: *' bundle unpack version_2 not_made
[ ! -e not_made ] || fail "a refused bundle makes a folder"
holds refused

# ---- files that are there

echo mine >mine
is 2 '' 'gillacorn: packed/all is there; --force overwrites it' bundle pack packed/all --to-original T
same all packed/all
chmod 640 packed/none
is 0 "$all" '' bundle pack packed/none --force "${parts[@]}"
same all packed/none
[ "$(stat -c %a packed/none)" = 640 ] || fail "--force changes who may read a file"
# All inputs are read before anything is written.
cp T packed/itself
is 0 "$columns
original-sections    absent
transformed-sections absent
to-original          00000000 00000020 4         good
to-transformed       00000020 00000020 4         good
old-frames           absent
new-frames           absent
parts 2" '' bundle pack packed/itself --force --to-original packed/itself --to-transformed packed/itself
ln -s all packed/link
mkfifo packed/pipe
for place in packed packed/ packed/link packed/pipe; do
    is 2 '' "gillacorn: $place is there; --force overwrites it" bundle pack $place
    is 2 '' "gillacorn: $place is there, and is no plain file" bundle pack $place --force
done
rm packed/link packed/pipe
same all packed/all
holds packed all bad itself json none omap some

# Where one file is there, none is written.
mkdir kept
cp mine kept/new-frames
is 2 '' 'gillacorn: kept/new-frames is there; --force overwrites it' bundle unpack all kept
holds kept new-frames
same mine kept/new-frames
run gillacorn bundle unpack all kept --force >/dev/null || fail "--force does not unpack"
unpacked kept
rm kept/new-frames
mkdir kept/new-frames
cp mine kept/old-frames
is 2 '' 'gillacorn: kept/new-frames is there, and is no plain file' bundle unpack all kept --force
same mine kept/old-frames
# A file that the bundle has no part for would be taken for one of it.
mkdir stale
cp mine stale/old-frames
for force in '' --force; do
    is 2 '' 'gillacorn: stale/old-frames is there, and the bundle has no part of that name' \
        bundle unpack omap stale $force
done
holds stale old-frames

# ---- output that can't be written

missing="No such file or directory*"
is 2 '' "gillacorn: can't write nothing/out: $missing" bundle pack nothing/out --to-original T
is 2 '' "gillacorn: can't write T/out: Not a directory*" bundle pack T/out --to-original T
is 2 '' "gillacorn: can't make the folder nothing/out: $missing" bundle unpack all nothing/out
is 2 '' "gillacorn: can't make the folder T: File exists*" bundle unpack all T

# A disk that is full after a kilobyte.
full() { # words
    status=0
    (
        trap '' XFSZ
        ulimit -f 1
        run gillacorn "$@"
    ) >out 2>err || status=$?
}
mkdir disk
full bundle pack disk/out --to-original T --old-frames more_frames
gave "pack on a full disk" 2 '' "gillacorn: can't write disk/out: File too large*"
holds disk
cp mine disk/out
full bundle pack disk/out --force --to-original T --old-frames more_frames
gave "pack --force on a full disk" 2 '' "gillacorn: can't write disk/out: File too large*"
same mine disk/out
rm disk/out
full bundle unpack packed/bad disk/made
gave "unpack on a full disk" 2 '' "gillacorn: can't write disk/made/transformed-sections: File too large*"
holds disk
cp mine disk/original-sections
full bundle unpack packed/bad disk --force
gave "unpack --force on a full disk" 2 '' "gillacorn: can't write disk/transformed-sections: File too large*"
same mine disk/original-sections
holds disk original-sections
# The answer can't be told, and the file is there.
status=0
run gillacorn bundle pack disk/out --to-original T >/dev/full 2>err || status=$?
: >out
gave "pack, a full output" 2 '' "gillacorn: can't write the answer: No space*"
same omap disk/out
holds disk original-sections out

# Something comes into a part's place while the parts are written: it stays, and what this run had put
# in place goes again. Whoever watches may be late, so it is tried some times.
meanwhile() { # what to do once writing has begun, words for `bundle unpack`
    local watch
    for _ in 1 2 3 4 5 6 7 8 9 10; do
        rm -rf raced
        mkdir raced
        [ $# -eq 1 ] || cp mine raced/to-original
        {
            until compgen -G 'raced/.gillacorn-*' >/dev/null; do :; done
            $1 raced/new-frames
        } &
        watch=$!
        status=0
        run gillacorn bundle unpack packed/bad raced "${@:2}" >out 2>err || status=$?
        kill $watch 2>/dev/null || true
        wait $watch 2>/dev/null || true
        [ $status -eq 0 ] || return 0
    done
    fail "$1 while parts are written: not seen"
}
meanwhile 'cp mine'
gave "a file that comes meanwhile" 2 '' 'gillacorn: raced/new-frames is there; --force overwrites it'
holds raced new-frames
same mine raced/new-frames
meanwhile mkdir --force
gave "a folder that comes meanwhile" 2 '' "gillacorn: can't write raced/new-frames: Is a directory*"
holds raced new-frames to-original
same mine raced/to-original
