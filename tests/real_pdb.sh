#!/usr/bin/env bash
# A PDB that others' tools made (clang and lld-link, 32-bit code): its frame data and its section
# headers, decoded through the face and held beside what llvm-pdbutil says of them. Then a bundle of
# both and of another PE file's section headers, out of which the same has to be read.
# Exits with 77, after one line, where a tool is missing.
set -euo pipefail
. "$(dirname "$0")/../rust/lib.sh"

for tool in clang lld-link llvm-pdbutil; do
    command -v $tool >/dev/null || {
        echo "real_pdb: not to be had: $tool (Debian: clang lld llvm)" >&2
        exit 77
    }
done
ready
cargo_here build --release -p readers

made=$rust/target/real_pdb
rm -rf "$made" && mkdir -p "$made"
cd "$made"

# Functions with locals, saved registers and prologs of several steps.
{
    echo 'int g;'
    for n in $(seq 1 40); do
        echo "__declspec(noinline) int f$n(int a, int b, int c) { int x[$((n % 9 * 3 + 1))];
              for (int i = 0; i < (int)(sizeof x / sizeof *x); i++) x[i] = a * i + b / (c | 1);
              g += x[a & $((n % 9))]; return g $([ "$n" -gt 1 ] && echo "+ f$((n - 1))(b, c, a)"); }"
    done
    echo 'int mainCRTStartup(void) { return f40(1, 2, 3); }'
} >some.c
clang --target=i686-pc-windows-msvc -gcodeview -g -O1 -fomit-frame-pointer -fno-inline -c some.c -o some.obj
lld-link /debug /entry:mainCRTStartup /subsystem:console /nodefaultlib /out:some.exe /pdb:some.pdb some.obj

stream() { # the number of a stream by its heading, or nothing
    llvm-pdbutil dump -streams some.pdb | sed -n "s/^ *Stream *\([0-9]*\) .*\[$1\]\$/\1/p"
}
export_to() {
    llvm-pdbutil export --stream="$1" --out="$2" some.pdb >/dev/null
}
export_to "$(stream 'New FPO Data')" new
export_to "$(stream 'Section Header Data')" headers
export_to /names names

llvm-pdbutil dump -fpo some.pdb | awk -F ' *[|] *' '
    /New FPO Data/ { new = 1 }
    new && $1 ~ /^[0-9A-F]+$/ {
        sub(/ +$/, "", $11)
        print $1, "fdata", $2, $3, $4, $5, $6, $7, $8, $9, $10, $11
    }' >said.frames
run frames - new names >our.frames
diff said.frames our.frames || { echo "real_pdb: frames differ" >&2; exit 1; }

# The same frames through the program `frames`: no old table, then the stream.
{
    printf '\0\0\0\0'
    cat new
} >report.in
"$repository/run" frames <report.in | awk 'NR > 1 && $1 != "frames" { print $1, $9, $2, $3, $4, $7, $5, $6 }' >our.report
llvm-pdbutil dump -fpo some.pdb | awk -F ' *[|] *' '
    function hex8(n) { return sprintf("%08X", n) }
    /New FPO Data/ { new = 1 }
    new && $1 ~ /^[0-9A-F]+$/ {
        print $1, "fdata", hex8($2), hex8($3), hex8($4), hex8($5), sprintf("%04X", $6), sprintf("%04X", $7)
    }' >said.report
diff said.report our.report || { echo "real_pdb: the report differs" >&2; exit 1; }

llvm-pdbutil dump -section-headers some.pdb | awk '
    /Original Section Headers/ { exit }
    /SECTION HEADER/ { number = substr($3, 2); line = ""; next }
    / name$/ { name = $1; next }
    / (virtual|size of raw|file pointer|number of)/ { line = line " " $1 }
    / flags$/ { print number, name line, $1 }' >said.headers
run sections --table headers | while read -r number name rest; do
    # Without the flags by name, and with the name as text.
    set -- $rest
    echo "$number $(printf '%b' "$(echo "$name" | sed 's/\(00\)*$//; s/../\\x&/g')") ${*:1:9}"
done >our.headers
diff said.headers our.headers || { echo "real_pdb: section headers differ" >&2; exit 1; }

for some in our.frames our.headers our.report; do
    [ -s "$some" ]
done
echo "real_pdb: $(wc -l <our.frames) frames and $(wc -l <our.headers) section headers, all as llvm-pdbutil has them"

# ---- one bundle, by the command line

build_cli
differs() {
    echo "real_pdb: $*, out of the bundle and not" >&2
    exit 1
}
# Without debug data it has fewer sections, so that the two tables of headers can't stand for each other.
lld-link /entry:mainCRTStartup /subsystem:console /nodefaultlib /out:other.exe some.obj
number() { # at a place of other.exe, of this many bytes
    od -An -v -t "u$2" -j "$1" -N "$2" other.exe | tr -d ' '
}
signature=$(number 60 4)
optional=$(number $((signature + 20)) 2)
dd if=other.exe of=pe.headers bs=1 status=none \
    skip=$((signature + 24 + optional)) count=$((40 * $(number $((signature + 6)) 2)))
if cmp -s headers pe.headers; then
    echo "real_pdb: the two tables of headers are the same" >&2
    exit 1
fi

run gillacorn bundle pack some.bundle --original-sections headers --transformed-sections pe.headers --new-frames new >packed
run gillacorn bundle list some.bundle | diff packed - || differs "the list"

# As the command line reads them, from the bundle and from the files.
run gillacorn frames --new new >alone
run gillacorn frames --bundle some.bundle | diff alone - || differs "frames"
run gillacorn sections other.exe >alone
run gillacorn sections some.bundle --part transformed-sections | diff alone - || differs "the PE file's headers"

# As the readers above did: each part is what went in, and nothing else comes out.
run gillacorn bundle unpack some.bundle parts >/dev/null
run frames - parts/new-frames names | diff our.frames - || differs "frames, unpacked"
run sections --table headers >alone
run sections --table parts/original-sections | diff alone - || differs "the PDB's headers, unpacked"
run sections other.exe >alone
run sections --table parts/transformed-sections | diff alone - || differs "the PE file's headers, unpacked"
cmp new parts/new-frames
cmp headers parts/original-sections
cmp pe.headers parts/transformed-sections
[ "$(find parts -type f | wc -l)" -eq 3 ]
echo "real_pdb: the same out of a bundle of $(wc -c <some.bundle) bytes"
