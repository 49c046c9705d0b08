#!/usr/bin/env bash
# Addresses at the ends of sections of PE files that others made; above all in zero-filled data, which
# memory has and the file has not. The judge is what llvm-readobj says of where each section lies. By
# raw size our answers have to be pdb's.
# Exits with 77, after one line, where something can't be had.
set -euo pipefail
. "$(dirname "$0")/../rust/lib.sh"
. "$(dirname "$0")/real_files.sh"

find_readobj
ready_for_pdb
fetch_packages

# Each section's number, address, size in memory and raw size, in decimal.
said() { # file
    "$readobj" --sections "$1" | awk '
        $1 == "Number:" { number = $2 }
        $1 == "VirtualSize:" { size = $2 }
        $1 == "VirtualAddress:" { start = $2 }
        $1 == "RawDataSize:" { print number, start, size, $2 }' |
        while read -r number start size raw; do
            echo "$number $((start)) $((size)) $raw"
        done
}

# What is asked of each section, and the answer expected: the first byte; the last one of the raw data and
# the one after it; the last one in memory and the one after it. A line is: how the two sizes stand to
# each other, the section, the address, the answer.
asked() { # the lines of `said` are on standard input
    awk '
        { number[NR] = $1; start[NR] = $2; size[NR] = $3 ? $3 : $4; raw[NR] = $4 }
        function ask(of, address,    at, answer) {
            if ((of, address) in asked) return
            asked[of, address]
            answer = "none"
            for (at = 1; at <= NR; at++)
                if (start[at] <= address && address < start[at] + size[at])
                    answer = answer == "none" ? sprintf("%d:%X", number[at], address - start[at]) : "two"
            printf "%s %d %08X %s\n", kind, number[of], address, answer
        }
        END {
            for (of = 1; of <= NR; of++) {
                kind = size[of] == raw[of] ? "equal" : size[of] < raw[of] ? "padding" : raw[of] ? "tail" : "zeros"
                ask(of, start[of])
                if (raw[of]) ask(of, start[of] + raw[of] - 1)
                ask(of, start[of] + raw[of])
                ask(of, start[of] + size[of] - 1)
                ask(of, start[of] + size[of])
            }
        }'
}

cargo_here build --release -p readers --features pdb --bin located
work=$(mktemp -d)
trap 'rm -rf "$work"' EXIT
: >"$work/all"
count=0
while read -r file; do
    said "$file" | asked >"$work/asked"
    cut -d ' ' -f 3 "$work/asked" | run located "$file" >"$work/answered"
    # The kind, the section, the address, what is expected; the address, ours, ours by raw size, pdb's.
    paste -d ' ' "$work/asked" "$work/answered" >"$work/both"
    awk '$3 != $5 || $4 != $6 || $7 != $8 || NF != 8 {
        print "section " $2 ", address " $3 ": expected " $4 ", ours " $6 "; by raw size " $7 ", pdb " $8
        wrong = 1
    }
    END { exit wrong }' "$work/both" || { echo "real_zero_fill: $file differs" >&2; exit 1; }
    count=$((count + 1))
    sed "s|^|$count:${file##*/} |" "$work/both" >>"$work/all"
done < <(pe_files)

# Of all answers, those of some kinds of sections: zeros have no raw data, a tail of zeros follows raw
# data, padding follows what memory has.
sections() { # kinds
    awk -v kinds="$1" 'index(kinds, $2) { print $1, $3 }' "$work/all" | sort -u | wc -l
}
addresses() { # kinds, and a condition on our answer, $7, and pdb's, $9
    awk -v kinds="$1" "index(kinds, \$2) && ($2)" "$work/all" | wc -l
}
if [ "$(sections 'zeros tail')" -lt 3 ] || [ "$(sections tail)" -lt 1 ]; then
    missing "three sections with zero-filled data, one of them with raw data too, in $packages"
fi
# pdb's answers beside ours, at the ends of zero-filled data.
awk '$2 == "zeros" || $2 == "tail" {
    if ($1 != file || $3 != section) printf "%s%s, section %d:", line, substr($1, index($1, ":") + 1), $3
    else printf ","
    printf " %s ours %s pdb %s", $4, $7, $9
    file = $1; section = $3; line = "\n"
}
END { print "" }' "$work/all"
echo "real_zero_fill: $count files, all as $(basename "$readobj") says where sections lie; by raw size as pdb has it"
echo "    zero-filled data of $(sections 'zeros tail') sections, $(sections tail) of them with raw data too:" \
    "$(addresses 'zeros tail' 1) addresses, for $(addresses 'zeros tail' '$7 != "none" && $9 == "none"') of which pdb alone has none"
echo "    padding of $(sections padding) sections:" \
    "$(addresses padding 1) addresses, for $(addresses padding '$7 == "none" && $9 != "none"') of which pdb alone has a section"
echo "    equal sizes in $(sections equal) sections: $(addresses equal 1) addresses"
