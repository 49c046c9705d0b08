#!/usr/bin/env bash
# The section tables of PE files that others made, decoded through the face and held beside what
# llvm-readobj says of them. The files are those of Debian's packages, fetched once.
# Exits with 77, after one line, where something can't be had.
set -euo pipefail
. "$(dirname "$0")/../rust/lib.sh"
. "$(dirname "$0")/real_files.sh"

find_readobj
ready
fetch_packages

# A line for each section, as the reader prints it.
said() {
    "$readobj" --sections "$1" | awk '
        function hex(word) { gsub(/[()]|^[(]?0x/, "", word); return word }
        $1 == "Number:" { number = $2 }
        $1 == "Name:" && /\(/ { sub(/.*\(/, ""); gsub(/[ )]/, ""); name = $0 }
        $1 == "VirtualSize:" { line = number " " name " " hex($2) }
        $1 == "VirtualAddress:" || $1 ~ /^PointerTo/ { line = line " " hex($2) }
        $1 == "RawDataSize:" { line = line " " sprintf("%X", $2) }
        $1 == "RelocationCount:" || $1 == "LineNumberCount:" { line = line " " $2 }
        $1 == "Characteristics" { line = line " " hex($3); flags = 1; next }
        flags && $1 == "]" { print line; flags = 0 }
        flags { line = line " " $1 }'
}

cargo_here build --release -p readers --bin sections
count=0
sections=0
while read -r file; do
    said "$file" >"$files/said"
    run sections "$file" | sed 's/ $//' >"$files/ours"
    diff "$files/said" "$files/ours" || { echo "real_pe: $file differs" >&2; exit 1; }
    count=$((count + 1))
    sections=$((sections + $(wc -l <"$files/ours")))
done < <(pe_files)
[ "$count" -ge 3 ] || missing "three PE files in $packages"
echo "real_pe: $count files, $sections section headers, all as $(basename "$readobj") has them"
