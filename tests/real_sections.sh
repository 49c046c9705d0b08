#!/usr/bin/env bash
# The section report, `gillacorn sections`, on PE files that others made, held line by line to what
# llvm-readobj says of the same file: on the files as they are, and on copies in which every other section
# has another name, no UTF-8 among them, and the rest have other flags. tests/section_report.py is the
# judge. It is apart from real_pe.sh since the command line takes more of Debian's packages.
# Exits with 77, after one line, where something can't be had.
set -euo pipefail
. "$(dirname "$0")/../rust/lib.sh"
. "$(dirname "$0")/real_files.sh"

find_readobj
command -v python3 >/dev/null || missing "python3"
build_cli
fetch_packages

judge=$repository/tests/section_report.py
work=$(mktemp -d)
trap 'rm -rf "$work"' EXIT
mkdir "$work/patched"
pe_files | python3 "$judge" patch "$work/patched"

compare() { # what they are; the files are on standard input
    local file count=0
    : >"$work/all"
    while read -r file; do
        "$readobj" --sections "$file" | python3 "$judge" said >"$work/said"
        run gillacorn sections "$file" >"$work/ours"
        diff "$work/said" "$work/ours" || { echo "real_sections: $file differs" >&2; exit 1; }
        count=$((count + 1))
        cat "$work/ours" >>"$work/all"
    done
    [ "$count" -ge 3 ] || missing "three PE files in $packages"
    echo "real_sections: $count files $1, $(grep -ac '^[0-9]' "$work/all") sections," \
        "$(grep -acE '^[0-9]+ +[0-9A-F]{16} ' "$work/all") names in hex," \
        "$(sed -n 's/^flags: //p' "$work/all" | sed 's/, /\n/g' | sort -u | wc -l) letters," \
        "all as $(basename "$readobj") has them"
}

pe_files | compare "as they are"
find "$work/patched" -type f | sort | compare "with other names and flags"
