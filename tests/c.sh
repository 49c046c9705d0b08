#!/usr/bin/env bash
# What a C developer gets, as installed: the header in C and in C++ with every warning, a layout that
# differs seen at compile time, and the examples' answers, in C99 and in C++.
# Exits with 77, after one line, where a compiler for x86-64 or pkg-config can't be had.
# shellcheck disable=SC2154 # compile_c, compile_cxx: of target/setup
set -euo pipefail
. "$(dirname "$0")/../rust/lib.sh"

command -v pkg-config >/dev/null || {
    echo "c: not to be had: pkg-config (Debian: pkgconf)" >&2
    exit 77
}
ready c
strict=(-Wall -Wextra -Werror -pedantic)
work=$(mktemp -d)
trap 'rm -rf "$work"' EXIT

fails() {
    echo "c: $*" >&2
    exit 1
}

bash "$repository/install.sh" "$work/installed" >/dev/null
asked() { PKG_CONFIG_PATH=$work/installed/lib/pkgconfig pkg-config "$@" gillacorn; }
read -ra cflags <<<"$(asked --cflags)"
read -ra libs <<<"$(asked --libs)"
version=$(asked --modversion)
grep -qx "version = \"$version\"" "$rust/gillacorn/Cargo.toml" || fails "version $version, and another in the Rust crate"

# ---- the header by itself, and one that lays a struct out otherwise

header=$work/installed/include/gillacorn.h
for std in c99 c11 c17; do
    $compile_c -std=$std "${strict[@]}" -fsyntax-only -x c "$header" || fails "the header in $std"
done
for std in c++11 c++17; do
    $compile_cxx -std=$std "${strict[@]}" -fsyntax-only -x c++ "$header" || fails "the header in $std"
done
# A part of it alone is told in one sentence.
if $compile_c -fsyntax-only -x c "$work/installed/include/gillacorn_addresses.h" 2>"$work/said"; then
    fails "a part of the header is taken alone"
fi
[ "$(grep -c 'error: ' "$work/said")" -eq 1 ] && grep -q 'include that one' "$work/said" ||
    fails "a part of the header alone: $(cat "$work/said")"
mkdir "$work/other"
cp "$work"/installed/include/* "$work/other/"
sed 's/uint32_t start, end; gillacorn_cursor cursor/uint32_t end, start; gillacorn_cursor cursor/' "$header" >"$work/other/gillacorn.h"
cmp -s "$header" "$work/other/gillacorn.h" && fails "no struct to change in the header"
for std in c99 c11; do
    if $compile_c -std=$std -fsyntax-only -x c "$work/other/gillacorn.h" 2>"$work/said"; then
        fails "another layout is not seen in $std"
    fi
    grep -q 'gillacorn_step_answer' "$work/said" || fails "another layout is not named in $std"
done
if $compile_cxx -std=c++11 -fsyntax-only -x c++ "$work/other/gillacorn.h" 2>/dev/null; then
    fails "another layout is not seen in C++"
fi

# ---- the examples

lines=0
example() { # name; the lines that it has to print are on standard input
    local source=$repository/examples/$1.c as
    cat >"$work/expected"
    $compile_c -std=c99 "${strict[@]}" -static -O2 "${cflags[@]}" "$source" "${libs[@]}" -o "$work/c99"
    $compile_cxx -x c++ -std=c++11 "${strict[@]}" -static -O2 "${cflags[@]}" "$source" -x none "${libs[@]}" -o "$work/c++"
    for as in c99 c++; do
        ${GILLACORN_EMULATOR:-} "$work/$as" >"$work/said"
        diff "$work/expected" "$work/said" || fails "the example $1 as $as: other than expected"
    done
    lines=$((lines + $(wc -l <"$work/expected")))
}

example example <<END
gillacorn $version
00000FFF hole
000010FF 000050FF
00001100 hole
FFFFFFFF refused 4: a sum or product exceeds 32 bits
00001080 00005080, 3 probes
00001180 hole, 2 probes
00001280 00004080, 2 probes
00005000 00005100
00004000 00004100
00005080 00005180
pieces 3
clash 00001080 00001300
no clash in 00001000..00001300
000050A0 from 000010A0 and 00001320
00005100 from 00001380
section 1 .text at 00001000, code
section 2 .data at 00004000
00005900 by memory size at 2:00001900
00005900 by raw size in no section
offset 1:00000020 at 00005020
offset 1:00000110 is gone
frame 00000100, standard, locals 8
cut: refused 1: the table's length is no multiple of its record
END
example bundle <<END
bundle of 88 bytes
original sections absent
transformed sections absent
to original at 0, 16 bytes
to transformed absent
old frames at 16, 16 bytes
new frames at 32, 0 bytes
000010FF 000050FF
00001100 hole
00001100 00001100
frame 00000100
cut: refused 8: this is no bundle: it has fewer than 56 bytes or does not end in BACK
END
echo "c: the header in C99, C11, C17, C++11 and C++17; the examples in C and C++, $lines lines as they should be"
