# shellcheck shell=bash disable=SC1003,SC2034,SC2154
# `sections` at the command line: the section report, each kind of name and each flag; names as `locate`
# shows them too. A part of cli.sh, which sources it; cli_bundle.sh and cli_locate.sh need its tables.

section() { # name, address, size, raw size, place in the file, flags
    local LC_ALL=C # a length is in bytes
    printf '%s' "$1"
    head -c $((8 - ${#1})) /dev/zero
    bytes "$3" "$2" "$4" "$5" 0 0 0 "$6"
}

# ---- a bare table, and the same table in a PE file

{
    section .text 0x1000 0xABC 0xC00 0x400 0x60500020
    section $'\e[2J"' 0x2000 0x10 0x200 0x1000 0xC0000040
    section '' 0x3000 0 0 0 0
} >table
listed='no.   name             address  size     raw size flags
1     .text            00001000 00000ABC 00000C00 cER
2     \u{1b}[2J\"      00002000 00000010 00000200 dRW
3                      00003000 00000000 00000000
flags: c code, d initialized data, E execute, R read, W write
sections 3'
pe() { # where the header is said to be, how many sections
    printf 'MZ'
    head -c 58 /dev/zero
    bytes "$1"
    printf 'PE\0\0\x64\x86'
    printf '%b' "\\x0$2\\0"
    bytes 0 0 0
    printf '\x08\0\0\0'
    bytes 0 0
    cat table
}
pe 0x40 3 >image
is 0 "$listed" '' sections table
is 0 "$listed" '' sections image
from=image is 0 "$listed" '' sections -
head=$(head -n 1 <<<"$listed")
is 0 "$head"$'\nsections 0' '' sections empty
pe 0x40 4 >longer
pe 0x41 3 >moved
pe 0xFFFFFFFF 3 >outside
printf 'MZ' >begun
short='it begins as a PE file, and ends before its section table'
is 2 '' "gillacorn: longer: $short" sections longer
is 2 '' "gillacorn: outside: $short" sections outside
is 2 '' "gillacorn: begun: $short" sections begun
is 2 '' 'gillacorn: moved: it begins as a PE file, and has none at 41' sections moved
head -c 39 table >half
head -c $((40 * 65536)) /dev/zero >more_sections
is 1 '' "refused 1: $long" sections half
is 1 '' "refused 2: $many" sections more_sections

# ---- JSON has every field

{
    printf '%b' '.all\0\0\0\xFF'
    bytes 0xABC 0x1000 0xC00 0x400 0x500 0x600 0x00080007 0x60500020
} >one
is 0 '{"sections":[{"number":1,"name":".all","name_bytes":"2E616C6C000000FF","virtual_size":2748,'\
'"virtual_address":4096,"size_of_raw_data":3072,"pointer_to_raw_data":1024,"pointer_to_relocations":1280,'\
'"pointer_to_line_numbers":1536,"number_of_relocations":7,"number_of_line_numbers":8,'\
'"characteristics":1615855648,"flags":["executable","execute","read"],"alignment":16}]}' '' \
    sections --json one

# ---- names: the eight bytes, the name in JSON, and in the report, where it is 16 letters wide or more

names='2E74657874000000|".text"|.text           |
4445414442454546|"DEADBEEF"|DEADBEEF        |
6120622E20000000|"a b. "|a b.            |
0000000000000000|""|                |
00C1FF2E74657874|""|                |
6162006364FF0001|"ab"|ab              |
1B5B324A22000000|"\u001b[2J\""|\u{1b}[2J\"     |
09070A0D7F000000|"\u0009\u0007\u000a\u000d\u007f"|\t\u{7}\n\r\u{7f}|
C29B324A00000000|"\u009b2J"|\u{9b}2J        |
275C000000000000|"'\''\\"|\'\''\\            |
0101010101010101|"\u0001\u0001\u0001\u0001\u0001\u0001\u0001\u0001"|\u{1}\u{1}\u{1}\u{1}\u{1}\u{1}\u{1}\u{1}|
C3A4000000000000|"ä"|ä               |
E282AC0000000000|"€"|€               |
F09F988000000000|"😀"|😀               |
F09F9880F09F9880|"😀😀"|😀😀              |
61C3A4E282AC6200|"aä€b"|aä€b            |
C3A4C3B6C3BCC39F|"äöüß"|äöüß            |
E280AE0000000000|"'$'\xE2\x80\xAE''"|\u{202e}        |
ED9FBF0000000000|"'$'\xED\x9F\xBF''"|\u{d7ff}        |
F48FBFBF00000000|"'$'\xF4\x8F\xBF\xBF''"|\u{10ffff}      |
8000000000000000|null|8000000000000000|
C080000000000000|null|C080000000000000|
C180000000000000|null|C180000000000000|
C1BF000000000000|null|C1BF000000000000|
C341000000000000|null|C341000000000000|
E080800000000000|null|E080800000000000|
E282000000000000|null|E282000000000000|
EDA0800000000000|null|EDA0800000000000|
F080808000000000|null|F080808000000000|
F490808000000000|null|F490808000000000|
F580808000000000|null|F580808000000000|
FF00000000000000|null|FF00000000000000|
61626364656667C3|null|61626364656667C3|
6162636465F09F98|null|6162636465F09F98|
61C300AA000000BB|null|61C300AA000000BB|'
: >named
lines='' json='' located='' located_json='' addresses=()
while IFS='|' read -r name text shown; do
    shown=${shown%|}
    # shellcheck disable=SC2001
    printf '%b' "$(sed 's/../\\x&/g' <<<"$name")" >>named
    number=$((${#addresses[@]} + 1))
    address=$((number * 0x1000))
    bytes 0x123 $address 0x200 0 0 0 0 0 >>named
    hex=$(printf '%08X' $address)
    addresses+=("$hex")
    lines+=$(printf '%-5d %s %s 00000123 00000200' $number "$shown" "$hex")$'\n'
    located+=$(printf '%s %-5d 00000000 %s' "$hex" $number "$shown" | sed 's/ *$//')$'\n'
    told="\"name\":$text,\"name_bytes\":\"$name\""
    json+=",{\"number\":$number,$told,\"virtual_size\":291,\"virtual_address\":$address,\"size_of_raw_data\":512,"
    json+='"pointer_to_raw_data":0,"pointer_to_relocations":0,"pointer_to_line_numbers":0,'
    json+='"number_of_relocations":0,"number_of_line_numbers":0,"characteristics":0,"flags":[],"alignment":null}'
    located_json+=",{\"address\":$address,\"section\":$number,\"offset\":0,$told}"
done <<<"$names"
is 0 "$head"$'\n'"${lines}sections $number" '' sections named
is 0 "{\"sections\":[${json#,}]}" '' sections named --json
is 0 "${located%$'\n'}" '' locate named "${addresses[@]}"
is 0 "{\"addresses\":[${located_json#,}]}" '' locate named --json "${addresses[@]}"

# ---- flags: the bit, the letter, the name in JSON, the words

flags='00000020 c executable code
00000040 d initialized_data initialized data
00000080 z uninitialized_data uninitialized data
20000000 E execute execute
40000000 R read read
80000000 W write write
10000000 S shared shared
02000000 D discardable discardable
04000000 K not_cached not cached
08000000 P not_paged not paged
00000100 o other other
00000200 i info info
00000800 r remove removed
00001000 m comdat comdat
00004000 x defer_speculative_exceptions defer speculative exceptions
00008000 g global_pointer_relative global pointer relative
00020000 u purgeable purgeable
00040000 l locked locked
00080000 p preload preload
01000000 n lnk_nreloc_ovfl relocations overflow'
: >each
lines='' legend='' letters='' all='' number=0
run gillacorn sections --help >help
while read -r bit letter name words; do
    number=$((number + 1))
    section .one 0x1000 1 2 0 "0x$bit" | tee only >>each
    line=" .one             00001000 00000001 00000002 $letter"$'\n'
    is 0 "$head"$'\n'"1    ${line}flags: $letter $words"$'\nsections 1' '' sections only
    lines+=$(printf '%-5d' $number)$line
    legend+=", $letter $words"
    letters+=$letter
    all+=",\"$name\""
    grep -qE "^  $letter  $words +$name\$" help || fail "sections --help does not tell of $letter"
done <<<"$flags"
[ "$(grep -cE '^  [A-Za-z]  ' help)" -eq $number ] || fail "sections --help tells of other letters"
is 0 "$head"$'\n'"${lines}flags: ${legend#, }"$'\n'"sections $number" '' sections each
section .every 0x1000 1 2 0 0xFFFFFFFF >every
is 0 "$head
1     .every           00001000 00000001 00000002 $letters
flags: ${legend#, }
sections 1" '' sections every
is 0 '{"sections":[{"number":1,"name":".every","name_bytes":"2E65766572790000","virtual_size":1,'\
'"virtual_address":4096,"size_of_raw_data":2,"pointer_to_raw_data":0,"pointer_to_relocations":0,'\
'"pointer_to_line_numbers":0,"number_of_relocations":0,"number_of_line_numbers":0,'\
'"characteristics":4294967295,"flags":['"${all#,}"'],"alignment":null}]}' '' sections --json every
# The bits that have no letter.
section .none 0x1000 1 2 0 0x00F1241F >none
is 0 "$head
1     .none            00001000 00000001 00000002
sections 1" '' sections none
