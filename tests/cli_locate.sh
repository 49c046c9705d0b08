# shellcheck shell=bash disable=SC2034,SC2154
# `locate` at the command line: each edge of a section, by its size in memory and by its size on disk.
# A part of cli.sh, which sources it once its tables and cli_bundle.sh's functions are there.

{
    section .text 0x1000 0xABC 0xC00 0x400 0x60500020   # padding on disk
    section .data 0x2000 0x300 0x200 0x1000 0xC0000040  # zeros behind its raw data
    section .bss 0x3000 0x100 0 0 0xC0000080            # nothing else
    section '' 0x4000 0 0x80 0x1200 0x40000040          # no size in memory
    section $'\xFFname' 0x5000 1 1 0x1400 0x40000040    # a name that is not UTF-8
    section $'\e[2J"' 0x6000 1 1 0x1600 0x40000040      # one that a terminal would obey
    section .last 0xFFFFF000 0x1000 0x200 0x1800 0x40000040 # up to the last address
} >zeros

# ---- by the size in memory: first and last byte, last on disk, the one after each

is 0 '00000FFF hole
00001000 1     00000000 .text
00001ABB 1     00000ABB .text
00001ABC hole
00001BFF hole' '' locate zeros fff 0x1000 1ABB 1abc 1BFF
is 0 '00001FFF hole
00002000 2     00000000 .data
000021FF 2     000001FF .data
00002200 2     00000200 .data
000022FF 2     000002FF .data
00002300 hole' '' locate zeros 1FFF 2000 21FF 2200 22FF 2300
is 0 '00003000 3     00000000 .bss
000030FF 3     000000FF .bss
00003100 hole' '' locate zeros 3000 30FF 3100
is 0 '00004000 4     00000000
0000407F 4     0000007F
00004080 hole' '' locate zeros 4000 407F 4080
is 0 '00005000 5     00000000 FF6E616D65000000
00005001 hole
00006000 6     00000000 \u{1b}[2J\"' '' locate zeros 5000 5001 6000
is 0 'FFFFEFFF hole
FFFFFFFF 7     00000FFF .last
00000000 hole' '' locate zeros FFFFEFFF FFFFFFFF 0

# ---- by the size on disk: zero-filled data is a hole, and padding is not

is 0 '00001ABC 1     00000ABC .text
00001BFF 1     00000BFF .text
00001C00 hole
00002000 2     00000000 .data
000021FF 2     000001FF .data
00002200 hole
000022FF hole
00003000 hole
0000407F 4     0000007F
00004080 hole
FFFFF1FF 7     000001FF .last
FFFFFFFF hole' '' locate zeros --raw-size 1ABC 1BFF 1C00 2000 21FF 2200 22FF 3000 407F 4080 FFFFF1FF FFFFFFFF

# ---- where tables and addresses come from

is 0 '00002005 2     00000005 \u{1b}[2J\"' '' locate image 2005
from=zeros is 0 '00002200 2     00000200 .data' '' locate - 2200
printf '2200\n 2300 0x2000\n\n' >samples
from=samples is 0 '000022FF 2     000002FF .data
00002200 2     00000200 .data
00002300 hole
00002000 2     00000000 .data' '' locate zeros 22FF -
from=empty is 0 '' '' locate zeros -
is 0 '00000000 hole' '' locate empty 0
{
    cat zeros
    trailer 0 0x118 1
} >build
is 0 '00001BFF hole
00002200 2     00000200 .data' '' locate build --part original-sections 1BFF 2200
is 0 '00001BFF 1     00000BFF .text
00002200 hole' '' locate --raw-size build --part original-sections 1BFF 2200
{
    section MZ 0x1000 0x10 0x10 0 0
    trailer 0 0x28 1
} >begins
is 0 '00001005 1     00000005 MZ' '' locate begins --part original-sections 1005 # a part is no PE file
is 2 '' 'gillacorn: build has no part transformed-sections' locate build --part transformed-sections 2200
is 2 '' '*to-original*possible values: original-sections, *' locate build --part to-original 2200
is 1 '' 'refused 8: *' locate zeros --part original-sections 2200
is 1 '' "refused 1: $long" locate build 2200

# ---- JSON

is 0 '{"addresses":[{"address":8704,"section":2,"offset":512,"name":".data","name_bytes":"2E64617461000000"},'\
'{"address":8960,"section":null,"offset":null,"name":null,"name_bytes":null},'\
'{"address":20480,"section":5,"offset":0,"name":null,"name_bytes":"FF6E616D65000000"},'\
'{"address":24576,"section":6,"offset":0,"name":"\u001b[2J\"","name_bytes":"1B5B324A22000000"}]}' '' \
    locate --json zeros 2200 2300 5000 6000
is 0 '{"addresses":[{"address":8704,"section":null,"offset":null,"name":null,"name_bytes":null}]}' '' \
    locate zeros 2200 --raw-size --json
is 1 "{\"refused\":1,\"sentence\":\"$long\"}" "refused 1: $long" locate --json half 2200

# ---- bad tables, words and input: nothing is answered

for size in '' --raw-size; do
    is 1 '' "refused 1: $long" locate half 1000 $size
    is 1 '' "refused 2: $many" locate more_sections 1000 $size
    from=empty is 1 '' "refused 1: $long" locate half - $size
done
is 2 '' "gillacorn: longer: $short" locate longer 1000
from=longer is 2 '' "gillacorn: standard input: $short" locate - 1000
is 2 '' "gillacorn: can't read nothing: No such file*" locate nothing 1000
is 2 '' '*ADDRESS*' locate zeros
is 2 '' '*<FILE>*' locate
is 2 '' '*"12G" is no hexadecimal address*' locate zeros 1000 12G
is 2 '' '*"100000000" is greater than FFFFFFFF*' locate zeros 100000000
printf '1000\nhalf\n' >samples
from=samples is 2 '' 'gillacorn: standard input, line 2: "half" is no hexadecimal address' locate zeros 1000 -
is 2 '' 'gillacorn: standard input can be read once' locate - -
