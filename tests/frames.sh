#!/usr/bin/env bash
# The program `frames` on inputs at and past each limit: what it prints is what docs/DECISIONS.md says.
set -euo pipefail
. "$(dirname "$0")/lib.sh"
"$here/run" frames <"$here/crates/frames/stdin" >/dev/null # proved, so that only the program speaks

heading="start    size     locals   params   prolog saved stack    program  type  flags"
old="00000100 00000040 00000002 CB050001"
old_line="00000100 00000040 00000008 00000004 0005   000C  -------- -------- std   s---"
new="00000100 00000010 00000000 00000000 00000040 00000012 00020001 00000007"
new_line="00000100 00000010 00000000 00000000 0001   0002  00000040 00000012 fdata scf-"

prints frames "nothing" "refused 1" < <(printf '')
prints frames "3 bytes" "refused 1" < <(u32 00000000 | head -c 3)
prints frames "4 bytes, two empty tables" "$heading" "frames 0" < <(u32 00000000)
prints frames "an old length past the end" "refused 1" < <(u32 00000001)
prints frames "the greatest old length" "refused 1" < <(u32 FFFFFFFF)
# shellcheck disable=SC2086
{
    prints frames "an old frame alone" "$heading" "$old_line" "frames 1" < <(u32 00000010 $old)
    prints frames "a new frame alone" "$heading" "$new_line" "frames 1" < <(u32 00000000 $new)
    prints frames "one start in both" "$heading" "$new_line" "frames 1" < <(u32 00000010 $old $new)
    prints frames "an old length of one frame, and half a frame" "refused 1" < <(u32 00000008 $old)
    prints frames "new frames of a wrong length" "refused 1" < <({ u32 00000010 $old $new; printf '\0'; })
}
prints frames "locals of 2^30 - 1 words" "$heading" \
    "00000000 00000000 FFFFFFFC 00000000 0000   0000  -------- -------- fpo   ----" "frames 1" < <(u32 00000010 00000000 00000000 3FFFFFFF 00000000)
prints frames "locals of 2^30 words" "refused 4" < <(u32 00000010 00000000 00000000 40000000 00000000)
# shellcheck disable=SC2086
prints frames "locals of 2^30 words behind a frame that fits" "refused 4" < <(u32 00000020 $old 00000200 00000000 40000000 00000000)

zero="00000000 00000000 00000000 00000000 0000   0000  -------- -------- fpo   ----"
mapfile -t most < <(for _ in $(seq 4095); do echo "$zero"; done)
prints frames "4,095 old frames, the most" "$heading" "${most[@]}" "frames 4095" < <(u32 0000FFF0; head -c 65520 /dev/zero)
prints frames "65,536 bytes, no whole frames" "refused 1" < <(head -c 65536 /dev/zero)
prints frames "65,537 bytes" "refused 2" < <(head -c 65537 /dev/zero)
prints frames "65,540 bytes, 4,096 old frames" "refused 2" < <(u32 00010000; head -c 65536 /dev/zero)

ended frames
