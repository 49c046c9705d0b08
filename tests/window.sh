#!/usr/bin/env bash
# The program `window` on inputs at and past each limit: what it prints is what document 01 says.
set -euo pipefail
. "$(dirname "$0")/lib.sh"
"$here/run" window <"$here/crates/window/stdin" >/dev/null # proved, so that only the program speaks

T="00001000 00005000 00001100 00000000 00001200 00004000 00001300 00005080"

prints window "nothing" "refused 1" < <(printf '')
prints window "7 bytes" "refused 1" < <(u32 00000800 00001400 | head -c 7)
prints window "8 bytes, an empty table" "pieces 0" < <(u32 00000800 00001400)
# shellcheck disable=SC2086
prints window "document 01's table" "00005000 00005100" "00004000 00004100" "00005080 00005180" "pieces 3" < <(u32 00000800 00001400 $T)
# shellcheck disable=SC2086
prints window "a wrong length" "refused 1" < <({ u32 00000800 00001400 $T; printf '\0'; })
prints window "equal sources" "refused 3" < <(u32 00000000 00001000 00000010 00000001 00000010 00000002)
prints window "falling sources" "refused 3" < <(u32 00000000 00001000 00000020 00000001 00000010 00000002)
prints window "an end past 32 bits" "refused 4" < <(u32 00000010 00000020 00000010 FFFFFFF0)
prints window "an end at the top" "FFFFFFF0 FFFFFFFF" "pieces 1" < <(u32 00000010 0000001F 00000010 FFFFFFF0)
prints window "touching pieces" "00000100 00000110" "00000110 00000120" "pieces 2" < <(u32 00000010 00000030 00000010 00000100 00000020 00000110)
# shellcheck disable=SC2086
prints window "an empty window" "pieces 0" < <(u32 00001000 00001000 $T)
# shellcheck disable=SC2086
prints window "a window turned round" "pieces 0" < <(u32 00001400 00000800 $T)
prints window "a turned window of a damaged table" "refused 1" < <(u32 00001400 00000800 00000010)
prints window "65,536 bytes, out of order" "refused 3" < <(head -c 65536 /dev/zero)
prints window "65,537 bytes" "refused 2" < <(head -c 65537 /dev/zero)
prints window "65,544 bytes" "refused 2" < <(head -c 65544 /dev/zero)

ended window
