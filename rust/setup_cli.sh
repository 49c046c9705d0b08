#!/usr/bin/env bash
# Makes ready what the command line needs besides setup.sh: clap and what it stands on, out of
# Debian's packages, as folders in target/setup/crates. Nothing is installed.
# Where one can't be had it prints one line that names it, and exits with 77.
set -euo pipefail

here=$(cd "$(dirname "$0")" && pwd)
made=$here/target/setup

. "$here/debian.sh"
mkdir -p "$made"

crate clap
crate clap_lex clap-lex
crate os_str_bytes os-str-bytes
crate bitflags
