#!/usr/bin/env bash
# setup.sh c|x86-64|native: makes ready what calls the proved archive, once.
#   c       compilers of C and C++ for x86-64, as the proved archive is, and an emulator elsewhere
#   x86-64  those, and a rustc that builds for x86-64
#   native  a rustc for this machine whose LLVM is as new as the kit's, so that times can be compared
# The last two have the two Debian packages too that pdb's own files need, and the workspace with them.
# What it finds is written to target/setup/c, x86-64 or native, which lib.sh reads.
# Where something can't be had it prints one line that names it, and exits with 77. With
# GILLACORN_INSTALL=no nothing is fetched or installed: what is not there can't be had.
set -euo pipefail

here=$(cd "$(dirname "$0")" && pwd)
kind=${1:?"c, x86-64 or native"}
made=$here/target/setup
target=x86_64-unknown-linux-gnu

. "$here/debian.sh"

case $kind in
c | x86-64 | native) ;;
*)
    echo "setup: c, x86-64 or native, not $kind" >&2
    exit 2
    ;;
esac
if [ -f "$made/$kind" ] && [ "$made/$kind" -nt "$0" ]; then
    exit 0
fi
mkdir -p "$made"

if [ "$kind" != c ]; then
    crate scroll
    crate fallible-iterator
fi

# The kit, where there is one: its clang is the other side's compiler, and it has an emulator.
tools=
if kit=$(rt doc 2>/dev/null); then
    tools=${kit%/*}/toolchain
    [ ! -d "${kit%/*}/on/$(uname -m)" ] || tools=${kit%/*}/on/$(uname -m)/toolchain
fi

# ---- c: compilers for x86-64, and what runs its programs

runner='' linker=cc cxx=c++
for_c() {
    if [ "$(uname -m)" = x86_64 ]; then
        if ! command -v cc >/dev/null || ! command -v c++ >/dev/null; then
            install "compilers of C and C++" gcc g++ libc6-dev
        fi
    else
        linker=x86_64-linux-gnu-gcc cxx=x86_64-linux-gnu-g++
        if ! command -v $linker >/dev/null || ! command -v $cxx >/dev/null ||
            [ ! -f /usr/lib/x86_64-linux-gnu/libc.a ]; then
            of_amd64 "compilers of C and C++ for x86-64" gcc-x86-64-linux-gnu g++-x86-64-linux-gnu libc6-dev:amd64
        fi
        if [ -x "$tools/bin/qemu-x86_64" ]; then
            runner=$tools/bin/qemu-x86_64
        else
            runner=$(command -v qemu-x86_64 || command -v qemu-x86_64-static) ||
                missing "an emulator for x86-64 (the kit's, or qemu-x86_64)"
        fi
    fi
    echo "compile_c=$linker compile_cxx=$cxx"
    [ -z "$runner" ] || echo "export GILLACORN_EMULATOR='$runner'"
}

of_amd64() { # as install, with packages of another processor
    update "$1 (Debian: ${*:2})"
    command -v dpkg >/dev/null || missing "dpkg (wanted: $1)"
    echo "setup: having dpkg take amd64's packages on this machine" >&2
    dpkg --add-architecture amd64 2>>"$made/apt.log" || missing "Debian's amd64 packages"
    updated=
    install "$@"
}

# ---- x86-64: a rustc with the standard library for it

builds_x86() { # a folder of rustc and cargo
    [ -x "$1/rustc" ] && [ -x "$1/cargo" ] || return 1
    local libs
    libs=$("$1/rustc" --print target-libdir --target $target 2>/dev/null) || return 1
    compgen -G "$libs/libstd-*.rlib" >/dev/null
}

# The first of the path's rustc and Debian's that the test takes.
find_rust() { # test
    local dir
    for dir in "$(dirname "$(command -v rustc || echo /usr/bin/rustc)")" /usr/bin; do
        if "$1" "$dir"; then
            rust=$dir
            return 0
        fi
    done
    return 1
}

for_x86() {
    local flags="-C target-feature=+crt-static"
    for_c
    if ! find_rust builds_x86; then
        if [ "$(uname -m)" = x86_64 ]; then
            install "rustc and cargo" rustc cargo
        else
            of_amd64 "rustc with the x86-64 library" rustc cargo libstd-rust-dev:amd64 gcc libc6-dev
        fi
        find_rust builds_x86 || missing "a rustc that builds for x86-64"
    fi
    if [ -n "$runner" ]; then
        # The emulator stops where a program reads /proc/self/maps, and Rust's start-up does so to
        # find the end of its stack. This stand-in tells it that the end is not known.
        echo 'int pthread_getattr_np(void) { return 38; }' >"$made/shim.c"
        $linker -O2 -c "$made/shim.c" -o "$made/shim.o"
        flags="$flags -C link-arg=$made/shim.o"
    fi
    cat <<END
unset CARGO_TARGET_DIR
export CARGO='$rust/cargo' RUSTC='$rust/rustc' RUSTDOC='$rust/rustdoc' CARGO_NET_OFFLINE=true
export CARGO_BUILD_TARGET=$target CARGO_TARGET_X86_64_UNKNOWN_LINUX_GNU_LINKER='$linker'
export RUSTFLAGS='$flags' RUSTDOCFLAGS='$flags'
built='$here/target/$target/release'
END
    [ -z "$runner" ] || echo "export CARGO_TARGET_X86_64_UNKNOWN_LINUX_GNU_RUNNER='$runner'"
}

# ---- native: a rustc as new as the kit's clang

major() { # of a version after the given words, on standard input
    sed -n "s/^.*$1 \([0-9]*\)\..*/\1/p" | head -n 1
}

recent() { # a folder of rustc and cargo
    [ -x "$1/rustc" ] && [ -x "$1/cargo" ] || return 1
    local its
    its=$("$1/rustc" -vV 2>/dev/null | major 'LLVM version:') || return 1
    # Two generations apart still optimise alike; Debian's plain rustc is eight behind.
    [ "${its:-0}" -ge $((kits - 2)) ]
}

for_native() {
    local web=$made/rustc-web path='' more
    [ -x "$tools/bin/clang" ] || missing "the kit's clang for $(uname -m)"
    kits=$("$tools/bin/clang" --version | major 'clang version')
    command -v cc >/dev/null || install "a C compiler" gcc libc6-dev
    if ! find_rust recent; then
        # Debian's recent rustc would take the place of its plain one: unpacked, it does not.
        unpack "$web" "a rustc whose LLVM is $((kits - 2)) or newer" rustc-web cargo-web libstd-rust-web-dev
        more=$(dpkg-deb -f "$made"/deb/libstd-rust-web-dev_*.deb Depends | grep -o 'libstd-rust-web-[0-9.]*[0-9]')
        unpack "$web" "rustc-web's library" "$more"
        more=$(dpkg-deb -f "$made/deb/$more"_*.deb Depends | grep -o 'libllvm[0-9]*')
        unpack "$web" "rustc-web's LLVM" "$more"
        path=$(dirname "$(find "$web/usr/lib" -name 'librustc_driver-*.so' | head -n 1)")
        export LD_LIBRARY_PATH=$path
        rust=$web/usr/bin
        recent "$rust" || missing "a rustc whose LLVM is $((kits - 2)) or newer"
    fi
    cat <<END
export CARGO='$rust/cargo' RUSTC='$rust/rustc' RUSTDOC='$rust/rustdoc' CARGO_NET_OFFLINE=true
# The crates that pdb stands on are older than this rustc's warnings.
export CARGO_TARGET_DIR='$here/target/native/cargo' RUSTFLAGS=--cap-lints=allow
unset CARGO_BUILD_TARGET RUSTDOCFLAGS GILLACORN_EMULATOR
compile_c=cc compile_cxx=c++
built='$here/target/native/cargo/release'
END
    [ -z "$path" ] || echo "export LD_LIBRARY_PATH='$path'"
}

# In the shell itself and not in a pipe, so that "not to be had" ends it.
case $kind in
c) for_c >"$made/$kind.new" ;;
x86-64) for_x86 >"$made/$kind.new" ;;
native) for_native >"$made/$kind.new" ;;
esac
mv "$made/$kind.new" "$made/$kind"
