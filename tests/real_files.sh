# shellcheck shell=bash
# For the tests on PE files that others made (source it after rust/lib.sh): DLLs made by GNU's linker and
# programs made by Microsoft's, out of Debian's packages, and llvm-readobj, which reads them too.
packages="libz-mingw-w64 libgpg-error-mingw-w64-dev libgcrypt-mingw-w64-dev python3-distlib"
# shellcheck disable=SC2154 # rust: of rust/lib.sh
files=$rust/target/real_pe

missing() {
    echo "$(basename "$0" .sh): not to be had: $*" >&2
    exit 77
}

find_readobj() {
    readobj=$(command -v llvm-readobj || compgen -c llvm-readobj- | sort -V | tail -n 1) || true
    [ -n "$readobj" ] || missing "llvm-readobj (Debian: llvm)"
}

# Into $files, once.
fetch_packages() {
    local package
    mkdir -p "$files"
    for package in $packages; do
        [ -d "$files/$package" ] && continue
        [ "${GILLACORN_INSTALL:-yes}" != no ] || missing "Debian's $package, without fetching"
        echo "$(basename "$0" .sh): fetching Debian's $package into rust/target/real_pe" >&2
        (cd "$files" && apt-get download "$package" >apt.log 2>&1) || missing "Debian's $package"
        # Moved in one step, so that an interrupted run leaves no half of a package.
        rm -rf "$files/unpacked"
        dpkg-deb -x "$files/$package"_*.deb "$files/unpacked"
        mv "$files/unpacked" "$files/$package"
    done
}

pe_files() { # in lines, in order
    find "$files" -name '*.dll' -o -name '*.exe' | sort
}
