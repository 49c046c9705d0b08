#!/usr/bin/env bash
# install.sh PREFIX: the C header, the proved archive (for x86-64) and a pkg-config file, under a folder
# such as /usr/local. Proves first where that has not been done. DESTDIR stands before every path, as
# packagers have it.
set -euo pipefail
here=$(cd "$(dirname "$0")" && pwd)
case ${1:-} in
'' | -*)
    echo "usage: install.sh PREFIX" >&2
    exit 2
    ;;
/*) prefix=$1 ;;
*) prefix=$PWD/$1 ;;
esac
to=${DESTDIR:-}$prefix

. "$here/rust/lib.sh"
archive
version=$(sed -n 's/^#define GILLACORN_VERSION "\(.*\)"$/\1/p' "$here/include/gillacorn.h")

install -d "$to/include" "$to/lib/pkgconfig"
install -m 644 "$here"/include/gillacorn*.h "$to/include/"
install -m 644 "$here/target/staticlib/libgillacorn.a" "$to/lib/"
sed "s|@PREFIX@|$prefix|; s|@VERSION@|$version|" "$here/gillacorn.pc.in" >"$to/lib/pkgconfig/gillacorn.pc"
chmod 644 "$to/lib/pkgconfig/gillacorn.pc"
echo "gillacorn $version: installed under $to"
