# shellcheck shell=bash
# Debian's packages, for setup.sh and setup_cli.sh (source it; `made` is the folder of what is made ready). Where
# something can't be had, or nothing may be fetched (GILLACORN_INSTALL=no), it prints one line and exits with 77.

missing() {
    echo "setup: not to be had: $*" >&2
    exit 77
}

updated=
update() { # what is wanted
    [ "${GILLACORN_INSTALL:-yes}" != no ] || missing "$1, without installing"
    [ -z "$updated" ] || return 0
    updated=yes
    command -v apt-get >/dev/null || missing "apt-get (wanted: $1)"
    apt-get update >"$made/apt.log" 2>&1 || true
}

install() { # what it is for, then packages
    local what=$1
    shift
    update "$what (Debian: $*)"
    echo "setup: installing on this machine, for $what: $*" >&2
    DEBIAN_FRONTEND=noninteractive apt-get install -y --no-install-recommends "$@" \
        >>"$made/apt.log" 2>&1 || missing "$what (Debian: $*)"
}

# A package's files, in a folder of ours: nothing is installed.
unpack() { # folder, what it is for, packages
    local to=$1 what=$2 file
    shift 2
    update "$what (Debian: $*)"
    echo "setup: fetching into ${to#"$here/"}, for $what: $*" >&2
    rm -rf "$made/deb" && mkdir -p "$made/deb" "$to"
    (cd "$made/deb" && apt-get download "$@" >>"$made/apt.log" 2>&1) || missing "$what (Debian: $*)"
    for file in "$made"/deb/*.deb; do
        dpkg-deb -x "$file" "$to"
    done
}

crate() { # a crate's name, and its package's if that is another; its source goes to target/setup/crates
    local name=$1 package=librust-${2:-$1}-dev found
    [ -f "$made/crates/$name/Cargo.toml" ] && return 0
    rm -rf "$made/unpacked" "${made:?}/crates/$name"
    unpack "$made/unpacked" "the crate $name" "$package"
    found=$(find "$made/unpacked" -name Cargo.toml -path "*/$name-*/Cargo.toml" | head -n 1)
    [ -n "$found" ] || missing "the crate $name in $package"
    mkdir -p "$made/crates"
    # Moved in one step, so that an interrupted run leaves no half of a crate.
    mv "$(dirname "$found")" "$made/crates/$name"
}
