#!/usr/bin/env bash
# The proved archive for a machine that is not x86-64, so that its times say something:
# target/native/libgillacorn.a, and libinner.a with the inner functions that the bench times alone
# (bench/inner). Made anew where a source is newer.
#
# rattle hands clang one LLVM module, for x86-64. This keeps that module, takes out what says
# "x86-64", and has the kit's clang compile it for this machine with rattle's own flags. Two ways of
# the C face differ between x86-64 and Arm and are changed in it: an answer in memory (x86-64: a
# first pointer, which is returned; Arm: sret), and a struct argument of more than 16 bytes (x86-64:
# byval; Arm: a pointer to the caller's copy). Smaller structs lie in the same registers on both.
# Exits with 77, after one line, where the kit has no clang for this machine.
set -euo pipefail

rust=$(cd "$(dirname "$0")" && pwd)
repository=$(dirname "$rust")
made=$rust/target/native
machine=$(uname -m)

missing() {
    echo "native: not to be had: $*" >&2
    exit 77
}

[ "$machine" = aarch64 ] || missing "an archive for $machine (known: aarch64; on x86-64 the normal one is native)"
kit=$(rt doc 2>/dev/null) || missing "the Rattle kit (rt on the path)"
kit=${kit%/*}
tools=$kit/on/$machine/toolchain
clang=$tools/bin/clang
[ -x "$clang" ] || missing "the kit's clang for $machine"

fresh() { # a file, and what it is made of
    [ -f "$1" ] && [ -z "$(find "${@:2}" -newer "$1" -print -quit)" ]
}
module=$made/module/x86-64.bc
sources=("$repository/crates" "$repository/crates.txt" "$rust/native.sh")
if fresh "$made/libgillacorn.a" "${sources[@]}" "$rust/bench/inner"; then
    exit 0
fi
rm -f "$made"/lib*.a

# ---- the module, from a kit of links whose clang keeps what it is given

links() { # from a folder, to a folder, but for a name
    local part
    mkdir -p "$2"
    for part in "$1"/*; do
        [ "$(basename "$part")" = "$3" ] || ln -s "$part" "$2/"
    done
}

keep_module() {
    local own=$made/kit/on/$machine
    rm -rf "$made/kit" "$made/module"
    mkdir -p "$made/module"
    links "$kit" "$made/kit" on
    links "$kit/on/$machine" "$own" toolchain
    links "$tools" "$own/toolchain" bin
    links "$tools/bin" "$own/toolchain/bin" clang
    # rattle clears the environment: the paths have to stand in the file.
    cat >"$own/toolchain/bin/clang" <<END
#!/bin/sh
for word in "\$@"; do
    case \$word in *.bc) /bin/cp "\$word" "$module" ;; esac
done
exec "$clang" "\$@"
END
    chmod +x "$own/toolchain/bin/clang"
    # It proves, and makes the archive, as `archive` of lib.sh does.
    (cd "$repository/crates/gillacorn_c" && RATTLE_HOME=$made/kit rt lib) >"$made/staticlib.log" 2>&1 || {
        cat "$made/staticlib.log" >&2
        exit 1
    }
}

fresh "$module" "${sources[@]}" || keep_module

# ---- the module as text for this machine

cd "$made/module"
"$clang" --target=x86_64-unknown-linux-gnu -x ir x86-64.bc -S -emit-llvm -O3 -Xclang -disable-llvm-passes -o x86-64.ll
# The least answer in memory has 20 bytes and no alignment.
sed -e '/^; ModuleID/d' -e '/^target datalayout/d' -e '/^target triple/d' -e 's/ "target-cpu"="x86-64"//' \
    -e 's/ byval(\[[0-9]* x i8\]) align [0-9]*//' \
    -e '/^define noundef ptr @gillacorn_/,/^}/ {
        s/^define noundef ptr \(@[a-z_]*\)(ptr noundef %a0/define void \1(ptr noundef sret([20 x i8]) align 1 %a0/
        s/^  ret ptr %a0$/  ret void/
    }' x86-64.ll >face.ll
if grep -nE 'x86|byval|^define .*ptr @gillacorn_' face.ll >&2; then
    echo "native: the module has something of x86-64 left (above): native.sh has to learn it" >&2
    exit 1
fi

compile() { # IN.ll OUT.a
    "$clang" --target="$machine-unknown-linux-gnu" -ffunction-sections -fdata-sections --no-default-config \
        -mllvm -trap-unreachable -mllvm -no-trap-after-noreturn -Wno-override-module \
        -c -x ir "$1" -o "$1.o" -fPIC -O3
    rm -f "$2"
    "$tools/bin/llvm-ar" rcs "$2" "$1.o"
}

# ---- inner functions under C names: bench/inner/NAME.ll calls a function that its first line names

# The face is hidden there, so that both archives can be linked.
sed 's/^define \(.*@gillacorn_\)/define internal \1/' face.ll >inner.ll
sed -n 's/^define internal //p' face.ll |
    sed -e 's/ [a-z]*ext / /; s/noundef //g; s/ %a[0-9]*//g; s/ #[0-9]* {$//' >functions
: >"$made/inner"
for call in "$rust"/bench/inner/*.ll; do
    wanted=$(sed -n '1s/^; //p' "$call")
    if grep -qxF "$wanted" functions; then
        cat "$call" >>inner.ll
        basename "$call" .ll >>"$made/inner"
    else
        echo "native: no inner function $wanted any more: $(basename "$call" .ll) is not timed alone" >&2
    fi
done
compile inner.ll "$made/libinner.a"
compile face.ll "$made/libgillacorn.a"
