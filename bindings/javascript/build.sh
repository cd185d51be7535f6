#!/usr/bin/env bash
# Proves the library and builds it for WebAssembly, in DIR, which is made: the package for
# JavaScript, with the module in it as text. In DIR `npm pack` makes one file of it, and from there
# it can be imported as it is.
#
# The module has a memory with 64-bit addresses. wasm-opt, of Debian's package binaryen, makes one
# with 32-bit addresses of it, which src/ has; memory64/ has the same files with the first. Without
# wasm-opt src/ has the first, too, and this is said.
#
# usage: bindings/javascript/build.sh DIR
#
# The calls are those of data_encoding_c. crates.txt lists a crate for one platform, so that this is
# done in a copy of the crates, outside the checkout, where that crate is one for WebAssembly. There
# the kernel has another platform.rt, by which groups go by words: the compiler has no vectors for
# WebAssembly, and takes lanes apart. The module is kept in out/. Of what was proved in this
# checkout only that file and that crate are proved again: where all was, this takes two minutes of
# one processor, and else as long as the first proof of the crates. How long it took is said.
set -euo pipefail

if [ $# != 1 ] || [ "${1#-}" != "$1" ]; then
    echo 'usage: bindings/javascript/build.sh DIR' >&2
    exit 2
fi
mkdir -p "$1"
target=$(realpath "$1")
here=$(realpath "$(dirname "$0")")
top=$(realpath "$here/../..")
crate=data_encoding_c
module=$here/out/data_encoding.wasm
room=$(mktemp -d)
trap 'rm -rf "$room"' EXIT

# below CRATE..: these crates of crates.txt and those that they use.
below() {
    local name
    for name in "$@"; do
        echo "$name"
        below $(sed -nE "s/^$name( staticlib)?: *//p" "$top/crates.txt")
    done
}

# copy_crates: the crates of this checkout that are needed, with what was proved of them. It waits while
# build.sh of the library for C builds there.
copy_crates() {
    local name part
    mkdir -p "$top/crates/$crate/out"
    exec 9>"$top/crates/$crate/out/lock"
    flock 9
    for name in $(below "$crate" | sort -u); do
        [ -d "$top/crates/$name" ] || continue
        mkdir -p "$room/crates/$name"
        for part in src specs proofs out; do
            [ ! -d "$top/crates/$name/$part" ] ||
                cp -a "$top/crates/$name/$part" "$room/crates/$name"
        done
        sed -n "s/^$name staticlib:/$name wasm64:/; /^$name[ :]/p" "$top/crates.txt"
    done >"$room/crates.txt"
    cp "$top/HANDLES" "$room/HANDLES"
    exec 9>&-
}

# The one file that differs.
platform() {
    cat <<'END'
//! What differs between platforms: WebAssembly as this toolchain compiles for it.

/// Returns `true` if groups are encoded and decoded with SIMD.
#[inline(always)]
pub fn has_simd() -> bool {
    false
}
END
}

# Nothing is proved again where no source is newer than the module.
if [ ! -f "$module" ] || [ "$here/build.sh" -nt "$module" ] || [ -n "$(find "$top/crates.txt" \
    "$top"/crates/*/{src,specs,proofs} -newer "$module" -print -quit 2>/dev/null)" ]; then
    command -v rt >/dev/null || {
        echo 'build.sh: no rt on the PATH: the toolchain of README.md has it' >&2
        exit 1
    }
    echo 'proves and builds the module for WebAssembly: two minutes where the crates are proved' >&2
    begun=$SECONDS
    copy_crates
    platform >"$room/crates/data_encoding_kernel/src/platform.rt"
    if ! (cd "$room/crates/$crate" && rt lib) >"$room/log" 2>&1; then
        tail -n 20 "$room/log" >&2
        echo 'the module was not proved' >&2
        exit 1
    fi
    mkdir -p "$here/out"
    mv "$room/crates/$crate/out/$crate.wasm" "$module"
    echo "it took $((SECONDS - begun)) s" >&2
fi

version=$(sed -n 's/^  "version": "\(.*\)",$/\1/p' "$here/package.json")
for part in src memory64; do
    mkdir -p "$target/$part"
    cp "$here"/src/* "$target/$part"
done
cp "$here"/{package.json,README.md} "$top/LICENSE" "$target"

# section: what the module says its version by: a 0, a length, a name with its length, and a text.
section() {
    printf "\\x00\\x$(printf %02x $((8 + ${#version})))\\x07version%s" "$version"
}

# put_module MODULE BITS FOLDER: the module as text, in the folder.
put_module() {
    {
        echo '/** The WebAssembly module, in base64. */'
        echo "export const MODULE = \"$({ cat "$1" && section; } | base64 -w 0)\";"
        echo
        echo '/** How many bits an address in the memory of the module has: 32 or 64. */'
        echo "export const ADDRESS_BITS = $2;"
    } >"$target/$3/module.js"
}

put_module "$module" 64 memory64
if command -v wasm-opt >/dev/null; then
    wasm-opt --enable-memory64 --enable-bulk-memory --memory64-lowering -O1 "$module" \
        -o "$room/lowered.wasm"
    put_module "$room/lowered.wasm" 32 src
else
    echo 'no wasm-opt (binaryen): the package has 64-bit memory alone' >&2
    put_module "$module" 64 src
fi
