#!/usr/bin/env bash
# Builds the library for C for ARM64, and runs its tests, those of the crate for Rust and those of
# the package for Python under qemu-aarch64; a digest of some hundred thousand calls is the same as
# that of the library for x86-64.
#
# usage: tests/arm64.sh [LIB]: where build.sh left the library for x86-64; it is built if no folder
# is given.
#
# Programs with threads are tried with the libraries of the folder of tests/arm64-root: with those
# of libc6-dev-arm64-cross, threads do not end in the emulator. They are one in C, the tests of the
# crate and those of the package.
. "$(dirname "$0")/common.bash" || exit 1
. release/names.bash

cc=aarch64-linux-gnu-gcc
for needed in $cc:gcc-aarch64-linux-gnu qemu-aarch64:qemu-user; do
    if ! command -v "${needed%:*}" >/dev/null; then
        skip "ARM64: no ${needed%:*} (${needed#*:})"
        finish
    fi
done
arm_root=$(tests/arm64-root)
root=${arm_root:-/usr/aarch64-linux-gnu}
# One that does not end is ended. Beside the proofs of the gate some take more than five minutes.
emulated=(timeout 1800 qemu-aarch64 -L "$root")

crates/data_encoding_c/build.sh --target aarch64 "$room/arm" || exit 1
arm=$room/arm
glue=crates/data_encoding_c/glue
strict=(-std=c99 -Wall -Wextra -Wpedantic -Werror "-I$arm")

# program NAME ARGUMENT..: compiles a program with these, and runs it; its exit status is 0.
program() {
    holds "$1: it is built" quietly "$cc" "${strict[@]}" "${@:2}" -o "$room/program"
    holds "$1" quietly "${emulated[@]}" -E "LD_LIBRARY_PATH=$arm" "$room/program"
}

program 'calls in C' tests/c/calls.c "$arm/libdata_encoding.a"
program 'calls of the shared library' tests/c/calls.c "-L$arm" -ldata_encoding
program 'outputs that hold the data' tests/c/fits.c "$arm/libdata_encoding.a"
program 'texts in pieces' tests/c/pieces.c "$arm/libdata_encoding.a"
program 'data in pieces' tests/c/blocks.c "$arm/libdata_encoding.a"
opened=$(open_library "$arm/libdata_encoding.a" "$("$cc" -print-prog-name=objcopy)") || exit 1
program 'what is written to a bool' tests/c/bools.c "$glue"/*.c "$opened" \
    -Wl,--wrap=de_numbered_is_canonical,--wrap=de_custom_is_canonical
if [ -n "$arm_root" ]; then
    program 'two threads' tests/c/threads.c "$arm/libdata_encoding.a" -pthread
else
    skip 'two threads: no libraries for it (tests/arm64-root)'
fi
is 'what the shared library gives' "$(grep -o '^[a-z].*\bde_[a-z_]*(' "$arm/data_encoding.h" |
    grep -o 'de_[a-z_]*($' | tr -d '(' | sort)" \
    "$(nm -D --defined-only "$arm/libdata_encoding.so" | sed 's/.* //' | sort)"
said=$(tests/constant-time.sh --arm64 "$arm" 2>&1)
status=$?
grep '^skipped: ' <<<"$said" && skip 'instructions and addresses of calls with secrets, as above'
is 'instructions and addresses of calls with secrets' 0 "$status"
[ "$status" = 0 ] || echo "$said"

# digest CC LIBRARY RUN..: what tests/c/digest.c prints.
digest() {
    "$1" -std=c99 -O1 "-I$arm" tests/c/digest.c "$2/libdata_encoding.a" -o "$room/digest" || return
    "${@:3}" "$room/digest"
}

find_library "$@"
wanted=$(digest cc "$lib" env)
is 'calls of the digest' 1 "$(grep -c '^[0-9]\{6,\} calls, digest [0-9a-f]\{16\}$' <<<"$wanted")"
is 'the digest of the calls for each x86-64' "$wanted" "$(DE_CPU=baseline "$room/digest")"
is 'the digest of the calls for ARM64' "$wanted" "$(digest "$cc" "$arm" "${emulated[@]}")"

triple=aarch64-unknown-linux-gnu
if [ -z "$arm_root" ]; then
    skip 'the crate for Rust: no libraries for it (tests/arm64-root)'
elif command -v cargo >/dev/null && sysroot=$(rust_library "$arm_root"); then
    crate=$room/rust
    mkdir "$crate"
    cp -r bindings/rust/{Cargo.toml,README.md,src,sys,tests} "$crate"
    holds 'the tests of the crate for Rust' quietly env -C "$crate" RUSTC=/usr/bin/rustc \
        "DATA_ENCODING_DIR=$arm" "CARGO_TARGET_DIR=$room/target" CARGO_NET_OFFLINE=true \
        CARGO_TARGET_AARCH64_UNKNOWN_LINUX_GNU_LINKER=$cc \
        "CARGO_TARGET_AARCH64_UNKNOWN_LINUX_GNU_RUNNER=${emulated[*]}" \
        "CARGO_TARGET_AARCH64_UNKNOWN_LINUX_GNU_RUSTFLAGS=--sysroot=$sysroot" \
        cargo test --tests --target $triple
    tried=$(grep -c '^test .* ok$' "$room/said")
    [ "$tried" -ge 45 ] || fail "the crate has fewer than 45 tests: $tried"
else
    skip 'the crate for Rust: no cargo, or no rustc with a library for it (rustc-web)'
fi

python=/usr/bin/python3
headers=$(python_headers)
if [ -z "$arm_root" ]; then
    skip 'the package for Python: no Python for it (tests/arm64-root)'
elif [ -z "$headers" ] || ! "$python" -c 'import setuptools, wheel' 2>/dev/null; then
    skip 'the package for Python: no python3-setuptools, python3-wheel or libpython3.11-dev:arm64'
else
    cp -r bindings/python "$room/python"
    holds 'the package for Python is built' quietly env -C "$room/python" "CC=$cc" \
        "LDSHARED=$cc -shared" "CFLAGS=-idirafter $headers" "DATA_ENCODING_DIR=$arm" \
        _PYTHON_HOST_PLATFORM=linux-aarch64 \
        "$python" setup.py build_ext --inplace
    for tests in test_data_encoding test_compat; do
        holds "the package for Python, $tests" quietly "${emulated[@]}" \
            -E "PYTHONHOME=$arm_root/usr" -E "PYTHONPATH=$room/python/src" \
            -E PYTHONDONTWRITEBYTECODE=1 "$arm_root/usr/bin/python3.11" \
            "bindings/python/tests/$tests.py"
    done
fi
finish
