#!/usr/bin/env bash
# Proves the library and builds it for programs in C. Writes these files to DIR, which is created:
# libdata_encoding.a; libdata_encoding.so, a link to the file with the number of the interface in
# its name; data_encoding.h; the files of package/, by which pkg-config and CMake find these; and
# LICENSE.
#
# usage: crates/data_encoding_c/build.sh [--target ARCH] [--cpu NAME] DIR
#
# ARCH is x86_64 or aarch64; without --target it is x86_64. For x86_64 the library has the calls
# that read and write bytes twice, for x86-64-v2 and for x86-64-v3, and runs those that the processor
# supports. With --cpu it has them once, for the processors NAME, and runs on these only. CC and
# CFLAGS are for the half in C: without CC it is cc, and for aarch64 aarch64-linux-gnu-gcc, of
# Debian's package gcc-aarch64-linux-gnu; -O2 is always given.
set -euo pipefail

usage() {
    echo 'usage: crates/data_encoding_c/build.sh [--target ARCH] [--cpu NAME] DIR' >&2
    exit 2
}

arch=x86_64
cpu=
while [ $# -ge 2 ]; do
    case $1 in
    --target) arch=$2 ;;
    --cpu) cpu=$2 ;;
    *) usage ;;
    esac
    shift 2
done
[ $# = 1 ] && [ "${1#-}" = "$1" ] || usage
triple=
case $arch in
x86_64) cc=${CC:-cc} ;;
aarch64)
    cc=${CC:-aarch64-linux-gnu-gcc}
    triple=aarch64-unknown-linux-gnu
    ;;
*)
    echo "build.sh: unknown target: $arch (x86_64, aarch64)" >&2
    exit 2
    ;;
esac
command -v "$cc" >/dev/null || {
    echo "build.sh: no $cc, the C compiler for $arch" >&2
    exit 1
}
command -v rt >/dev/null || {
    echo 'build.sh: no rt on the PATH: the toolchain of README.md has it' >&2
    exit 1
}
mkdir -p "$1"
target=$(realpath "$1")
cd "$(dirname "$0")"

log=$(mktemp)
room=$(mktemp -d)
trap 'rm -rf "$room" "$log"' EXIT

# archive CPU: prints the path of the proved half for these processors, or, if CPU is empty, for each
# of the target. It is kept in out/, by the toolchain that made it, with the time at which that
# began; where it is not there, or a source is newer, it is proved and built.
archive() {
    local made
    made=out/archives/$(rt version | tr -c 'a-z0-9\n' -)/$arch${1:+-$1}.a
    mkdir -p out
    # One at a time: `rt lib` writes the same file for each.
    exec 9>out/lock
    flock 9
    if [ ! -f "$made" ] || [ -n "$(find ../../crates.txt ../*/{src,specs,proofs} -newer "$made" \
        -print -quit 2>/dev/null)" ]; then
        touch "$room/begun"
        if ! rt lib ${triple:+"--target=$triple"} ${1:+"--cpu=$1"} >"$log" 2>&1; then
            tail -n 20 "$log" >&2
            echo 'the library was not proved' >&2
            exit 1
        fi
        mkdir -p "$(dirname "$made")"
        touch -r "$room/begun" out/libdata_encoding_c.a
        mv out/libdata_encoding_c.a "$made"
    fi
    realpath "$made"
}

# join_wide ARCHIVE OBJECT: links what was built for x86-64-v3 into one object, with each name de_NAME as
# de_wide_NAME, which exports only the names of glue/bytes.h.
join_wide() {
    mkdir "$room/wide"
    (cd "$room/wide" && ar x "$1" && ld -r -o ../joined.o ./*.o)
    nm -g --defined-only "$room/joined.o" | sed -n 's/.* de_\(.*\)/de_\1 de_wide_\1/p' >"$room/renamed"
    objcopy --redefine-syms="$room/renamed" "$room/joined.o" "$room/renamed.o"
    sed -n 's/^de_status CALL(\([a-z_]*\)).*/de_wide_\1/p' glue/bytes.h >"$room/exported"
    objcopy --keep-global-symbols="$room/exported" "$room/renamed.o" "$2"
    rm -r "$room/wide" "$room/joined.o" "$room/renamed.o"
}

wide=()
if [ "$arch$cpu" = x86_64 ]; then
    made=$(archive x86-64-v3)
    join_wide "$made" "$room/wide.o"
    wide=(-DDE_WIDE)
fi
made=$(archive "$cpu")

header=include/data_encoding.h
version=$(sed -n 's/^#define DE_VERSION "\(.*\)"$/\1/p' "$header")
shared=libdata_encoding.so.$(sed -n 's/^#define DE_INTERFACE //p' "$header")

# A section for each call, as the proved half has them: a program that is linked with --gc-sections
# has only what it calls.
for source in glue/*.c; do
    "$cc" -std=c99 -Wall -Wextra -Wpedantic -Werror -O2 -fPIC -fvisibility=hidden \
        -ffunction-sections -fdata-sections ${CFLAGS:-} ${wide[@]+"${wide[@]}"} -Iinclude \
        -c "$source" -o "$room/$(basename "$source" .c).o"
done
# One object, which has only the names of the header: the proved half has others.
(cd "$room" && ar x "$made" && "$("$cc" -print-prog-name=ld)" -r -o joined ./*.o)
sed -n '/^DE_EXPORT/ { n; s/.*[ *]\(de_[a-z_]*\)(.*/\1/p; }' "$header" >"$room/names"
"$("$cc" -print-prog-name=objcopy)" --keep-global-symbols="$room/names" "$room/joined" \
    "$room/data_encoding.o"
rm -f "$target/libdata_encoding.a"
ar crs "$target/libdata_encoding.a" "$room/data_encoding.o"
"$cc" -shared -Wl,-soname,"$shared" -o "$target/$shared" "$room/data_encoding.o"
ln -sf "$shared" "$target/libdata_encoding.so"
cp "$header" ../../LICENSE "$target"
for file in package/*; do
    sed "s/@VERSION@/$version/; s/@MINOR@/${version%.*}/; s/@SHARED@/$shared/" "$file" \
        >"$target/$(basename "$file")"
done
