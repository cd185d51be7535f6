#!/usr/bin/env bash
# Builds the targets of libFuzzer, OUT/convert, OUT/pieces and OUT/specification, with the layer in C
# under ASan and UBSan, and their first inputs, OUT/seeds.
#
# usage: tests/fuzz/build.sh LIB OUT [GLUE]: LIB is where crates/data_encoding_c/build.sh left the library,
# and GLUE a folder with the layer in C.
set -eu
lib=$(realpath "$1")
mkdir -p "$2"
out=$(realpath "$2")
cd "$(dirname "$0")"
glue=${3:-../../crates/data_encoding_c/glue}
flags=(-std=gnu11 -Wall -Wextra -Werror -g -O1 -fsanitize=address,undefined -fno-sanitize-recover=all "-I$lib")

# The names of the calls, and a library that gives way to others of these names.
names=$(sed -n '/^DE_EXPORT/ { n; s/.*[ *]de_\([a-z_]*\)(.*/\1/p; }' "$lib/data_encoding.h")
objcopy -w --globalize-symbol='de_*' "$lib/libdata_encoding.a" "$out/open.a"
objcopy -w --weaken-symbol='de_*' "$out/open.a"

# The calls as they are, and those for each processor as baseline_NAME.
clang "${flags[@]}" -fsanitize=fuzzer-no-link -DDE_WIDE -c "$glue/data_encoding.c" -o "$out/calls.o"
clang "${flags[@]}" -fsanitize=fuzzer-no-link -c "$glue/data_encoding.c" -o "$out/baseline.o"
objcopy $(printf -- '--redefine-sym de_%s=baseline_%s ' $(printf '%s %s\n' $names | xargs -n 1 | sed 's/.*/& &/')) \
    "$out/baseline.o"

for target in convert pieces specification; do
    clang "${flags[@]}" -fsanitize=fuzzer "$target.c" "$out/calls.o" "$out/baseline.o" "$out/open.a" -o "$out/$target"
done
./seeds.py "$out/seeds"
