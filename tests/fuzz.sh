#!/usr/bin/env bash
# Runs the targets of tests/fuzz/, each for a minute, and one whose library has a mistake, which it finds.
#
# usage: tests/fuzz.sh [LIB]: where build.sh left the library; it is built where no folder is given.
. "$(dirname "$0")/common.bash" || exit 1

seconds=60
echo 'int LLVMFuzzerTestOneInput(const char *bytes, unsigned long len) { return bytes != 0 && len > 9; }' >"$room/none.c"
if ! clang -fsanitize=fuzzer,address "$room/none.c" -o "$room/none" >/dev/null 2>&1; then
    # The gate installs both.
    if [ -n "${GATE-}" ]; then fail 'no clang with libFuzzer'; else skip 'fuzzing: no clang with libFuzzer'; fi
    finish
fi

find_library "$@"
holds 'the targets are built' quietly tests/fuzz/build.sh "$lib" "$room/fuzz"

# fuzz FOLDER TARGET: runs a target in the folder for a minute. It ends at the first law that does not hold.
fuzz() {
    (cd "$1" && "./$2" "-max_total_time=$seconds" -max_len=2100 -timeout=20 -seed=1 "seeds/$2") >"$1/$2.log" 2>&1
}

targets=(convert pieces specification)
jobs=()
for target in "${targets[@]}"; do
    fuzz "$room/fuzz" "$target" &
    jobs+=($!)
done

# A mistake: a piece of 7 bytes loses its first byte where 3 bytes are held.
cp -r crates/data_encoding_c/glue "$room/wrong"
echo '#define WRONG (decoder->count == 3 && input_len == 7)' >>"$room/wrong/bytes.h"
sed -i 's/(number, decoder, from, input_len, to, output_len, written));/(number, decoder, from + WRONG, input_len - WRONG, to, output_len, written));/' \
    "$room/wrong/data_encoding.c"
holds 'the mistake is planted' quietly eval '! cmp crates/data_encoding_c/glue/data_encoding.c "$room/wrong/data_encoding.c"'
holds 'with the mistake' quietly tests/fuzz/build.sh "$lib" "$room/found" "$room/wrong"
fuzz "$room/found" pieces
holds 'the mistake is found' grep -q 'not so: ' "$room/found/pieces.log"

for index in "${!jobs[@]}"; do
    wait "${jobs[index]}" || tail -n 40 "$room/fuzz/${targets[index]}.log"
    holds "${targets[index]}: the laws hold" grep -q '^Done [0-9]* runs' "$room/fuzz/${targets[index]}.log"
    echo "${targets[index]}: $(grep -o '^Done [0-9]* runs' "$room/fuzz/${targets[index]}.log")"
done
finish
