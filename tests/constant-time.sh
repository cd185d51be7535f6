#!/usr/bin/env bash
# Encodes and decodes two secrets in every length, and compares the instructions that ran and the
# addresses that were read and written in each call, under qemu. They must not differ: then neither
# branches nor the cache depend on the data. tests/c/constant-time.c makes the calls: data and texts,
# whole and in pieces, to outputs with enough room and with too little, and texts with translated
# symbols, with ignored bytes and with faults. tests/c/qemu-trace.c writes down what runs.
#
# So that nothing passes because nothing was compared, two functions that depend on the secret are
# compared in the same way, and must be found.
#
# usage: tests/constant-time.sh [LIB]: where build.sh left the library. Without a folder it is built.
#        tests/constant-time.sh --arm64 LIB: the same of the library for ARM64.
. "$(dirname "$0")/common.bash" || exit 1

arm64=
cc=${CC:-cc}
emulator=(qemu-x86_64 -cpu max)
if [ "${1-}" = --arm64 ]; then
    shift
    arm64=yes
    cc=aarch64-linux-gnu-gcc
    emulator=(qemu-aarch64)
fi
for tool in "${emulator[0]}" cc nm setarch "$cc"; do
    if ! command -v "$tool" >/dev/null; then
        skip "instructions and addresses of calls with secrets: no $tool"
        finish
    fi
done

# trace NAME CALL WORD..: runs the calls with these words, where DE_CPU is NAME, and prints a line for
# each call, or, if CALL isn't 0, one for each instruction and address of that call.
trace() {
    DE_CPU=$1 setarch -R "${emulator[@]}" -plugin "$room/trace.so,$places,call=$2" "$room/calls" \
        "${@:3}" 9>&1 >/dev/null
}

# function_at ADDRESS: the name of the function with this instruction.
function_at() {
    nm "$room/calls" | sort | awk -v at="$1" '
        { address = substr("0000000000000000" $1, length($1) + 1) }
        $2 ~ /[tTwW]/ && address <= substr("0000000000000000" at, length(at) + 1) { name = $3 }
        END { print name }'
}

# differs NAME WORD..: compares each call with the secret 1 to the same with the secret 2. If they
# differ, prints the first such call, what differs in it first, and in which function.
differs() {
    local call at what
    trace "$1" 0 1 "${@:2}" >"$room/one"
    trace "$1" 0 2 "${@:2}" >"$room/other"
    call=$(diff "$room/one" "$room/other" | sed -nE '1s/^([0-9]+).*/\1/p')
    [ -n "$call" ] || return 1
    sed -n "${call}s/^/  encoding, length, text, call: /p" "$room/names"
    trace "$1" "$call" 1 "${@:2}" >"$room/one"
    trace "$1" "$call" 2 "${@:2}" >"$room/other"
    # An instruction differs after a branch, and an address at its own instruction.
    read -r at what < <(paste -d ' ' "$room/one" "$room/other" | awk '
        ($1 " " $2) != ($4 " " $5) { print at, $1 == "I" || $4 == "I" ? "branch" : "address"; exit }
        $1 == "I" { at = $2 }')
    echo "  $what differs in $(function_at "$at"), at $at"
}

# same NAME: counts a test, which passes if no call differs.
same() {
    local said
    if said=$(differs "$1"); then
        fail "instructions and addresses of calls with secrets, $1"
        echo "$said"
    else
        is "calls that were compared, $1" "$(wc -l <"$room/names")" "$(wc -l <"$room/other")"
    fi
}

# leaks: counts the tests that a function which depends on the secret is found.
leaks() {
    local kind said
    for kind in address branch; do
        said=$(differs "" $kind)
        is "what differs in a function that leaks by $kind" \
            "$kind differs in leak_by_$kind" "$(sed -nE 's/^  (.*), at [0-9a-f]+$/\1/p' <<<"$said")"
    done
}

find_library "$@"
strict=(-std=c99 -Wall -Wextra -Wpedantic -Werror -O1)
holds 'compiles' "$cc" "${strict[@]}" -static "-I$lib" tests/c/constant-time.c \
    "$lib/libdata_encoding.a" -o "$room/calls"
holds 'the plugin compiles' cc "${strict[@]}" -shared -fPIC tests/c/qemu-trace.c -o "$room/trace.so"
[ "$failed" = 0 ] || finish
places=$(nm "$room/calls" | awk '$3 == "begun" || $3 == "ended" { print $3 "=" $1 }' | paste -sd ,)
"${emulator[@]}" "$room/calls" >"$room/names"
is 'each call has the status that it should have' 0 $?
[ "$failed" = 0 ] || finish
leaks
if [ -n "$arm64" ]; then
    same ""
    finish
fi
# The calls that any x86-64 processor runs, and those for x86-64-v3.
same baseline
mv "$room/one" "$room/baseline"
same ""
is 'other instructions for x86-64-v3' 1 "$(cmp -s "$room/baseline" "$room/one"; echo $?)"
finish
