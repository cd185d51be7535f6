#!/usr/bin/env bash
# Counts, by valgrind, the instructions that the library for C takes to decode texts with ignored
# bytes. Unlike times, they do not depend on other processes.
#
# A bound of the table below is a ratio: the instructions for each byte of a text, divided by those
# of a plain text of its length. It holds for each text of its kind in tests/c/cost.c, with 16 KiB
# and with 64 KiB, so a byte does not take more instructions in a longer text. The bound of `plain`
# is the number of instructions for each byte.
#
# Each bound is the ratio of the worst text, and at most a tenth more. The worst are, of `gaps`, lines
# that get shorter by one group each, of `ignored`, its only text, of `padded`, padded texts of one
# byte, and of `pieces`, base32 without padding. Change a bound if that text takes less, or more for a
# reason.
#
# usage: tests/cost.sh [--numbers] [LIB]: where build.sh left the library. Without a folder it is
# built. With --numbers it also prints the ratio of each text.
. "$(dirname "$0")/common.bash" || exit 1

numbers=
if [ "${1-}" = --numbers ]; then
    numbers=yes
    shift
fi
cc=${CC:-cc}
for tool in valgrind "$cc"; do
    if ! command -v "$tool" >/dev/null; then
        skip "instructions of texts with ignored bytes: no $tool"
        finish
    fi
done

# The kind of a text, and its bound for calls that any x86-64 processor runs and for those for
# x86-64-v3.
bounds='
plain 2.60 1.15
gaps 2.95 5.10
ignored 1.80 3.40
padded 16.0 36.0
pieces 2.80 4.70
'

# count NAME: decodes each text with 16 KiB, and then with 64 KiB, where DE_CPU is NAME. Writes a
# line for each call that is counted to "$room/NAME": the kind of the text, its length, its name,
# and the instructions. The kind is `same` for the plain text of its length.
count() {
    local name=$1 call part=0
    DE_CPU=$name valgrind --tool=callgrind --toggle-collect=counted --dump-after=counted \
        "--callgrind-out-file=$room/$name.part" "$room/cost" 16384 65536 >"$room/$name.calls" \
        2>"$room/said" || {
        grep '^FAILED' "$room/$name.calls"
        tail -n 20 "$room/said"
        return 1
    }
    while read -r call; do
        part=$((part + 1))
        printf '%s\t%s\n' "$call" "$(sed -n 's/^totals: //p' "$room/$name.part.$part")"
    done <"$room/$name.calls" >"$room/$name"
}

# table NAME: writes a line for each text to "$room/table": its kind, how many times the
# instructions of a plain one it takes, or for a plain one the instructions for each byte, its
# length and its name.
table() {
    awk -F '\t' '
        $1 != "same" { kind = $1; each = $4 / $2; next }
        { printf "%s %.3f %d %s\n", kind, kind == "plain" ? each : each * $2 / $4, $2, $3 }
    ' "$room/$1" >"$room/table"
}

# at_most NAME BOUND NUMBER: counts a test, which passes where the number is not above the bound.
at_most() {
    if awk -v number="$3" -v bound="$2" 'BEGIN { exit !(number != "" && number <= bound) }'; then
        pass
    else
        fail "$1: $3, and not at most $2"
    fi
}

# judge NAME COLUMN: compares the table of these calls with the bounds of that column.
judge() {
    local kind times len text
    holds "makes a table, $1" table "$1"
    is "a ratio for each text, $1" "$(grep -vc '^same' "$room/$1.calls")" "$(wc -l <"$room/table")"
    is "the kinds of texts, $1" "$(awk '{ print $1 }' <<<"$bounds" | sort | grep .)" \
        "$(cut -d ' ' -f 1 "$room/table" | sort -u)"
    while read -r kind times len text; do
        at_most "$text, $len bytes, $1" "$(awk -v kind="$kind" -v column="$2" \
            '$1 == kind { print $column }' <<<"$bounds")" "$times"
    done <"$room/table"
    [ -z "$numbers" ] || { echo "$1:" && cat "$room/table"; }
}

find_library "$@"
holds 'compiles' quietly "$cc" -std=c99 -Wall -Wextra -Wpedantic -Werror "-I$lib" tests/c/cost.c \
    "$lib/libdata_encoding.a" -o "$room/cost"

# By the calls for each processor, and by those for this one, which are the former if it has no
# others.
holds 'counts the calls for each processor' count baseline
holds 'counts the calls for this processor' count wide
[ "$failed" = 0 ] || finish
judge baseline 2
if cmp -s "$room/baseline" "$room/wide"; then
    skip 'the calls for x86-64-v3: this processor, or valgrind, does not run them'
else
    judge wide 3
fi
finish
