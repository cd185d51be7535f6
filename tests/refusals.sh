#!/usr/bin/env bash
# Runs each public call that takes memory where none is left, and where each of its allocations in
# turn is refused: it is refused, leaves everything as it was, and succeeds once there is memory.
. "$(dirname "$0")/common.bash" || exit 1

program=$(CRATE=refusals tests/find-program) || exit 1
calls=$(cat crates/refusals/stdout)

if (ulimit -v 98304 && "$program" >"$room/output" 2>"$room/line"); then
    is 'each call has memory' "$calls" "$(cat "$room/output")"
    is 'each call is refused, and then has memory' "$calls" \
        "$(ulimit -v 98304 && "$program" refused 2>&1)"
else
    skip 'refusals: no limit on memory here'
fi

# each_in_turn: refuses the first allocation of each call, then the second, and so on until no call
# has as many. Prints the calls that were refused, each time.
each_in_turn() {
    local number output
    for number in {1..99}; do
        output=$(REFUSED=$number LD_PRELOAD=$room/refused.so "$program" one 2>&1)
        is "allocation $number is refused" "$calls" "${output//, refused/}" >&2
        sed -n 's/: right, refused$//p' <<<"$output"
        [[ $output == *refused* ]] || break
    done
}

# times CALL: at how many numbers it was refused an allocation.
times() {
    grep -cxF "$1" "$room/refused"
}

cc=${CC:-cc}
if command -v "$cc" >/dev/null; then
    holds 'a malloc that refuses' "$cc" -std=c99 -Wall -Wextra -Werror -O1 -fno-builtin -shared \
        -fPIC -o "$room/refused.so" tests/c/refused.c
    each_in_turn >"$room/refused"
    while IFS= read -r call; do
        holds "$call was refused" [ "$(times "$call")" -ge 1 ]
    done <<<"${calls//: right/}"
    holds 'five texts of a specification' [ "$(times specification)" -ge 5 ]
    is 'five texts of its copy' 5 "$(times Specification::try_clone)"
    is 'two texts of the copy of a translation' 2 "$(times Translate::try_clone)"
else
    skip 'each allocation in turn: no C compiler'
fi

finish
