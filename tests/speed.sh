#!/usr/bin/env bash
# Runs comparisons/speed over little data: each command of it has to write the same bytes. The ratios
# are not compared. The tables of docs/SPEED.md have to be of the code as it is now: since the commits
# that the page names, no line has changed that encodes or decodes, except for comments.
#
# usage: tests/speed.sh
. "$(dirname "$0")/common.bash" || exit 1

table=$(comparisons/speed 1)
is 'measures' 0 $?
wanted='| 1 MiB of data | data-encoding | basenc | cat | MB/s |
|---|---|---|---|---|'
for name in HEXLOWER HEXUPPER BASE32 BASE64 BASE64_MIME; do
    other=N
    if [ "$name" = HEXLOWER ] || ! command -v basenc >/dev/null; then other=-; fi
    wanted+=$'\n'"| encode $name | - | $other | N | N |"$'\n'"| decode $name | - | $other | N | N |"
done
is 'the table' "$wanted" "$(sed -E 's/[0-9]+\.[0-9]{2}/N/g; s/[0-9]+ \|$/N |/' <<<"$table")"

comparisons/speed 0 2>/dev/null
is 'no data' 2 $?
comparisons/speed 1 2 2>/dev/null
is 'too many words' 2 $?
comparisons/speed --original /nowhere 2>/dev/null
is 'no original' 2 $?

# These prove and build libraries, or take minutes: too long here.
comparisons/memory --original /nowhere 2>/dev/null
is 'no original in memory' 2 $?
comparisons/memory 1 2>/dev/null
is 'a number in memory' 2 $?
comparisons/calls lib lib 2>/dev/null
is 'too many libraries' 2 $?
comparisons/tables 2>/dev/null
is 'tables of no page' 1 $?
comparisons/tables rust lib 2>/dev/null
is 'tables of a page without a folder' 1 $?

comparisons/tables program 2>/dev/null
is 'tables of a page without a folder, again' 1 $?

# rows [HEADING]: the rows of a table, or of that one of docs/SPEED.md.
rows() {
    awk -v heading="${1+## $1}" '/^## / { under = $0 == heading } under || heading == ""' "$([ $# = 0 ] && echo - || echo docs/SPEED.md)" |
        cut -d '|' -f 2 | grep -E '^ (encode |decode |)[A-Z0-9_]+ $'
}
names=$(sed -n '/names\[NAMES\] = /,/;/p' comparisons/memory.c | grep -o '"[A-Z0-9_]*"' | tr -d '"')
is 'the rows of docs/SPEED.md, the program' "$(rows <<<"$table")" "$(rows 'The program')"
is 'the rows of docs/SPEED.md, from Rattle' "$(sed 's/.*/ & /' <<<"$names")" "$(rows 'From Rattle')"

# medians CELL..: the cell and the note of the medians of tables with one cell each.
medians() {
    PYTHONDONTWRITEBYTECODE=1 python3 - "$@" <<'END'
import importlib.machinery, importlib.util, sys
loader = importlib.machinery.SourceFileLoader("tables", "comparisons/tables")
module = importlib.util.module_from_spec(importlib.util.spec_from_loader("tables", loader))
loader.exec_module(module)
head = ["| 1 MiB | one | other |", "|---|---|---|"]
print(module.medians([[*head, f"| encode X | {cell} | - |"] for cell in sys.argv[1:]]))
END
}
is 'medians' '| 1 MiB | one | other |
|---|---|---|
| encode X | 0.50 (7) | - |

A run differs from these ratios by at most 40 %.' "$(medians '0.70 (7)' '0.40 (9)' '0.50 (5)')"
is 'medians of other cells' 1 "$(medians 0.70 '0.40 (9)' >/dev/null 2>&1; echo $?)"

# The gate tests a copy without history: the checkout has it. No table has small pieces of data, so
# what an encoder keeps between them is left out, and so are callers that are proved and not run.
repository=${GATE:-.}
sources=(crates/data_encoding{_kernel,,_calls,_c}/src crates/encoding_stream/src crates/data_encoding_c/glue
    crates/basecode/src bindings/{python,rust,javascript}/src
    ':!crates/data_encoding/src/encode/kept_data.rt' ':!crates/basecode/src/proved_callers.rt')

# changed COMMIT: how many lines of code have changed in the sources since then.
changed() {
    git -C "$repository" diff -U0 "$1" -- "${sources[@]}" |
        grep -E '^[-+]' | grep -vE '^(\+\+\+|---) ' | grep -cvE '^[-+]\s*(//|\*|/\*|#|"""|$)'
}

commits=$(grep -ohE '\bcommit [0-9a-f]{8}\b' docs/SPEED.md | cut -d ' ' -f 2 | sort -u)
[ -n "$commits" ] || fail 'docs/SPEED.md names no commit'
if git -C "$repository" rev-parse --git-dir >/dev/null 2>&1; then
    for commit in $commits; do
        if git -C "$repository" cat-file -e "$commit^{commit}" 2>/dev/null; then
            is "the lines of code that are newer than the tables of commit $commit" 0 "$(changed "$commit")"
        else
            fail "docs/SPEED.md names a commit that there is not: $commit"
        fi
    done
    # A change of code is found, in a commit before code was written.
    first=$(git -C "$repository" log --format=%H --diff-filter=A -- crates/data_encoding_kernel/src/lib.rt | tail -n 1)
    [ "$(changed "${first:-HEAD}")" -gt 0 ] || fail 'no change of code is found'
else
    skip 'the age of the tables of docs/SPEED.md: no history'
fi

finish
