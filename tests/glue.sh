#!/usr/bin/env bash
# Proves the layer in C of data_encoding_c with Frama-C: by WP that each function keeps its contract
# (contracts/), and by Eva that no call of the header has undefined behaviour. What one of them does not
# prove has to be what contracts/left.txt names. The edits of contracts/must-fail/ are refused.
#
# usage: tests/glue.sh [--one]: --one proves the layer as it is built for one kind of processor, instead
# of for two.
. "$(dirname "$0")/common.bash" || exit 1

wide=-DDE_WIDE
[ "${1-}" != --one ] || wide=
for command in frama-c why3 cvc4 ocamlopt; do
    if ! command -v "$command" >/dev/null; then
        # The gate installs all of them.
        if [ -n "${GATE-}" ]; then fail "no $command"; else skip "the layer in C: no $command"; fi
        finish
    fi
done

crate=$PWD/crates/data_encoding_c
export WHY3CONFIG=$room/why3.conf
why3 config detect >/dev/null 2>&1
libc=$(frama-c -print-share-path)/libc
cp "$crate/contracts/char.ml" "$room"
holds 'a machine with an unsigned char' ocamlopt -shared -I "$(frama-c -print-lib-path)" -o "$room/char.cmxs" \
    "$room/char.ml"

# frama GLUE FILE OPTION..: runs Frama-C on a file of contracts/, with the layer in the folder GLUE.
frama() {
    local glue=$1 file=$2
    shift 2
    nice frama-c -load-module "$room/char.cmxs" -machdep gcc_x86_64_unsigned_char -no-frama-c-stdlib \
        -cpp-extra-args="-nostdinc -I$crate/contracts/stub -I$libc -D__FC_MACHDEP_GCC_X86_64" \
        -cpp-extra-args="-I$glue -I$crate/include -DDE_EXPORT= $wide" \
        "$crate/contracts/$file" -warn-invalid-pointer "$@" 2>&1
}

# wp GLUE OPTION..: tries to prove the layer in a folder.
wp() {
    frama "$1" wp.c -warn-unsigned-downcast -warn-signed-downcast -warn-unsigned-overflow -wp -wp-rte \
        -wp-model Typed -wp-prover cvc4 "${@:2}"
}

# not_proved FILE: the goals that are not proved, by what WP printed.
not_proved() {
    sed -n '/: Valid/d; s/^\[wp\] .* Goal typed_\([a-z_0-9]*\).*/\1/p' "$1" | sort -u
}

# alarms FILE: the alarms of Eva, each with its function, by what it printed.
alarms() {
    local line text
    tr '\n' ' ' <"$1" | sed 's/\[eva/\n[eva/g' |
        sed -nE 's/^\[eva:alarm\] [^ ]*:([0-9]+): Warning: *(.*)/\1 \2/p' |
        while read -r line text; do
            awk -v line="$line" 'NR <= line && /^[a-z].*\(/ { name = $0 }
                END { sub(/\(.*/, "", name); sub(/.*[ *]/, "", name); printf "%s: ", name }' \
                "$crate/glue/data_encoding.c"
            sed -E 's/.* assert +//; s/; *$//; s/\.? *$//; s/  +/ /g' <<<"$text"
        done | sort
}

# plant EDIT: makes an edit in "$room/wrong". The text that it replaces is there once, in the function that
# the name of the edit begins with.
plant() {
    python3 - "$1" "$room/wrong/data_encoding.c" <<'END'
import os, re, sys
edit, path = sys.argv[1:]
old, new = (line.split(": ", 1)[1] for line in open(edit).read().splitlines()[1:])
text = open(path).read()
name = os.path.basename(edit).split("-")[0]
body = re.search(r"^\w[^\n]*\b%s\([^;{]*\{\n.*?^\}\n" % name, text, re.DOTALL | re.MULTILINE)
assert body[0].count(old) == 1
open(path, "w").write(text[:body.start()] + body[0].replace(old, new) + text[body.end():])
END
}

# left TOOL: what the file names.
left() {
    sed -n "s/^$1 //p" "$crate/contracts/left.txt" | sort
}

wp "$crate/glue" -wp-par 2 -wp-timeout 20 >"$room/wp" &
proof=$!

holds 'Eva ends' eval 'frama "$crate/glue" eva.c -cpp-extra-args=-DEVA -eva -eva-precision 6 >"$room/eva"'
is 'what Eva does not prove' "$(left eva)" "$(alarms "$room/eva")"
holds 'Eva finds nothing wrong' grep -q ' 0 unknown *0 invalid *[0-9]* total' \
    <(grep Preconditions "$room/eva")
holds 'Eva reaches every function' grep -q ' 100% coverage' "$room/eva"

# All edits at once, each in a function of its own: the clauses of none are proved.
cp -r "$crate/glue" "$room/wrong"
functions=
for edit in "$crate"/contracts/must-fail/*.edit; do
    name=$(basename "$edit")
    functions+=,${name%%-*}
    holds "$name is one edit" plant "$edit"
done
wp "$room/wrong" -wp-fct "${functions#,}" -wp-prop=@ensures -wp-par 1 -wp-timeout 4 \
    >"$room/edits"
for edit in "$crate"/contracts/must-fail/*.edit; do
    name=$(basename "$edit" .edit)
    holds "$name is refused" grep -qE "^${name%%-*}_((call|none|null|overlap|long_name)_)?ensures" \
        <(not_proved "$room/edits")
done

holds 'WP ends' wait "$proof"
holds 'WP has all goals' [ "$(sed -n 's|^\[wp\] Proved goals: *[0-9]* */ *||p' "$room/wp")" -gt 1400 ]
is 'what WP does not prove' "$(left wp)" "$(not_proved "$room/wp")"

finish
