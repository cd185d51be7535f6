#!/usr/bin/env bash
# Compares the built program with the tools of docs/CLI.md, line by line, with the Rust crate
# `data-encoding`, if Debian's package of it is here, and with itself in parts, as docs/SCALE.md cuts
# them. Of the program of that crate, which is no package, tests/original.rs takes the place.
#
# usage: tests/interop.sh [PROGRAM]
. "$(dirname "$0")/common.bash" || exit 1

program=$(tests/find-program "$@") || exit 1
tables=$(realpath docs/CLI.md)
scale=$(realpath docs/SCALE.md)
name_program "$program"
original=$(compgen -G '/usr/share/cargo/registry/data-encoding-[0-9]*/src/lib.rs' | tail -n 1)

# build_original: the program over the original crate, which the rows of the page name.
build_original() {
    quietly rustc --crate-name data_encoding --crate-type rlib --edition 2018 --cap-lints allow \
        --cfg 'feature="std"' --cfg 'feature="alloc"' -O --out-dir "$room" "$original" &&
        quietly rustc --edition 2021 -O --extern "data_encoding=$room/libdata_encoding.rlib" \
            tests/original.rs -o "$room/bin/data-encoding"
}

if [ -n "$original" ] && command -v rustc >/dev/null; then
    holds 'the program over the original crate' build_original
fi
cd "$room" || exit 1
mkdir inputs parts

# same NAME ONE OTHER: counts a test, which passes where the two files are the same.
same() {
    holds "$1" cmp "$2" "$3"
}

for size in 0 1 2 3 57 58 10240; do
    head -c "$size" /dev/urandom >"inputs/$size"
done

# try_line LINE INPUT OUTPUT: runs a line of a table; it has to end with status 0.
try_line() {
    bash -o pipefail -c "$1" <"$2" >"$3" || fail "$1: status $?, of $(basename "$2") bytes"
}

# encodes THERE HERE: both write the same text of each input, which is kept.
encodes() {
    local input
    for input in inputs/*; do
        try_line "$1" "$input" "text.$(basename "$input")"
        try_line "$2" "$input" output
        same "$2, of $(basename "$input") bytes" "text.$(basename "$input")" output
    done
}

# decodes THERE HERE: both give each input again from the text that is kept.
decodes() {
    local input text
    for input in inputs/*; do
        text=text.$(basename "$input")
        # What is to be passed over is put into the text.
        case $1 in *-di) sed 's/./& !/3' "$text" >dirty && text=dirty ;; esac
        try_line "$1" "$text" output
        same "$1, of $(basename "$input") bytes" "$input" output
        try_line "$2" "$text" output
        same "$2, of the text of $(basename "$input") bytes" "$input" output
    done
}

# rows: the rows of the tables that have commands: how to encode there and here, and how to decode
# there and here, with tabs between.
rows() {
    local code='`\(.*\)`'
    sed -n "s/^| [^|\`]* | $code | $code | $code | $code |\$/\1\t\2\t\3\t\4/p" "$tables" |
        sed 's/\\|/|/g'
}

while IFS=$'\t' read -r encode_there encode_here decode_there decode_here; do
    tool=${encode_there%% *}
    if command -v "$tool" >/dev/null; then
        encodes "$encode_there" "$encode_here"
        decodes "$decode_there" "$decode_here"
    else
        skip "$encode_there, $decode_there: no $tool (tests/setup)"
    fi
done < <(rows)
is 'each row of the tables is read' "$(grep -c '^| .* | `.*basecode encode ' "$tables")" \
    "$(rows | grep -c 'basecode encode .*basecode decode ')"
[ "$(rows | wc -l)" -ge 20 ] || fail 'the tables have fewer than 20 rows'

# damaged TEXT: the names of files with texts that are like it.
damaged() {
    local text=$1
    head -c -1 "$text" >less
    cat "$text" "$text" >twice
    sed 's/./!/3' "$text" >symbol
    sed 's/./=/2' "$text" >padding
    # Another last symbol has other bits, of which some may be left after the data.
    sed -E '$s/[^=\r](=*\r?)$/7\1/' "$text" >bits
    tr 'A-Za-z' 'a-zA-Z' <"$text" >case
    echo less twice symbol padding bits case
}

# answer COMMAND..: the status, and the fault or the sum of the data.
answer() {
    local status
    "$@" >data 2>line
    status=$?
    [ "$status" != 0 ] || sha256sum <data >line
    echo "$status $(sed 's/^basecode: //' line)"
}

# like_original NAME: the program and the original crate give the same text for each input, the same
# data for each text, and for what is damaged the same fault or data.
like_original() {
    local size text changed
    encodes "data-encoding --mode=encode --base=$1" "basecode encode $1"
    decodes "data-encoding --mode=decode --base=$1" "basecode decode $1"
    for size in 1 2 3 57 58; do
        for changed in $(damaged "text.$size"); do
            is "$1, $size bytes, $changed" \
                "$(answer data-encoding --mode=decode "--base=$1" <$changed)" \
                "$(answer basecode decode "$1" <$changed)"
        done
    done
}

# Those that version 2.3 of the crate has.
if [ -x bin/data-encoding ]; then
    for name in HEXLOWER{,_PERMISSIVE} HEXUPPER{,_PERMISSIVE} BASE32{,_NOPAD,HEX,HEX_NOPAD} \
        BASE32_DNS{SEC,CURVE} BASE64{,_NOPAD,_MIME,URL,URL_NOPAD}; do
        like_original "$name"
    done
else
    skip 'the original crate: no librust-data-encoding-dev, or no rustc'
fi

# statuses ROW ENCODE DECODE FAULTY WRONG: the commands end as the row of the table says.
statuses() {
    local command given='|'
    if ! command -v "${2%% *}" >/dev/null || [ ! -c /dev/full ]; then
        skip "the statuses of $1"
        return
    fi
    for command in "printf Hello | $2" "printf '$4' | $3" "$5" "$2 <." \
        "printf Hello | $2 >/dev/full"; do
        bash -c "$command" >output 2>line
        given+=" $? |"
    done
    echo "| $1 $given" >output
    awk -v row="| $1 |" 'index($0, row) == 1' "$tables" >wanted
    same "the statuses of $1" output wanted
}

statuses '`basecode`' 'basecode encode BASE64' 'basecode decode BASE64' 'Zg=!' 'basecode encode'
statuses '`base64` and the other GNU coreutils' base64 'base64 -d' 'Zg=!' 'base64 --nope'
statuses '`openssl base64`' 'openssl base64' 'openssl base64 -d -A' 'Zg=!' 'openssl base64 -nope'
statuses '`xxd`' 'xxd -p' 'xxd -r -p' 4G 'xxd -Z'

# block NUMBER: a block of docs/SCALE.md, from 1.
block() {
    awk -v number="$1" '
        /^```/ { if (inside) inside = 0; else if (/^```sh$/) inside = ++count; next }
        inside == number' "$scale"
}

# tests/scale.sh runs the last. in_parts NUMBER MADE WANTED: runs the block, which makes a file that is wanted so. `:` is this
# machine.
in_parts() {
    (cd parts && bash -e -c "$(block "$1" | sed 's/ one,other / : /')") ||
        fail "the block $1: status $?"
    same "the block $1" "parts/$2" "$3"
}

[ "$(grep -c '^```sh$' "$scale")" = 8 ] || fail 'docs/SCALE.md has other than 8 blocks'
head -c 67108864 /dev/urandom >parts/input
basecode encode BASE64 <parts/input >whole
in_parts 1 text whole
in_parts 5 back parts/input
base64 <parts/input >parts/lines
for number in 2 4 6 7; do
    made=text wanted=whole
    [ "$number" -lt 6 ] || made=back wanted=parts/input
    if command -v parallel >/dev/null; then
        mv "parts/$made" "parts/$made.before"
        in_parts "$number" "$made" "$wanted"
    else
        skip "the block $number: no parallel"
    fi
done
tail -c +8360001 whole | head -c 8360000 >second
in_parts 3 second second

# A fault of a part is that of the whole, so much further on.
printf '!' | dd of=parts/text bs=1 seek=10000000 conv=notrunc status=none
basecode decode BASE64 <parts/text 2>&1 >back | tail -n 1 >line
echo 'basecode: invalid symbol at 10000000' >wanted
same 'a fault of the whole' line wanted
(cd parts && bash -e -c "$(block 5)") 2>&1 | tail -n 1 >line
[ "${PIPESTATUS[0]}" = 123 ] || fail "a fault of a part: status ${PIPESTATUS[0]}"
echo 'basecode: invalid symbol at 2200000' >wanted
same 'a fault of a part' line wanted

# parts_of LENGTH VERB NAME: a file in parts of that length, converted one by one.
parts_of() {
    rm -f cut.*
    split -b "$1" - cut.
    for part in cut.*; do
        basecode "$2" "$3" <"$part"
    done
}

# Every encoding in parts of these lengths, and the text in parts where it may be cut so.
head -c 13000000 parts/input >input
for name in $(basecode list); do
    basecode encode "$name" <input >whole
    parts_of 6270000 encode "$name" <input >joined
    same "$name in parts" whole joined
    case $name in HEX* | BASE32 | BASE32HEX | BASE64 | BASE64URL | BASE64_MIME*)
        parts_of 7800000 decode "$name" <whole >joined
        same "the text of $name in parts" input joined
        ;;
    esac
done

finish
