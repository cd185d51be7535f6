#!/usr/bin/env bash
# Fails if docs/DEFINITIONS.md is not what docs/definitions.py makes of the sources, if a definition that
# a public contract reaches has no comment or no worked row, and if a change would not be found.
. "$(dirname "$0")/common.bash" || exit 1

holds 'the index is what the sources make' docs/definitions.py --check

# What the index is made of, in "$room/copy".
mkdir -p "$room/copy"
cp --parents docs/*.py docs/DEFINITIONS.md crates.txt "$room/copy"
find crates -path '*/out' -prune -o \( -path '*/src/*' -o -path '*/specs/*' -o -path '*/proofs/*' \) \
    -type f -print0 | xargs -0 cp --parents -t "$room/copy"
last=crates.txt

# edited FILE EDIT: edits a file of the copy by sed. All others are again as they are here.
edited() {
    cp "$last" "$room/copy/$last"
    cp docs/DEFINITIONS.md "$room/copy/docs"
    last=$1
    sed -i "$2" "$room/copy/$1"
    ! cmp -s "$1" "$room/copy/$1"
}

# refused NAME FILE EDIT SAID: after an edit by sed, a copy whose index is written again is refused, and
# SAID is part of the reason.
refused() {
    holds "$1: an edit" edited "$2" "$3"
    "$room/copy/docs/definitions.py" >/dev/null
    is "$1" 1 "$("$room/copy/docs/definitions.py" --check | grep -c "$4")"
}

text=crates/data_encoding_meaning/specs/text/Text.antt
refused 'a definition without a comment' $text 's/^abbrev pub text_of /\n&/' 'text_of has no comment'
refused 'a reached definition without a worked row' $text \
    's/^text_of base bytes = .*/text_of base bytes = in_lines base.wrapping (as_text base bytes)\n\n-- the same\nabbrev pub as_text : Base → List ℕ → List ℕ\nas_text base bytes = padded_text base bytes/' \
    'as_text has no worked row'
refused 'a definition whose worked row is gone' crates/data_encoding_meaning/proofs/vectors/OrderLaws.antt \
    '/^canonical_without_causes/,/^$/d' 'CanonicalByCauses has no worked row'
refused 'an exception with a worked row' crates/data_encoding/proofs/vectors/Encoders.antt \
    '$ a\\nuse Rattle.data_encoding.specs.Encoder.{Finalizes}\n\nfinalized : Finalizes' \
    'Finalizes has a worked row'

# stale NAME FILE EDIT: after an edit by sed, the index of a copy is out of date.
stale() {
    holds "$1: an edit" edited "$2" "$3"
    is "$1" 1 "$("$room/copy/docs/definitions.py" --check | grep -c 'is stale')"
}

stale 'a comment that changed' $text 's/^abbrev pub text_of /-- More.\n&/'
stale 'a definition that moved' $text '1 a\-- More.'
stale 'a row that moved' crates/data_encoding_meaning/proofs/vectors/Texts.antt '1 a\-- More.'
stale 'a definition that a contract names newly' crates/data_encoding/src/encode.rt \
    's/^        ensures some { 0 < result }/        ensures some { HasTables }/; 1 i\ghost use Rattle.data_encoding.specs.Tables.{HasTables};'
stale 'an entry that is missing' docs/DEFINITIONS.md '/^| \[`text_of`\]/d'

finish
