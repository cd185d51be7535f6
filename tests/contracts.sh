#!/usr/bin/env bash
# Fails if a generated page is not what its script makes of the sources, and if a change would not be
# found: docs/CONTRACTS*.md (docs/contracts.py), docs/PROVED.md (docs/proved.py) and the picture of the
# crates (docs/pictures.py). docs/LIBRARY.md may name no call that is not there. tests/definitions.sh does
# the same for docs/DEFINITIONS.md.
. "$(dirname "$0")/common.bash" || exit 1

# check FOLDER: whether the pages there are what the sources there make.
check() {
    "$1/docs/contracts.py" --check && "$1/docs/proved.py" --check && "$1/docs/pictures.py" --check
}

holds 'the pages are what the sources make' check .

# What the pages are made of, in "$room/copy".
mkdir -p "$room/copy"
cp --parents docs/*.py crates.txt "$room/copy"
find crates -path '*/out' -prune -o \( -path '*/src/*' -o -path '*/specs/*' -o -path '*/proofs/*' \) -type f -print0 |
    xargs -0 cp --parents -t "$room/copy"
last=crates.txt

# planted FILE OLD NEW: in a line of a file of the copy, OLD becomes NEW. All others are as they are here.
planted() {
    cp "$last" "$room/copy/$last"
    cp docs/*.svg docs/CONTRACTS*.md docs/PROVED.md "$room/copy/docs"
    last=$1
    sed -i "${4-}s~$2~$3~" "$room/copy/$1"
    ! cmp -s "$1" "$room/copy/$1"
}

# sees NAME FILE OLD NEW: a copy with a change is refused.
sees() {
    holds "$1: an edit" planted "$2" "$3" "$4"
    check "$room/copy" >/dev/null
    is "$1" 1 $?
}

encode=crates/data_encoding/src/encode.rt
sees 'a clause that changed' $encode '{ result ≤ 189 }' '{ result ≤ 190 }'
sees 'a record of clauses that changed' crates/data_encoding/specs/Calls.antt \
    'count ≤ 263 \* len' 'count ≤ 264 * len'
sees 'a clause that is gone' $encode '^        ensures ascii .*' ''
sees 'a call that is new' $encode '    fn padded_len' '    pub fn padded_len'
sees 'a call that is gone' $encode 'pub fn encode_align' 'fn encode_align'
encoder=crates/data_encoding/src/encoder.rt
sees 'a clause of a trait that changed' $encoder 'ensures { result ≡ Self.base self.now };' \
    'ensures { Self.base self.now ≡ result };'
sees 'a trait that is gone' $encoder '^pub trait' 'trait'
sees 'a definition that changed' crates/encoding_stream/specs/Encoded.antt \
    'pub at_end : IsAtEnd reader.new' 'pub at_end : IsAtEnd reader.old'
sees 'a law that changed' crates/data_encoding_meaning/specs/laws/Laws.antt '→ one ≡ other' '→ other ≡ one'
sees 'a call for other languages that changed' crates/data_encoding_c/src/properties.rt \
    'ensures { TellsWidth' 'ensures { TellsAlignment'
sees 'an entry that is missing' docs/CONTRACTS.md '^### `Encoding::encode`$' '### `Encoding::encodes`'
sees 'a link to a definition that was edited' docs/CONTRACTS.md '/text/Text.antt)' '/text/Texts.antt)'

text=crates/data_encoding_meaning/specs/text
sees 'a printed definition that changed' $text/Text.antt '^text_of base bytes = .*' \
    'text_of base bytes = padded_text base bytes'
sees 'a comment of a printed definition that changed' $text/Grammar.antt '^pub record GroupMeans ' '-- More.\n&'
sees 'a printed definition that is gone' $text/Text.antt '^abbrev pub in_lines' 'abbrev pub by_lines'
sees 'a worked row that changed' crates/data_encoding_meaning/proofs/vectors/Texts.antt \
    'codes "7PX76AI="' 'codes "7PX76AJ="'
sees 'a printed worked row that was edited' docs/PROVED.md 'codes "7PX76AI="' 'codes "7PX76AJ="'
sees 'a core definition that is not printed' docs/PROVED.md ', is_padding, is_padded,' ', is_padded,'
sees 'a printed definition that was edited' docs/PROVED.md '^Means base text bytes =' 'Means base bytes text ='
sees 'a call that docs/PROVED.md shows and there is not' docs/PROVED.md 'shows `encode_stream`' 'shows `encodes_stream`'
sees 'a clause that docs/PROVED.md shows and there is not' docs/PROVED.md ', begun, judges' ', begun, judged'
sees 'the size of the specification that was edited' docs/PROVED.md \
    'and `IsCanonical`, reach [0-9]*' 'and `IsCanonical`, reach 9'
sees 'a crate that uses another less' crates.txt '^examples: anyhow data_encoding .*' 'examples: anyhow data_encoding'

# differs NAME FILE OLD NEW: twins differ in a copy whose page is written again, after the first OLD
# became NEW.
differs() {
    holds "$1: an edit" planted "$2" "$3" "$4" "0,/$3/"
    "$room/copy/docs/contracts.py" >/dev/null
    is "$1" 1 "$("$room/copy/docs/contracts.py" --check | grep -c 'has not the clauses of')"
}

differs 'a clause that has another name at one twin' $encode 'ensures most {' 'ensures few {'
differs 'a clause that one twin lacks' $encode '        ensures ascii .*' ''

# Words on a clause are kept while the clause stays, and dropped with it.
words=$(grep -c '^- \*' docs/CONTRACTS.md)
planted $encode 'byte < 128) output.new' 'byte < 127) output.new'
"$room/copy/docs/contracts.py" >/dev/null
is 'words that stay' "$words" "$(grep -c '^- \*' "$room/copy/docs/CONTRACTS.md")"
planted crates/data_encoding/src/encoding/calls.rt '{ 510 ≤ output_len }' '{ 511 ≤ output_len }'
is 'words that are dropped' '`Encoding::encode_piece_len`, room' \
    "$("$room/copy/docs/contracts.py" | sed -n 's/.*words dropped at data_encoding: //p')"
is 'words after one was dropped' $((words - 1)) "$(grep -c '^- \*' "$room/copy/docs/CONTRACTS.md")"

# Calls of the last column are named as the page names them.
named=$(sed -n '/^## Differences from the Rust crate/,$ s/^| .* | //p' docs/LIBRARY.md |
    grep -oE '\b[A-Z][A-Za-z]+::[a-z_]+\(' | tr -d '(' | sort -u)
unknown=$(while read -r call; do grep -qF "### \`$call\`" docs/CONTRACTS.md || echo "$call"; done <<<"$named")
is 'calls that are unknown' '' "$unknown"
[ -n "$named" ] || fail 'the differences of docs/LIBRARY.md name no call'

finish
