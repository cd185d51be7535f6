#!/usr/bin/env bash
# Fails if C declares an export, a struct or DE_TABLES otherwise than its source in Rattle, or if the
# contracts of the exports for Frama-C are not what docs/exports.py makes of the sources.
. "$(dirname "$0")/common.bash" || exit 1

holds 'the declarations in C are those of the sources' docs/exports.py --check

# What docs/exports.py reads, in "$room/copy".
mkdir -p "$room/copy"
cp --parents docs/{exports,sources}.py "$room/copy"
find crates \( -path '*/out' -o -path '*/proofs' \) -prune -o -type f -print0 | xargs -0 cp --parents -t "$room/copy"
last=crates.txt

# sees NAME FILE OLD NEW: a copy in which OLD became NEW in one place of a file is refused. All other
# files are as they are here.
sees() {
    cp "$last" "$room/copy/$last"
    last=$2
    perl -0777 -pi -e "s~$3~$4~" "$room/copy/$2"
    holds "$1: an edit" eval "! cmp -s '$2' '$room/copy/$2'"
    "$room/copy/docs/exports.py" --check >/dev/null
    is "$1" 1 $?
}

crate=crates/data_encoding_c
sees 'arguments exchanged in C' $crate/glue/data_encoding.c 'size_t len, size_t \*text_len' 'size_t *text_len, size_t len'
sees 'arguments exchanged in Rattle' $crate/src/custom.rt 'len: usize,\s+text_len: &mut usize' 'text_len: &mut usize, len: usize'
sees 'arguments of one type exchanged in C' $crate/glue/data_encoding.c \
    'from, size_t from_len, const byte \*to,\s+size_t to_len' 'to, size_t to_len, const byte *from, size_t from_len'
sees 'arguments of one type exchanged in Rattle' $crate/src/custom.rt 'from: &\[u8\],\s+to:' 'to: &[u8], from:'
sees 'a length of another type' $crate/glue/bytes.h 'size_t input_len' 'uint32_t input_len'
sees 'an argument that is written to' $crate/src/decoder.rt 'decoder: &PlainKept' 'decoder: &mut PlainKept'
sees 'another result' $crate/glue/data_encoding.c 'void de_plain_decoder_new' 'de_status de_plain_decoder_new'
sees 'an export that C does not declare' $crate/glue/data_encoding.c 'de_status de_custom_bit_width[^;]*;' ''
sees 'an export that is gone' $crate/src/properties.rt 'fn de_custom_bit_width' 'fn de_custom_width'
sees 'fields exchanged in C' $crate/glue/data_encoding.c \
    'bool check_trailing_bits;\s+bool concatenate;' 'bool concatenate;\n    bool check_trailing_bits;'
sees 'a field more in Rattle' crates/data_encoding_calls/src/convert.rt 'pub struct Decoded \{' '$&\n    pub more: usize,'
sees 'an array of another length' $crate/include/data_encoding.h 'bytes\[189\]' 'bytes[188]'
sees 'a table of another length' crates/data_encoding_kernel/src/value_table.rt 'entries: \[u8; 256\]' 'entries: [u8; 128]'
sees 'another DE_TABLES' $crate/include/data_encoding.h 'DE_TABLES 843' 'DE_TABLES 844'
sees 'a clause that changed' $crate/src/names.rt 'WritesName number output.old' 'WritesName number output.new'
sees 'a contract that was edited' $crate/contracts/exports.h 'KeepsRules\(BYTES' 'yes && $&'

finish
