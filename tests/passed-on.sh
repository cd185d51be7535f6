#!/usr/bin/env bash
# Fails where a library makes an error of memory, of a writer or of a reader, or asks for memory, at
# a place that is not listed here. No clause can say that memory ran out only where a growth was
# refused, or that a write failed only where a call of the writer did: everywhere else such an error
# is passed on. And none can say that no more memory is asked for than is needed: each amount is the
# length of a text, the most that a text may decode to, or the number of bytes that are there.
. "$(dirname "$0")/common.bash" || exit 1

# code FOLDER PATTERN: the lines of code of the libraries below it that have the pattern.
code() {
    (cd "$1" && find data_encoding{,_meaning,_kernel}/src encoding_stream/src -name '*.rt' \
        -not -path '*/tests/*' -not -name tests.rt -print0 | sort -z | xargs -0 grep -HE "$2") |
        sed -E 's/: +/: /' | grep -vE '^[^:]*: *//' | grep -vE ': (ghost|ensures|requires) |→'
}

# made FOLDER: the lines that name such an error, but for types and imports.
made() {
    code "$1" 'AllocError|AllocFailed|OutOfMemory|fmt::Error|io::Error|ErrorKind|(StreamFault|Self)::(Read|Write)\b' |
        grep -vE '^[^:]*:.*->.*Result<' | grep -vP '^[^:]*: *(pub )?use (?!.* as )' |
        grep -vE 'DecodeFault\.OutOfMemory|StreamFault\.(Read|Write)' | sed -E 's/: +/:/'
}

# asked FOLDER: the lines that ask for memory, and those that compute an amount that has a name in
# one of them.
asked() {
    {
        code "$1" '\b(reserve|reserve_exact|with_capacity|resize|zeros|extend_from_slice|from_str|from_slice|push_str|to_vec|collect|clone|try_clone|vec!|format!)[(\[]|text\.push\(' |
            grep -vE ': ?(pub(\(crate\))? )?fn |try_extend_from_slice|(u8x[0-9]+|Simd::<u8, N>)::from_slice'
        code "$1" '^ *let (mut )?(len|due)\b' |
            grep -E '^data_encoding/src/(encode/append|encoder|decode).rt:'
        code "$1" '^ *let (mut )?\(?(count|more|read|rest|written)\b' |
            grep -E '^encoding_stream/src/(append_piece|decoder).rt:'
        code "$1" 'append_chunk\(pieces, ' | grep '^encoding_stream/src/append_piece.rt:'
    } | sed -E 's/: +/:/'
}

asked_for='data_encoding/src/decode.rt:let mut output = zeros(alloc, len)?;
data_encoding/src/encode.rt:let mut output = zeros(alloc, self.encode_len(input.len()))?;
data_encoding/src/encode/append.rt:output.reserve(len)?;
data_encoding/src/encode/append.rt:bytes.resize(start + len, 0).unwrap();
data_encoding/src/encode/append.rt:bytes.resize(start + due.total, 0).unwrap();
data_encoding/src/encoder.rt:output.reserve(due.total)?;
data_encoding/src/memory.rt:let mut bytes = Vec::with_capacity(alloc, len)?;
data_encoding/src/memory.rt:bytes.resize(len, 0)?;
data_encoding/src/specification.rt:symbols: self.symbols.clone()?,
data_encoding/src/specification.rt:ignore: self.ignore.clone()?,
data_encoding/src/specification.rt:wrap: self.wrap.try_clone()?,
data_encoding/src/specification.rt:translate: self.translate.try_clone()?,
data_encoding/src/specification.rt:text.push(char::from(byte))
data_encoding/src/specification.rt:from: self.from.clone()?,
data_encoding/src/specification.rt:to: self.to.clone()?,
data_encoding/src/specification.rt:separator: self.separator.clone()?,
encoding_stream/src/append_piece.rt:output.resize(start + most, 0).unwrap();
encoding_stream/src/append_piece.rt:output.reserve(written + more)?;
encoding_stream/src/append_piece.rt:output.extend_from_slice(&buffer[..written]).unwrap();
encoding_stream/src/decoder.rt:output.reserve(count)?;
encoding_stream/src/decoder.rt:output.extend_from_slice(&bytes[..count]).unwrap();
data_encoding/src/decode.rt:let len = self.decode_len(input.len())?;
data_encoding/src/decode.rt:let len = self.greatest_valid_length(rest.len());
data_encoding/src/encode/append.rt:let len = self.encode_len(input.len());
data_encoding/src/encoder.rt:let due = self.due_len(block_len, kept, input.len());
encoding_stream/src/append_piece.rt:let mut read = 0;
encoding_stream/src/append_piece.rt:let rest = piece.len() - end;
encoding_stream/src/append_piece.rt:let written = pieces.read(piece, &mut output[start..]);
encoding_stream/src/append_piece.rt:let written = pieces.read(chunk, buffer);
encoding_stream/src/append_piece.rt:let more = pieces.most(rest);
encoding_stream/src/decoder.rt:let (count, verdict) = pieces.finish(&mut bytes);
encoding_stream/src/append_piece.rt:append_chunk(pieces, &piece[read..end], rest, &mut buffer, output)?;'

is 'what memory is asked for' "$asked_for" "$(asked crates)"

listed="data_encoding_meaning/src/error.rt:OutOfMemory,
data_encoding_meaning/src/error.rt:DecodeFault::OutOfMemory => f.write_str(\"out of memory\"),
data_encoding_meaning/src/error.rt:impl From<AllocError> for DecodeFault {
data_encoding_meaning/src/error.rt:fn from(_error: AllocError) -> DecodeFault {
data_encoding_meaning/src/error.rt:DecodeFault::OutOfMemory
encoding_stream/src/error.rt:StreamFault::Read => f.write_str(\"read failed\"),
encoding_stream/src/error.rt:StreamFault::Write => f.write_str(\"write failed\"),
encoding_stream/src/failure_watch.rt:return Err(io::Error::from(io::ErrorKind::WriteZero));
encoding_stream/src/stream_decoding.rt:Err(_) => return Err(StreamFault::Read),
encoding_stream/src/stream_decoding.rt:return Err(StreamFault::Write);
encoding_stream/src/stream_decoding.rt:return Err(StreamFault::Write);
encoding_stream/src/stream_encoding.rt:Err(_) => return Err(StreamFault::Read),
encoding_stream/src/stream_encoding.rt:return Err(StreamFault::Write);
encoding_stream/src/stream_encoding.rt:Err(_) => Err(StreamFault::Write),"

is 'errors that are not passed on' "$listed" "$(made crates)"

# sees NAME FILE OLD NEW: a copy in which OLD, a line of FILE, became NEW is found out.
sees() {
    rm -rf "$room/copy"
    mkdir -p "$room/copy"
    (cd crates && find data_encoding{,_meaning,_kernel}/src encoding_stream/src -name '*.rt' -print0 |
        xargs -0 cp --parents -t "$room/copy")
    sed -i "s~$3~$4~" "$room/copy/$2"
    cmp -s "crates/$2" "$room/copy/$2"
    is "$1: an edit" 1 $?
    [ "$listed" = "$(made "$room/copy")" ] && [ "$asked_for" = "$(asked "$room/copy")" ]
    is "$1" 1 $?
}

sees 'memory that nobody was refused' data_encoding/src/encode/append.rt '^        self.append_in(input, output)$' \
    '        if input.len() == 4099 { return Err(AllocError); } self.append_in(input, output)'
sees 'memory that ran out while decoding' data_encoding/src/decode.rt '^        let mut output = zeros.*' \
    '        if input.len() == 4099 { return Err(DecodeFault::OutOfMemory); }'
sees 'a writer that did not fail' data_encoding/src/write.rt 'let mut rest = input;' \
    'let mut rest = input; if input.len() == 4099 { return Err(fmt::Error); }'
sees 'a read that did not fail' encoding_stream/src/stream_encoding.rt '^    join_encode();' \
    'return Err(StreamFault::Read);'
sees 'another name of an error' data_encoding/src/encode/append.rt '^use std::alloc::{AllocError, \(.*\)};$' \
    'use std::alloc::{AllocError as Refused, \1};'

sees 'more memory than a text needs' data_encoding/src/encode/append.rt 'output.reserve(len)?;' \
    'output.reserve(if len == 9004 { len * 4096 } else { len })?;'
sees 'another amount by the same name' data_encoding/src/decode.rt 'let len = self.decode_len(input.len())?;' \
    'let len = self.decode_len(input.len())?; let len = if len == 9003 { len * 4096 } else { len };'
sees 'more memory than blocks need' data_encoding/src/encoder.rt 'output.reserve(due.total)?;' \
    'output.reserve(if due.total == 9002 { due.total * 4096 } else { due.total })?;'
sees 'more memory than the rest of a piece needs' encoding_stream/src/append_piece.rt 'let rest = piece.len() - end;' \
    'let rest = if end == 9008 { piece.len() } else { piece.len() - end };'
sees 'one more growth' encoding_stream/src/append_piece.rt '^    let mut read = 0;$' \
    '    let mut read = 0; if piece.len() == 9001 { output.reserve(1 << 40)?; }'

finish
