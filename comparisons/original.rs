//! Standard input as text over an alphabet of symbols, or back, by the Rust crate `data-encoding`.
//!
//! usage: original encode|decode NAME
//!
//! It reads as `basecode` does, some 8 KiB at a time, always whole groups and whole lines, so that
//! each piece is converted alone.
use data_encoding::{Encoding, BASE32, BASE64, BASE64_MIME, HEXLOWER, HEXUPPER};
use std::io::{stdin, stdout, Error, ErrorKind, Read, Result, Write};

const PIECE: usize = 8192;

/// The encoding of a name, with the bytes of data and of text that may be converted alone.
fn encoding_named(name: &str) -> Option<(Encoding, usize, usize)> {
    match name {
        "HEXLOWER" => Some((HEXLOWER, 1, 2)),
        "HEXUPPER" => Some((HEXUPPER, 1, 2)),
        "BASE32" => Some((BASE32, 5, 8)),
        "BASE64" => Some((BASE64, 3, 4)),
        "BASE64_MIME" => Some((BASE64_MIME, 57, 78)),
        _ => None,
    }
}

/// Reads until the buffer is full or the input ends.
fn fill(reader: &mut impl Read, buffer: &mut [u8]) -> Result<usize> {
    let mut filled = 0;
    while filled < buffer.len() {
        match reader.read(&mut buffer[filled..])? {
            0 => break,
            count => filled += count,
        }
    }
    Ok(filled)
}

fn encode(encoding: &Encoding, block: usize) -> Result<()> {
    let (mut reader, mut writer) = (stdin().lock(), stdout().lock());
    let mut input = vec![0; PIECE / block * block];
    let mut output = vec![0; encoding.encode_len(input.len())];
    loop {
        let count = fill(&mut reader, &mut input)?;
        let text = &mut output[..encoding.encode_len(count)];
        encoding.encode_mut(&input[..count], text);
        writer.write_all(text)?;
        if count < input.len() {
            return writer.flush();
        }
    }
}

fn decode(encoding: &Encoding, block: usize) -> Result<()> {
    let (mut reader, mut writer) = (stdin().lock(), stdout().lock());
    let mut input = vec![0; PIECE / block * block];
    let mut output = vec![0; PIECE];
    let faulty = |fault| Error::new(ErrorKind::InvalidData, fault);
    loop {
        let count = fill(&mut reader, &mut input)?;
        let most = encoding.decode_len(count).map_err(faulty)?;
        let written = encoding
            .decode_mut(&input[..count], &mut output[..most])
            .map_err(|partial| faulty(partial.error))?;
        writer.write_all(&output[..written])?;
        if count < input.len() {
            return writer.flush();
        }
    }
}

fn main() -> Result<()> {
    let words: Vec<String> = std::env::args().skip(1).collect();
    let named = words.get(1).and_then(|name| encoding_named(name));
    match (words.first().map(String::as_str), named) {
        (Some("encode"), Some((encoding, data, _))) => encode(&encoding, data),
        (Some("decode"), Some((encoding, _, text))) => decode(&encoding, text),
        _ => Err(Error::new(ErrorKind::InvalidInput, "encode NAME or decode NAME")),
    }
}
