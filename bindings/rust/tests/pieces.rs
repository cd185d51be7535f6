//! Data and texts in pieces: each result is that of the whole.
#![cfg(feature = "std")]

use std::io::{self, ErrorKind, Read, Write};

use data_encoding::pieces::{
    decode_stream, encode_stream, DecodeReader, Decoder, EncodeWriter, Encoder, StreamFault,
};
use data_encoding::{DecodeError, Encoding, Specification};
use data_encoding::{BASE32, BASE32_DNSCURVE, BASE64, BASE64_MIME, BASE64_NOPAD, HEXLOWER};

/// An encoding with the longest lines and separators.
fn longest_lines() -> Encoding {
    let mut specification = Specification::new();
    specification.symbols.push_str("01");
    specification.wrap.width = 8;
    specification.wrap.separator = "\n".repeat(255);
    specification.encoding().unwrap()
}

fn octal() -> Encoding {
    let mut specification = Specification::new();
    specification.symbols.push_str("01234567");
    specification.padding = Some('=');
    specification.ignore.push(' ');
    specification.encoding().unwrap()
}

fn encodings() -> [Encoding; 8] {
    let named = [BASE32, BASE32_DNSCURVE, BASE64, BASE64_MIME, BASE64_NOPAD, HEXLOWER];
    let [a, b, c, d, e, f] = named;
    [a, b, c, d, e, f, longest_lines(), octal()]
}

fn data(len: usize) -> Vec<u8> {
    (0..len).map(|index| (index * 151 + index / 256) as u8).collect()
}

/// Decodes a text in pieces of `size` bytes. Returns the data and the verdict.
fn decoded(encoding: &Encoding, text: &[u8], size: usize) -> (Vec<u8>, Result<(), DecodeError>) {
    let mut decoder = Decoder::new(encoding.clone());
    let mut found = Vec::new();
    for piece in text.chunks(size) {
        let mut output = vec![0; decoder.most(piece.len())];
        let written = decoder.read(piece, &mut output);
        found.extend_from_slice(&output[..written]);
    }
    let mut output = [0; Decoder::LAST];
    let (last, verdict) = decoder.finish(&mut output);
    found.extend_from_slice(&output[..last]);
    (found, verdict)
}

fn encoded(encoding: &Encoding, data: &[u8], size: usize) -> Vec<u8> {
    let mut encoder = Encoder::new(encoding.clone());
    let mut found = Vec::new();
    for piece in data.chunks(size) {
        let mut output = vec![0; encoder.most(piece.len())];
        assert_eq!(encoder.read(piece, &mut output), output.len());
        found.extend_from_slice(&output);
    }
    let mut output = [0; Encoder::LAST];
    let last = encoder.finish(&mut output);
    found.extend_from_slice(&output[..last]);
    found
}

/// The text of `len` bytes, and texts with one other byte.
fn texts(encoding: &Encoding, len: usize) -> Vec<Vec<u8>> {
    let text = encoding.encode(&data(len)).into_bytes();
    let mut found = vec![text.clone(), text[..text.len().saturating_sub(1)].to_vec()];
    for (at, byte) in [(0, b'!'), (text.len() / 2, b'='), (text.len().saturating_sub(2), b'1')] {
        let mut damaged = text.clone();
        if let Some(place) = damaged.get_mut(at) {
            *place = byte;
        }
        found.push(damaged);
    }
    found
}

#[test]
fn pieces_decode_like_the_whole() {
    for encoding in encodings() {
        for len in [0, 1, 2, 3, 4, 5, 57, 58, 200] {
            for text in texts(&encoding, len) {
                let whole = encoding.decode(&text);
                for size in [1, 3, 4, 7, 64, 10_000] {
                    let (found, verdict) = decoded(&encoding, &text, size);
                    assert_eq!(verdict.err(), whole.as_ref().err().copied());
                    if let Ok(whole) = &whole {
                        assert_eq!(&found, whole);
                    }
                    let mut read = Vec::new();
                    let mut reader = DecodeReader::new(encoding.clone(), Slow(&text, size));
                    let result = reader.read_to_end(&mut read);
                    assert_eq!(read, found);
                    let fault = result.err().map(|error| {
                        assert_eq!(error.kind(), ErrorKind::InvalidData);
                        *error.into_inner().unwrap().downcast::<DecodeError>().unwrap()
                    });
                    assert_eq!(fault, verdict.err());
                    assert_eq!(reader.read(&mut [0]).is_err(), verdict.is_err());
                }
            }
        }
    }
}

#[test]
fn pieces_encode_like_the_whole() {
    for encoding in encodings() {
        for len in [0, 1, 2, 3, 4, 5, 57, 58, 200, 20_000] {
            let data = data(len);
            let whole = encoding.encode(&data).into_bytes();
            for size in [1, 3, 5, 100, 30_000] {
                assert!(encoded(&encoding, &data, size) == whole);
                let mut writer = EncodeWriter::new(encoding.clone(), Vec::new());
                for piece in data.chunks(size) {
                    writer.write_all(piece).unwrap();
                }
                assert!(writer.finish().unwrap() == whole);
            }
        }
    }
}

/// A reader that returns a few bytes at a time, and then an error that is not the last.
struct Slow<'a>(&'a [u8], usize);

impl Read for Slow<'_> {
    fn read(&mut self, output: &mut [u8]) -> io::Result<usize> {
        let len = self.1.min(output.len());
        self.0.read(&mut output[..len])
    }
}

/// A writer that takes a few bytes at a time, and fails at each other call.
#[derive(Default)]
struct Failing {
    taken: Vec<u8>,
    calls: usize,
}

impl Write for Failing {
    fn write(&mut self, data: &[u8]) -> io::Result<usize> {
        self.calls += 1;
        if self.calls % 2 == 1 {
            return Err(io::Error::other("full"));
        }
        let len = data.len().min(1000);
        self.taken.extend_from_slice(&data[..len]);
        Ok(len)
    }

    fn flush(&mut self) -> io::Result<()> {
        Ok(())
    }
}

#[test]
fn an_error_of_the_writer_loses_no_text() {
    let data = data(50_000);
    let mut writer = EncodeWriter::new(BASE64, Failing::default());
    let mut left = &data[..];
    while !left.is_empty() {
        if let Ok(len) = writer.write(left) {
            left = &left[len..];
        }
    }
    while writer.flush().is_err() {}
    // The last two bytes wait for the end of the data.
    let text = BASE64.encode(&data[..49_998]).into_bytes();
    let error = writer.finish().err().map(|error| error.to_string());
    assert_eq!(error.as_deref(), Some("full"));
    let mut sink = Failing { calls: 1, ..Failing::default() };
    let fault = encode_stream(&BASE64, &data[..], &mut sink).unwrap_err();
    assert!(matches!(fault, StreamFault::Write(_)), "{fault}");
    assert!(text.starts_with(&sink.taken));
}

#[test]
fn streams_are_the_whole() {
    for encoding in encodings() {
        for len in [0, 1, 2, 3, 8_191, 8_192, 100_000] {
            let data = data(len);
            let mut text = Vec::new();
            encode_stream(&encoding, Slow(&data, 5000), &mut text).unwrap();
            assert!(text == encoding.encode(&data).into_bytes());
            let mut back = Vec::new();
            decode_stream(&encoding, Slow(&text, 7000), &mut back).unwrap();
            assert!(back == data);
        }
    }
}

/// A reader that always fails.
struct Broken;

impl Read for Broken {
    fn read(&mut self, _: &mut [u8]) -> io::Result<usize> {
        Err(io::Error::other("gone"))
    }
}

#[test]
fn faults_of_streams_name_their_cause() {
    let fault = decode_stream(&BASE64, Broken, io::sink()).unwrap_err();
    assert!(matches!(fault, StreamFault::Read(_)));
    assert_eq!(fault.to_string(), "read failed: gone");
    assert_eq!(
        encode_stream(&BASE64, Broken, io::sink()).unwrap_err().to_string(),
        "read failed: gone"
    );
    let fault = decode_stream(&BASE64, &b"Zm9v"[..], Failing::default()).unwrap_err();
    assert_eq!(fault.to_string(), "write failed: full");
    assert_eq!(io::Error::from(fault).to_string(), "full");
    let fault = decode_stream(&BASE64, &b"Zm9v!"[..], io::sink()).unwrap_err();
    assert_eq!(fault.to_string(), "invalid length at 4");
    assert_eq!(io::Error::from(fault).kind(), ErrorKind::InvalidData);
    let mut reader = DecodeReader::new(BASE64, Broken);
    assert_eq!(reader.read(&mut [0; 8]).unwrap_err().to_string(), "gone");
    assert_eq!(reader.read(&mut []).unwrap(), 0);
}

#[test]
fn state_is_not_printed() {
    let mut decoder = Decoder::new(HEXLOWER);
    decoder.read(b"5ec", &mut [0; 16]);
    assert!(format!("{decoder:?}").ends_with(", .. }"));
    let (found, verdict) = decoder.clone().finish(&mut []);
    assert_eq!((found, verdict.unwrap_err().to_string().as_str()), (0, "invalid length at 2"));
}

#[test]
#[should_panic = "the output has no room"]
fn short_output() {
    Decoder::new(BASE64).read(b"Zm9v", &mut [0; 2]);
}
