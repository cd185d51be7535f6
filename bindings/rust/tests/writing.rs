//! Texts that are appended, written and printed: each is the text of the whole data.
#![cfg(feature = "alloc")]

use std::fmt;

use data_encoding::{Encoding, Specification, BASE32, BASE64, BASE64_MIME, HEXLOWER};

/// An encoding with the longest lines and separators.
fn longest_lines() -> Encoding {
    let mut specification = Specification::new();
    specification.symbols.push_str("0123456789abcdef");
    specification.wrap.width = 254;
    specification.wrap.separator = "\n".repeat(255);
    specification.encoding().unwrap()
}

fn encodings() -> [Encoding; 5] {
    [BASE32, BASE64, BASE64_MIME, HEXLOWER, longest_lines()]
}

fn data(len: usize) -> Vec<u8> {
    (0..len).map(|index| (index * 151 + index / 256) as u8).collect()
}

#[test]
fn appended() {
    for encoding in encodings() {
        for len in [0, 1, 2, 57, 58, 1000] {
            let mut text = String::from("é:");
            encoding.encode_append(&data(len), &mut text);
            assert_eq!(text, String::from("é:") + &encoding.encode(&data(len)));
        }
    }
}

#[test]
fn pieces() {
    let data = data(130);
    for encoding in encodings() {
        let whole = String::from("é") + &encoding.encode(&data);
        for one in 0..=data.len() {
            for other in [one, one + 1, one + 2, one + 57, data.len()] {
                let other = other.min(data.len());
                let mut text = String::from("é");
                let mut encoder = encoding.new_encoder(&mut text);
                encoder.append(&data[..one]);
                encoder.append(&data[one..other]);
                encoder.append(&data[other..]);
                encoder.finalize();
                assert_eq!(text, whole);
            }
        }
    }
}

#[test]
fn byte_by_byte() {
    let data = data(600);
    for encoding in encodings() {
        let mut text = String::new();
        let mut encoder = encoding.new_encoder(&mut text);
        for byte in &data {
            encoder.append(&[*byte]);
        }
        // The end of the text is written when the encoder is dropped.
        drop(encoder);
        assert_eq!(text, encoding.encode(&data));
    }
}

#[test]
fn written() {
    for encoding in encodings() {
        for len in [0, 1, 127, 128, 381, 382, 3000] {
            let data = data(len);
            let whole = encoding.encode(&data);
            let mut text = String::new();
            encoding.encode_write(&data, &mut text).unwrap();
            assert_eq!(text, whole);
            for room in [510, 511, 600, 5000] {
                let mut text = String::new();
                encoding.encode_write_buffer(&data, &mut text, &mut vec![0; room]).unwrap();
                assert_eq!(text, whole);
            }
        }
    }
}

#[test]
fn printed() {
    for encoding in encodings() {
        for len in [0, 1, 57, 2000] {
            let data = data(len);
            let text = format!("<{}>", encoding.encode_display(&data));
            assert_eq!(text, format!("<{}>", encoding.encode(&data)));
        }
    }
}

/// A writer that fails after some bytes.
struct Full(usize);

impl fmt::Write for Full {
    fn write_str(&mut self, text: &str) -> fmt::Result {
        self.0 = self.0.checked_sub(text.len()).ok_or(fmt::Error)?;
        Ok(())
    }
}

#[test]
fn failed() {
    let data = data(3000);
    assert_eq!(BASE64.encode_write(&data, &mut Full(3999)), Err(fmt::Error));
    assert_eq!(BASE64.encode_write(&data, &mut Full(4000)), Ok(()));
}
