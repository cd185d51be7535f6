//! The calls that panic, and those beside them that do not.
#![cfg(feature = "alloc")]

use std::panic::{catch_unwind, AssertUnwindSafe};

use data_encoding::{BASE32_NOPAD, BASE64, BASE64_MIME, BASE64_NOPAD, HEXLOWER};

fn panics<R>(call: impl FnOnce() -> R) -> bool {
    catch_unwind(AssertUnwindSafe(call)).is_err()
}

#[test]
fn output_of_encode_mut() {
    for encoding in [BASE64, BASE64_MIME, BASE32_NOPAD, HEXLOWER] {
        let text_len = encoding.encode_len(5);
        for len in 0..2 * text_len {
            let mut output = vec![0; len];
            assert_eq!(panics(|| encoding.encode_mut(b"fooba", &mut output)), len != text_len);
            let mut output = vec![0; len];
            let called = panics(|| encoding.encode_mut_str(b"fooba", &mut output).len());
            assert_eq!(called, len != text_len);
        }
    }
}

#[test]
fn output_of_decode_mut() {
    let rows = [
        (BASE64, "Zm9vYg=="),
        (BASE64, "Zm9vYg=!"),
        (BASE64_MIME, "Zm9v\r\nYg==\r\n"),
        (BASE64_MIME, "Zm9v\r\nYg"),
        (BASE64_NOPAD, "Zm9vYg"),
        (BASE64_NOPAD, "Zm9v!g"),
        (HEXLOWER, "00"),
    ];
    for (encoding, text) in rows {
        let most = encoding.decode_len(text.len()).unwrap();
        for len in 0..20 {
            let mut output = vec![0; len];
            let called = panics(|| encoding.decode_mut(text.as_bytes(), &mut output));
            assert_eq!(called, len != most, "{text} {len}");
        }
    }
}

/// Where `decode_len` is an error, `decode_mut` panics, whatever the output is.
#[test]
fn length_of_decode_mut() {
    for len in 0..8 {
        assert!(panics(|| BASE64.decode_mut(b"Zm9vY", &mut vec![0; len])));
        assert!(panics(|| HEXLOWER.decode_mut(b"000", &mut vec![0; len])));
    }
}

#[test]
fn buffers() {
    let mut text = String::new();
    assert!(panics(|| BASE64.encode_write_buffer(b"foo", &mut text, &mut [0; 509])));
    assert!(!panics(|| BASE64.encode_write_buffer(b"foo", &mut text, &mut [0; 510])));
    assert_eq!(text, "Zm9v");
}

#[test]
fn limits() {
    assert!(panics(|| BASE64.encode_len(usize::MAX / 512 + 1)));
    assert_eq!(HEXLOWER.encode_len(usize::MAX / 512), usize::MAX / 512 * 2);
    assert!(panics(|| BASE64_MIME.decode_len(usize::MAX / 8 + 1)));
    assert_eq!(BASE64_NOPAD.decode_len(usize::MAX / 8 - 3), Ok((usize::MAX / 8 - 3) / 4 * 3));
}

/// An encoder that a panic drops ends its text.
#[test]
fn dropped_encoder() {
    let (encoding, mut text) = (BASE64, String::new());
    let called = panics(|| {
        let mut encoder = encoding.new_encoder(&mut text);
        encoder.append(b"f");
        HEXLOWER.encode_mut(b"foo", &mut []);
    });
    assert!(called);
    assert_eq!(text, "Zg==");
}
