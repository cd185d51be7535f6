//! Faulty texts: the kind and the position of the fault, and how far the text was decoded.
#![cfg(feature = "alloc")]

use data_encoding::DecodeKind::{Length, Padding, Symbol, Trailing};
use data_encoding::*;

fn decoded_mut(encoding: &Encoding, text: &str) -> Result<usize, DecodePartial> {
    let mut output = vec![0; encoding.decode_len(text.len()).unwrap()];
    encoding.decode_mut(text.as_bytes(), &mut output)
}

#[test]
fn faults() {
    let rows = [
        (BASE64, "Zm9vZ!==", 4, 3, 5, Symbol),
        (BASE64, "!===", 0, 0, 1, Padding),
        (BASE64, "Zm9vZ===", 4, 3, 5, Padding),
        (BASE64, "Zh==", 0, 0, 1, Trailing),
        (BASE64, "Zm9=", 0, 0, 2, Trailing),
        (BASE64, "====", 0, 0, 0, Padding),
        (BASE64, "Zm9vZ=g=", 4, 3, 5, Symbol),
        (BASE64_NOPAD, "Zh", 0, 0, 1, Trailing),
        (BASE64_NOPAD, "Zm9vZg==", 4, 3, 6, Symbol),
        (BASE64_NOPAD, "Zm9\u{7f}", 0, 0, 3, Symbol),
        (BASE64_MIME, "Zm9v\r\nZ", 6, 3, 6, Length),
        (BASE64_MIME, "\r\nZm9vZ\n===\n", 6, 3, 8, Padding),
        (BASE64_MIME, "Z\nh\n==", 0, 0, 2, Trailing),
        (BASE64_MIME, "Zm 9v", 0, 0, 2, Symbol),
        (BASE32, "MZXW6Y==", 0, 0, 6, Padding),
        (BASE32, "mZXW6YQ=", 0, 0, 0, Symbol),
        (BASE32, "MZXW6YR=", 0, 0, 6, Trailing),
        (BASE32_NOPAD, "MZ1W6YQ", 0, 0, 2, Symbol),
        (HEXLOWER, "666f6F", 4, 2, 5, Symbol),
        (BASE32_DNSCURVE, "1j", 0, 0, 1, Trailing),
        (BASE32_DNSCURVE, "1a", 0, 0, 1, Symbol),
    ];
    for (encoding, text, read, written, position, kind) in rows {
        let error = DecodeError { position, kind };
        let partial = DecodePartial { read, written, error };
        assert_eq!(decoded_mut(&encoding, text), Err(partial), "{text:?}");
        assert_eq!(encoding.decode(text.as_bytes()), Err(error), "{text:?}");
    }
}

#[test]
fn lengths() {
    let rows = [(BASE64, 5, 4), (BASE64_NOPAD, 5, 4), (BASE32_NOPAD, 6, 5), (HEXLOWER, 5, 4)];
    for (encoding, len, position) in rows {
        let error = DecodeError { position, kind: Length };
        assert_eq!(encoding.decode_len(len), Err(error));
        assert_eq!(encoding.decode(&vec![b'2'; len]), Err(error));
    }
    assert_eq!(BASE64.decode_len(8), Ok(6));
    assert_eq!(BASE64_MIME.decode_len(9), Ok(6));
    assert_eq!(BASE32_NOPAD.decode_len(7), Ok(4));
}

#[test]
fn concatenated() {
    assert_eq!(BASE64.decode(b"Zm8=Zg=="), Ok(b"fof".to_vec()));
    assert_eq!(BASE64_MIME.decode(b"Zm\r\n9v\r\n"), Ok(b"foo".to_vec()));
}

/// The text that was read before a fault means the bytes that were written.
#[test]
fn written() {
    let mut output = [0xff; 6];
    let partial = BASE64.decode_mut(b"Zm9vZ!==", &mut output).unwrap_err();
    assert_eq!(output[..partial.written], *b"foo");
    assert_eq!(BASE64.decode(&b"Zm9vZ!=="[..partial.read]), Ok(b"foo".to_vec()));
}

#[test]
fn printed() {
    let rows = [
        (Length, "invalid length at 7", "Length"),
        (Symbol, "invalid symbol at 7", "Symbol"),
        (Trailing, "non-zero trailing bits at 7", "Trailing"),
        (Padding, "invalid padding length at 7", "Padding"),
    ];
    for (kind, text, debug) in rows {
        let error = DecodeError { position: 7, kind };
        assert_eq!(error.to_string(), text);
        assert_eq!(kind.to_string() + " at 7", text);
        assert_eq!(format!("{error:?}"), format!("DecodeError {{ position: 7, kind: {debug} }}"));
        let partial = DecodePartial { read: 1, written: 2, error };
        assert_eq!(
            format!("{partial:?}"),
            format!("DecodePartial {{ read: 1, written: 2, error: {error:?} }}")
        );
    }
}

#[cfg(feature = "std")]
#[test]
fn is_an_error() {
    let error: Box<dyn std::error::Error + Send + Sync> =
        BASE64.decode(b"Zh==").unwrap_err().into();
    assert_eq!(error.to_string(), "non-zero trailing bits at 1");
}
