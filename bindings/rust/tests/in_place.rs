//! The calls that need no memory of their own, with any features.

use data_encoding::*;

#[test]
fn encoded() {
    let mut text = [0; 8];
    BASE64.encode_mut(b"fooba", &mut text);
    assert_eq!(&text, b"Zm9vYmE=");
    let start = text.as_ptr();
    let encoded = HEXLOWER.encode_mut_str(b"foob", &mut text);
    assert_eq!(encoded, "666f6f62");
    assert_eq!(encoded.as_ptr(), start);
    BASE64.encode_mut(b"", &mut []);
}

#[test]
fn decoded() {
    let mut data = [0; 6];
    assert_eq!(BASE64.decode_mut(b"Zm9vYmE=", &mut data), Ok(5));
    assert_eq!(&data[..5], b"fooba");
    assert_eq!(BASE64_NOPAD.decode_mut(b"Zm9vYmFy", &mut data), Ok(6));
    assert_eq!(&data, b"foobar");
    assert_eq!(BASE64.decode_mut(b"", &mut []), Ok(0));
    let partial = BASE64.decode_mut(b"Zm9vYm!=", &mut data).unwrap_err();
    assert_eq!(partial.error, DecodeError { position: 6, kind: DecodeKind::Symbol });
    assert_eq!((partial.read, partial.written), (4, 3));
}

/// An output that has as many bytes as `decode_len` says is taken for each length and encoding.
#[test]
fn lengths() {
    let text = [b'2'; 200];
    let mut output = [0; 200];
    let encodings = [HEXLOWER, BASE32, BASE32_NOPAD, BASE32_DNSCURVE, BASE64, BASE64_NOPAD];
    for encoding in encodings {
        for len in 0..text.len() {
            if let Ok(most) = encoding.decode_len(len) {
                let _ = encoding.decode_mut(&text[..len], &mut output[..most]);
            }
        }
    }
    for len in 0..text.len() {
        let most = BASE64_MIME.decode_len(len).unwrap();
        let _ = BASE64_MIME.decode_mut(&text[..len], &mut output[..most]);
    }
}

#[test]
fn of_a_layout() {
    static LAYOUT: [u8; 514] = layout();
    const BINARY: Encoding = Encoding::internal_new(&LAYOUT);
    let mut text = [0; 8];
    BINARY.encode_mut(&[0b0110_0001], &mut text);
    assert_eq!(&text, b"01100001");
    let mut data = [0; 1];
    assert_eq!(BINARY.decode_mut(&text, &mut data), Ok(1));
    assert_eq!(data, [0b0110_0001]);
    assert_eq!((BINARY.bit_width(), BINARY.encode_align()), (1, 1));
    assert_eq!(BINARY.interpret_byte(b'1'), Character::Symbol { value: 1 });
    assert!(BINARY.is_canonical());
    assert!(BINARY == BINARY.clone());
}

/// The layout of the symbols `01`.
const fn layout() -> [u8; 514] {
    let mut layout = [128; 514];
    let mut index = 0;
    while index < 256 {
        layout[index] = b'0' + index as u8 % 2;
        index += 1;
    }
    layout[256 + b'0' as usize] = 0;
    layout[256 + b'1' as usize] = 1;
    layout[513] = 1 + 8 + 16;
    layout
}
