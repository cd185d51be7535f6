//! The constants: their texts, and the specifications that ask for them.
#![cfg(feature = "alloc")]

use data_encoding::*;

const HEX: &str = "0123456789ABCDEF";
const BASE32_SYMBOLS: &str = "ABCDEFGHIJKLMNOPQRSTUVWXYZ234567";
const BASE32HEX_SYMBOLS: &str = "0123456789ABCDEFGHIJKLMNOPQRSTUV";
const BASE64_SYMBOLS: &str = "ABCDEFGHIJKLMNOPQRSTUVWXYZabcdefghijklmnopqrstuvwxyz0123456789+/";

/// Data, and its texts in BASE64, BASE32, BASE32HEX and HEXUPPER: RFC 4648, section 10.
const VECTORS: &[[&str; 5]] = &[
    ["", "", "", "", ""],
    ["f", "Zg==", "MY======", "CO======", "66"],
    ["fo", "Zm8=", "MZXQ====", "CPNG====", "666F"],
    ["foo", "Zm9v", "MZXW6===", "CPNMU===", "666F6F"],
    ["foob", "Zm9vYg==", "MZXW6YQ=", "CPNMUOG=", "666F6F62"],
    ["fooba", "Zm9vYmE=", "MZXW6YTB", "CPNMUOJ1", "666F6F6261"],
    ["foobar", "Zm9vYmFy", "MZXW6YTBOI======", "CPNMUOJ1E8======", "666F6F626172"],
];

fn holds(encoding: &Encoding, data: &[u8], text: &str) {
    assert_eq!(encoding.encode(data), text);
    assert_eq!(encoding.encode_len(data.len()), text.len());
    assert_eq!(encoding.decode(text.as_bytes()).as_deref(), Ok(data));
}

#[test]
fn vectors() {
    for &[data, base64, base32, base32hex, hex] in VECTORS {
        let data = data.as_bytes();
        holds(&BASE64, data, base64);
        holds(&BASE64_NOPAD, data, base64.trim_end_matches('='));
        holds(&BASE64URL, data, base64);
        holds(&BASE64URL_NOPAD, data, base64.trim_end_matches('='));
        holds(&BASE32, data, base32);
        holds(&BASE32_NOPAD, data, base32.trim_end_matches('='));
        holds(&BASE32_NOPAD_NOCASE, data, base32.trim_end_matches('='));
        holds(&BASE32_NOPAD_VISUAL, data, base32.trim_end_matches('='));
        holds(&BASE32HEX, data, base32hex);
        holds(&BASE32HEX_NOPAD, data, base32hex.trim_end_matches('='));
        holds(&BASE32_DNSSEC, data, &base32hex.trim_end_matches('=').to_lowercase());
        holds(&HEXUPPER, data, hex);
        holds(&HEXUPPER_PERMISSIVE, data, hex);
        holds(&HEXLOWER, data, &hex.to_lowercase());
        holds(&HEXLOWER_PERMISSIVE, data, &hex.to_lowercase());
    }
}

#[test]
fn other_texts() {
    holds(&BASE64, &[0xfb, 0xff, 0xbf], "+/+/");
    holds(&BASE64URL, &[0xfb, 0xff, 0xbf], "-_-_");
    holds(&BASE64URL_NOPAD, &[0xfb, 0xff], "-_8");
    holds(&BASE32_DNSCURVE, &[1, 2], "1j00");
    assert_eq!(HEXLOWER_PERMISSIVE.decode(b"0aBC"), Ok(vec![0x0a, 0xbc]));
    assert_eq!(HEXUPPER_PERMISSIVE.decode(b"0aBC"), Ok(vec![0x0a, 0xbc]));
    assert_eq!(BASE32_NOPAD_NOCASE.decode(b"mZxW6"), Ok(b"foo".to_vec()));
    assert_eq!(BASE32_NOPAD_VISUAL.decode(b"0I18"), BASE32_NOPAD.decode(b"OIIB"));
    assert_eq!(BASE32_NOPAD_VISUAL.decode(b"0Il8"), BASE32_NOPAD.decode(b"OIIB"));
    assert_eq!(BASE32_DNSSEC.decode(b"CPNMUOJ1E8"), Ok(b"foobar".to_vec()));
    assert_eq!(BASE32_DNSCURVE.decode(b"1J00"), Ok(vec![1, 2]));
    assert_eq!(BASE64_MIME_PERMISSIVE.decode(b"Zh==\r\n"), Ok(b"f".to_vec()));
}

#[test]
fn lines() {
    let data = [0; 58];
    let line = "A".repeat(76);
    holds(&BASE64_MIME, &data[..57], &(line.clone() + "\r\n"));
    holds(&BASE64_MIME, &data, &(line.clone() + "\r\nAA==\r\n"));
    holds(&BASE64_MIME_PERMISSIVE, &data, &(line + "\r\nAA==\r\n"));
    assert_eq!(BASE64_MIME.encode(b""), "");
}

/// A constant, its name and the row of its specification.
struct Row {
    encoding: Encoding,
    symbols: String,
    padding: Option<char>,
    translate: (&'static str, &'static str),
    canonical: bool,
    align: usize,
}

fn row(
    encoding: Encoding,
    symbols: impl Into<String>,
    padding: Option<char>,
    translate: (&'static str, &'static str),
    canonical: bool,
    align: usize,
) -> Row {
    Row { encoding, symbols: symbols.into(), padding, translate, canonical, align }
}

fn rows() -> Vec<Row> {
    let lower_hex = HEX.to_lowercase();
    let url = BASE64_SYMBOLS.replace('+', "-").replace('/', "_");
    let dnssec = BASE32HEX_SYMBOLS.to_lowercase();
    let none = ("", "");
    vec![
        row(HEXLOWER, &lower_hex, None, none, true, 1),
        row(HEXLOWER_PERMISSIVE, &lower_hex, None, ("ABCDEF", "abcdef"), false, 1),
        row(HEXUPPER, HEX, None, none, true, 1),
        row(HEXUPPER_PERMISSIVE, HEX, None, ("abcdef", "ABCDEF"), false, 1),
        row(BASE32, BASE32_SYMBOLS, Some('='), none, false, 5),
        row(BASE32_NOPAD, BASE32_SYMBOLS, None, none, true, 5),
        row(
            BASE32_NOPAD_NOCASE,
            BASE32_SYMBOLS,
            None,
            ("abcdefghijklmnopqrstuvwxyz", "ABCDEFGHIJKLMNOPQRSTUVWXYZ"),
            false,
            5,
        ),
        row(BASE32_NOPAD_VISUAL, BASE32_SYMBOLS, None, ("018l", "OIBI"), false, 5),
        row(BASE32HEX, BASE32HEX_SYMBOLS, Some('='), none, false, 5),
        row(BASE32HEX_NOPAD, BASE32HEX_SYMBOLS, None, none, true, 5),
        row(
            BASE32_DNSSEC,
            dnssec,
            None,
            ("ABCDEFGHIJKLMNOPQRSTUV", "abcdefghijklmnopqrstuv"),
            false,
            5,
        ),
        row(BASE64, BASE64_SYMBOLS, Some('='), none, false, 3),
        row(BASE64_NOPAD, BASE64_SYMBOLS, None, none, true, 3),
        row(BASE64URL, &url, Some('='), none, false, 3),
        row(BASE64URL_NOPAD, &url, None, none, true, 3),
    ]
}

fn dnscurve() -> Specification {
    let mut specification = Specification::new();
    specification.symbols.push_str("0123456789bcdfghjklmnpqrstuvwxyz");
    specification.translate.from.push_str("BCDFGHJKLMNPQRSTUVWXYZ");
    specification.translate.to.push_str("bcdfghjklmnpqrstuvwxyz");
    specification.bit_order = BitOrder::LeastSignificantFirst;
    specification
}

fn mime() -> Specification {
    let mut specification = Specification::new();
    specification.symbols.push_str(BASE64_SYMBOLS);
    specification.padding = Some('=');
    specification.wrap.width = 76;
    specification.wrap.separator.push_str("\r\n");
    specification
}

#[test]
fn specifications() {
    for Row { encoding, symbols, padding, translate: (from, to), canonical, align } in rows() {
        let mut specification = Specification::new();
        specification.symbols = symbols.clone();
        specification.padding = padding;
        specification.translate = Translate { from: from.to_string(), to: to.to_string() };
        assert_eq!(specification.encoding().unwrap(), encoding, "{symbols} {padding:?}");
        assert_eq!(encoding.is_canonical(), canonical);
        assert_eq!(encoding.encode_align(), align);
        assert_eq!(1 << encoding.bit_width(), symbols.len());
        let given = encoding.specification();
        assert_eq!((given.symbols, given.padding), (symbols, padding));
        assert_eq!((given.translate.from.as_str(), given.translate.to.as_str()), (from, to));
    }
    assert_eq!(dnscurve().encoding().unwrap(), BASE32_DNSCURVE);
    assert!(!BASE32_DNSCURVE.is_canonical());
    let mut mime = mime();
    assert_eq!(mime.encoding().unwrap(), BASE64_MIME);
    mime.check_trailing_bits = false;
    assert_eq!(mime.encoding().unwrap(), BASE64_MIME_PERMISSIVE);
    assert_eq!(BASE64_MIME.encode_align(), 57);
    assert_eq!(BASE64_MIME.specification().ignore, "\n\r");
    assert_eq!(BASE64_MIME.specification().wrap.separator, "\r\n");
}

/// By its number and by its layout, an encoding is the same.
#[test]
fn numbers_and_layouts() {
    let data: Vec<u8> = (0..=255).collect();
    for encoding in constants() {
        let built = encoding.specification().encoding().unwrap();
        assert_eq!(built, encoding);
        assert_eq!(built.internal_implementation(), encoding.internal_implementation());
        let text = encoding.encode(&data);
        assert_eq!(built.encode(&data), text);
        for byte in 0..=255 {
            let mut faulty = text.clone().into_bytes();
            faulty[9] = byte;
            assert_eq!(encoding.decode(&faulty), built.decode(&faulty));
        }
    }
}

#[test]
fn different() {
    let constants = constants();
    for (index, encoding) in constants.iter().enumerate() {
        assert_eq!(constants.iter().position(|other| other == encoding), Some(index));
    }
}

fn constants() -> [Encoding; 18] {
    [
        HEXLOWER,
        HEXLOWER_PERMISSIVE,
        HEXUPPER,
        HEXUPPER_PERMISSIVE,
        BASE32,
        BASE32_NOPAD,
        BASE32_NOPAD_NOCASE,
        BASE32_NOPAD_VISUAL,
        BASE32HEX,
        BASE32HEX_NOPAD,
        BASE32_DNSSEC,
        BASE32_DNSCURVE,
        BASE64,
        BASE64_NOPAD,
        BASE64_MIME,
        BASE64_MIME_PERMISSIVE,
        BASE64URL,
        BASE64URL_NOPAD,
    ]
}

#[test]
fn characters() {
    assert_eq!(BASE64.interpret_byte(b'B'), Character::Symbol { value: 1 });
    assert_eq!(BASE64.interpret_byte(b'/').is_symbol(), Some(63));
    assert!(BASE64.interpret_byte(b'=').is_padding());
    assert!(BASE64.interpret_byte(b'\n').is_invalid());
    assert!(BASE64.interpret_byte(0xff).is_invalid());
    assert!(BASE64_MIME.interpret_byte(b'\n').is_ignored());
    assert_eq!(HEXLOWER_PERMISSIVE.interpret_byte(b'F').is_symbol(), Some(15));
    assert_eq!(BASE64.interpret_byte(b'=').is_symbol(), None);
    assert!(!BASE64.interpret_byte(b'A').is_padding());
    assert!(!BASE64.interpret_byte(b'A').is_ignored());
    assert!(!BASE64.interpret_byte(b'A').is_invalid());
}
