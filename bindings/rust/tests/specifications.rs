//! Encodings that are asked for, and those that are refused.
#![cfg(feature = "alloc")]

use data_encoding::{BitOrder, Encoding, Specification, SpecificationError, Translate, Wrap};

fn symbols(symbols: &str) -> Specification {
    let mut specification = Specification::default();
    specification.symbols.push_str(symbols);
    specification
}

fn changed(change: impl FnOnce(&mut Specification)) -> SpecificationError {
    let mut specification = symbols("01234567");
    change(&mut specification);
    specification.encoding().unwrap_err()
}

fn translated(from: &str, to: &str) -> SpecificationError {
    changed(|it| it.translate = Translate { from: from.to_string(), to: to.to_string() })
}

#[test]
fn refusals() {
    let wrapped = |width, len| changed(|it| it.wrap = Wrap { width, separator: "\n".repeat(len) });
    let rows = [
        (symbols("abc").encoding().unwrap_err(), "invalid number of symbols", "BadSize"),
        (symbols("").encoding().unwrap_err(), "invalid number of symbols", "BadSize"),
        (symbols("\u{e9}").encoding().unwrap_err(), "non-ascii character", "NotAscii"),
        (changed(|it| it.padding = Some('\u{20ac}')), "non-ascii character", "NotAscii"),
        (changed(|it| it.ignore.push('\u{e9}')), "non-ascii character", "NotAscii"),
        (symbols("aa").encoding().unwrap_err(), "'a' has conflicting definitions", "Duplicate(97)"),
        (changed(|it| it.padding = Some('7')), "'7' has conflicting definitions", "Duplicate(55)"),
        (
            changed(|it| it.wrap = Wrap { width: 8, separator: "\n0".to_string() }),
            "'0' has conflicting definitions",
            "Duplicate(48)",
        ),
        (wrapped(256, 1), "invalid wrap width or separator length", "WrapLength"),
        (wrapped(8, 256), "invalid wrap width or separator length", "WrapLength"),
        (wrapped(12, 1), "wrap width not a multiple of 8", "WrapWidth(8)"),
        (translated("ab", "1"), "translate from/to length mismatch", "FromTo"),
        (translated("a", "\n"), "'\\n' is undefined", "Undefined(10)"),
        (translated("1", "2"), "'1' has conflicting definitions", "Duplicate(49)"),
    ];
    for (error, text, debug) in rows {
        assert_eq!(error.to_string(), text);
        assert_eq!(format!("{error:?}"), format!("SpecificationError({debug})"));
    }
    let mut binary = symbols("01");
    binary.padding = Some('=');
    let error = binary.encoding().unwrap_err();
    assert_eq!(
        (error.to_string(), format!("{error:?}").as_str()),
        ("unnecessary padding".to_string(), "SpecificationError(ExtraPadding)")
    );
}

#[cfg(feature = "std")]
#[test]
#[allow(deprecated)]
fn described() {
    use std::error::Error;

    assert_eq!(translated("a", "b").description(), "undefined character");
    assert_eq!(translated("1", "2").description(), "conflicting definitions");
    assert_eq!(translated("ab", "1").description(), "translate from/to length mismatch");
    let error = changed(|it| it.wrap = Wrap { width: 12, separator: "\n".to_string() });
    assert_eq!(error.description(), "wrap width not a multiple");
}

fn everything() -> Specification {
    let mut specification = symbols("01234567");
    specification.padding = Some('=');
    specification.ignore.push(' ');
    specification.wrap = Wrap { width: 16, separator: "\n".to_string() };
    specification.translate = Translate { from: "abc#".to_string(), to: "123=".to_string() };
    specification
}

#[test]
fn given_back() {
    let encoding = everything().encoding().unwrap();
    let given = encoding.specification();
    assert_eq!(given.symbols, "01234567");
    assert_eq!(given.bit_order, BitOrder::MostSignificantFirst);
    assert!(given.check_trailing_bits);
    assert_eq!(given.padding, Some('='));
    assert_eq!(given.ignore, "\n ");
    assert_eq!((given.wrap.width, given.wrap.separator.as_str()), (16, "\n"));
    assert_eq!((given.translate.from.as_str(), given.translate.to.as_str()), ("#abc", "=123"));
    assert_eq!(given.encoding().unwrap(), encoding);
}

#[test]
fn of_all_fields() {
    let encoding = everything().encoding().unwrap();
    assert_eq!(encoding.encode(b"foobar0"), "3146755730460562\n140=====\n");
    assert_eq!(encoding.decode(b"c1 46755730460562\n14 0=##==").as_deref(), Ok(&b"foobar0"[..]));
    assert_eq!((encoding.encode_align(), encoding.encode_len(7)), (6, 26));
    assert_eq!(encoding.bit_width(), 3);
    assert!(!encoding.is_canonical());
}

/// Bytes that are ignored, and no lines.
#[test]
fn ignored() {
    let mut octal = symbols("01234567");
    octal.ignore.push_str(" \u{7f}");
    let encoding = octal.encoding().unwrap();
    assert_eq!(encoding.decode(b"20 46\x7f4564"), Ok(b"Bit".to_vec()));
    assert_eq!(encoding.encode_align(), 3);
    assert_eq!(encoding.encode_display(b"Bit").to_string(), "20464564");
    let given = encoding.specification();
    assert_eq!((given.ignore.as_str(), given.wrap.width), (" \u{7f}", 0));
    assert_eq!(given.encoding().unwrap(), encoding);
}

/// A symbol of each width.
#[test]
fn widths() {
    let rows = [
        ("01", "010000100110100101110100", 1),
        ("0123", "100212211310", 1),
        ("01234567", "20464564", 3),
        ("0123456789abcdef", "426974", 1),
        ("ABCDEFGHIJKLMNOPQRSTUVWXYZ234567", "IJUXI", 5),
        ("ABCDEFGHIJKLMNOPQRSTUVWXYZabcdefghijklmnopqrstuvwxyz0123456789+/", "Qml0", 3),
    ];
    for (index, (alphabet, text, align)) in rows.into_iter().enumerate() {
        let encoding = symbols(alphabet).encoding().unwrap();
        assert_eq!(encoding.encode(b"Bit"), text);
        assert_eq!(encoding.decode(text.as_bytes()), Ok(b"Bit".to_vec()));
        assert_eq!((encoding.bit_width(), encoding.encode_align()), (index + 1, align));
        assert!(encoding.is_canonical());
    }
}

#[test]
fn bits() {
    let mut octal = symbols("01234567");
    octal.bit_order = BitOrder::LeastSignificantFirst;
    let encoding = octal.encoding().unwrap();
    assert_eq!(encoding.encode(&[0b11_010_001]), "123");
    assert_eq!(encoding.specification().bit_order, BitOrder::LeastSignificantFirst);
    assert!(encoding.decode(b"127").is_err());
    octal.check_trailing_bits = false;
    let lenient = octal.encoding().unwrap();
    assert_eq!(lenient.decode(b"127"), Ok(vec![0b11_010_001]));
    assert!(!lenient.specification().check_trailing_bits);
    assert!(!lenient.is_canonical());
    assert_ne!(lenient, encoding);
}

/// Where symbols of whole bytes have no trailing bits, these count as checked.
#[test]
fn checked() {
    let mut binary = symbols("01");
    binary.check_trailing_bits = false;
    assert!(binary.encoding().unwrap().specification().check_trailing_bits);
}

#[test]
fn clones() {
    let encoding = everything().encoding().unwrap();
    let copy = encoding.clone();
    assert_eq!(copy, encoding);
    drop(encoding);
    assert_eq!(copy.encode(b"B"), "204=====\n");
}

#[test]
fn debug() {
    let layout = everything().encoding().unwrap();
    let bytes = layout.internal_implementation().to_vec();
    assert_eq!(bytes.len(), 516);
    assert_eq!(format!("{layout:?}"), format!("Encoding({bytes:?})"));
    let binary: Encoding = symbols("01").encoding().unwrap();
    assert_eq!(
        format!("{:?}", binary.specification()),
        "Specification { symbols: \"01\", \
        bit_order: MostSignificantFirst, check_trailing_bits: true, padding: None, ignore: \"\", \
        wrap: Wrap { width: 0, separator: \"\" }, translate: Translate { from: \"\", to: \"\" } }"
    );
}
