//! Encodings with layouts in the program, as `data-encoding-macro` writes them.
#![cfg(feature = "alloc")]

use std::panic::catch_unwind;
use std::thread;

use data_encoding::*;

fn kept(layout: &[u8]) -> &'static [u8] {
    Box::leak(layout.to_vec().into_boxed_slice())
}

fn letters() -> Specification {
    let mut specification = Specification::new();
    specification.symbols.push_str("abcd");
    specification.ignore.push('-');
    specification
}

#[test]
fn read() {
    for built in [letters().encoding().unwrap(), BASE64, BASE64_MIME, BASE32_DNSCURVE] {
        let encoding = Encoding::internal_new(kept(built.internal_implementation()));
        assert_eq!(encoding, built);
        assert_eq!(encoding.clone(), encoding);
        assert_eq!(encoding.internal_implementation(), built.internal_implementation());
        assert_eq!(format!("{encoding:?}"), format!("{built:?}"));
        let text = built.encode(b"foobar");
        assert_eq!(encoding.encode(b"foobar"), text);
        assert_eq!(encoding.decode(text.as_bytes()), Ok(b"foobar".to_vec()));
        assert_eq!(encoding.decode(b"~"), built.decode(b"~"));
        assert_eq!(encoding.bit_width(), built.bit_width());
        assert_eq!(encoding.encode_align(), built.encode_align());
        assert_eq!(encoding.is_canonical(), built.is_canonical());
        assert_eq!(encoding.specification().symbols, built.specification().symbols);
    }
}

/// More encodings than are kept, each from threads of its own.
#[test]
fn many() {
    let symbols: Vec<char> = ('0'..='9').chain('a'..='z').collect();
    let pairs = symbols.iter().flat_map(|one| symbols.iter().map(move |other| (*one, *other)));
    let pairs: Vec<_> = pairs.filter(|(one, other)| one != other).take(600).collect();
    let encodings: Vec<_> = pairs
        .iter()
        .map(|&(zero, one)| {
            let mut specification = Specification::new();
            specification.symbols.extend([zero, one]);
            let built = specification.encoding().unwrap();
            Encoding::internal_new(kept(built.internal_implementation()))
        })
        .collect();
    let check = || {
        for ((zero, one), encoding) in pairs.iter().zip(&encodings) {
            let text: String =
                "01100010".chars().map(|bit| if bit == '0' { zero } else { one }).collect();
            assert_eq!(encoding.encode(b"b"), text);
            assert_eq!(encoding.decode(text.as_bytes()), Ok(b"b".to_vec()));
        }
    };
    thread::scope(|scope| {
        for _ in 0..4 {
            scope.spawn(check);
        }
    });
    check();
}

/// Bytes that are not a layout make an encoding that panics at each call.
#[test]
fn no_layouts() {
    let mut swapped = BASE64.internal_implementation().to_vec();
    swapped.swap(0, 1);
    let mut long = BASE64.internal_implementation().to_vec();
    long.push(1);
    for bytes in [vec![], vec![0; 514], swapped, long] {
        let encoding = Encoding::internal_new(kept(&bytes));
        assert_eq!(encoding.internal_implementation(), bytes);
        assert!(catch_unwind(|| encoding.encode(b"foo")).is_err());
        assert!(catch_unwind(|| encoding.decode(b"Zm9v")).is_err());
        assert!(catch_unwind(|| encoding.bit_width()).is_err());
        assert!(catch_unwind(|| encoding.specification()).is_err());
    }
}

/// Padded texts that may not be concatenated: a layout of this library alone.
#[test]
fn one_text() {
    let mut bytes = BASE64.internal_implementation().to_vec();
    bytes[513] |= 32;
    let encoding = Encoding::internal_new(kept(&bytes));
    assert_eq!(encoding.decode(b"Zg=="), Ok(b"f".to_vec()));
    let error = encoding.decode(b"Zg==Zg==").unwrap_err();
    assert_eq!(error, DecodeError { position: 4, kind: DecodeKind::Padding });
    assert_ne!(encoding, BASE64);
}
