//! The names and types of the calls, as programs over `data-encoding` use them.
#![cfg(feature = "alloc")]
// The types are written out, as a program would.
#![allow(clippy::type_complexity)]

use std::error::Error;
use std::panic::{RefUnwindSafe, UnwindSafe};

use data_encoding::*;

const OF_A_CONSTANT: Encoding = BASE64;
static OF_A_STATIC: Encoding = BASE32HEX_NOPAD;

#[test]
fn calls() {
    let _: fn(&Encoding, usize) -> usize = Encoding::encode_len;
    let _: fn(&Encoding) -> usize = Encoding::encode_align;
    let _: fn(&Encoding, &[u8], &mut [u8]) = Encoding::encode_mut;
    let _: for<'a> fn(&Encoding, &[u8], &'a mut [u8]) -> &'a str = Encoding::encode_mut_str;
    let _: fn(&Encoding, &[u8], &mut String) = Encoding::encode_append;
    let _: for<'a> fn(&'a Encoding, &'a mut String) -> Encoder<'a> = Encoding::new_encoder;
    let _: for<'a> fn(&'a Encoding, &'a [u8]) -> Display<'a> = Encoding::encode_display;
    let _: fn(&Encoding, &[u8]) -> String = Encoding::encode;
    let _: fn(&Encoding, usize) -> Result<usize, DecodeError> = Encoding::decode_len;
    let _: fn(&Encoding, &[u8], &mut [u8]) -> Result<usize, DecodePartial> = Encoding::decode_mut;
    let _: fn(&Encoding, &[u8]) -> Result<Vec<u8>, DecodeError> = Encoding::decode;
    let _: fn(&Encoding) -> usize = Encoding::bit_width;
    let _: fn(&Encoding, u8) -> Character = Encoding::interpret_byte;
    let _: fn(&Encoding) -> bool = Encoding::is_canonical;
    let _: fn(&Encoding) -> Specification = Encoding::specification;
    let _: fn(&'static [u8]) -> Encoding = Encoding::internal_new;
    let _: fn(&Encoding) -> &[u8] = Encoding::internal_implementation;
    let _: fn() -> Specification = Specification::new;
    let _: fn(&Specification) -> Result<Encoding, SpecificationError> = Specification::encoding;
    let _: fn(Character) -> Option<usize> = Character::is_symbol;
    let _: fn(&mut Encoder<'static>, &[u8]) = Encoder::append;
    let _: fn(Encoder<'static>) = Encoder::finalize;
}

#[test]
fn writers() {
    let mut text = String::new();
    let writer: &mut dyn std::fmt::Write = &mut text;
    let mut writer = writer;
    BASE64.encode_write(b"foo", &mut writer).unwrap();
    BASE64.encode_write_buffer(b"bar", &mut writer, &mut [0; 510]).unwrap();
    assert_eq!(text, "Zm9vYmFy");
}

#[test]
fn traits() {
    fn is_shared<T: Send + Sync + Unpin + UnwindSafe + RefUnwindSafe>() {}
    fn is_value<T: Clone + std::fmt::Debug + PartialEq + Eq>() {}
    fn is_copied<T: Copy + std::fmt::Debug + PartialEq + Eq>() {}
    fn is_error<T: Error + Copy + Send + Sync + 'static>() {}
    is_shared::<Encoding>();
    is_shared::<Specification>();
    is_shared::<Display<'static>>();
    is_value::<Encoding>();
    is_copied::<BitOrder>();
    is_copied::<Character>();
    is_copied::<DecodeError>();
    is_copied::<DecodeKind>();
    is_copied::<DecodePartial>();
    #[cfg(feature = "std")]
    is_error::<DecodeError>();
    is_error::<SpecificationError>();
    fn is_cloned<T: Clone + std::fmt::Debug>(_: &T) {}
    is_cloned(&Specification::default());
    is_cloned(&Wrap { width: 0, separator: String::new() });
    is_cloned(&Translate { from: String::new(), to: String::new() });
}

#[test]
fn constants() {
    assert_eq!(OF_A_CONSTANT.encode(b"f"), "Zg==");
    assert_eq!(OF_A_STATIC.encode(b"foobar"), "CPNMUOJ1E8");
    let all = [
        HEXLOWER,
        HEXLOWER_PERMISSIVE,
        HEXUPPER,
        HEXUPPER_PERMISSIVE,
        BASE32,
        BASE32_NOPAD,
        BASE32_NOPAD_NOCASE,
        BASE32_NOPAD_VISUAL,
        BASE32HEX,
        BASE32HEX_NOPAD,
        BASE32_DNSSEC,
        BASE32_DNSCURVE,
        BASE64,
        BASE64_NOPAD,
        BASE64_MIME,
        BASE64_MIME_PERMISSIVE,
        BASE64URL,
        BASE64URL_NOPAD,
    ];
    assert!(all.iter().all(|encoding| encoding.decode(&[]) == Ok(vec![])));
}

#[test]
fn debugged() {
    assert_eq!(format!("{:?}", Character::Symbol { value: 3 }), "Symbol { value: 3 }");
    assert_eq!(format!("{:?}", Character::Ignored), "Ignored");
    assert_eq!(format!("{:?}", BitOrder::LeastSignificantFirst), "LeastSignificantFirst");
    assert!(format!("{:?}", BASE64.encode_display(b"f")).ends_with("input: [102] }"));
    let mut text = String::new();
    assert!(format!("{:?}", OF_A_STATIC.new_encoder(&mut text)).starts_with("Encoder { encoding: "));
}
