//! The predefined encodings, each with its number in the library for C, and its layout.

use crate::layout::Form;
use crate::Encoding;

const HEX_LOWER: &[u8] = b"0123456789abcdef";
const HEX_UPPER: &[u8] = b"0123456789ABCDEF";
const BASE32_SYMBOLS: &[u8] = b"ABCDEFGHIJKLMNOPQRSTUVWXYZ234567";
const BASE32HEX_SYMBOLS: &[u8] = b"0123456789ABCDEFGHIJKLMNOPQRSTUV";
const BASE64_SYMBOLS: &[u8] = b"ABCDEFGHIJKLMNOPQRSTUVWXYZabcdefghijklmnopqrstuvwxyz0123456789+/";
const BASE64URL_SYMBOLS: &[u8] =
    b"ABCDEFGHIJKLMNOPQRSTUVWXYZabcdefghijklmnopqrstuvwxyz0123456789-_";

/// Hexadecimal with the letters `a` to `f`.
///
/// ```
/// use data_encoding::HEXLOWER;
///
/// assert_eq!(HEXLOWER.encode(&[0xbe, 0xef]), "beef");
/// assert!(HEXLOWER.decode(b"BEEF").is_err());
/// ```
pub const HEXLOWER: Encoding = Encoding::predefined(0, HEXLOWER_LAYOUT);
const HEXLOWER_LAYOUT: &[u8] = &Form::new(HEX_LOWER).layout::<514>();

/// Hexadecimal with the letters `a` to `f`, which also reads `A` to `F`.
///
/// ```
/// use data_encoding::HEXLOWER_PERMISSIVE;
///
/// assert_eq!(HEXLOWER_PERMISSIVE.encode(&[0xbe, 0xef]), "beef");
/// assert_eq!(HEXLOWER_PERMISSIVE.decode(b"Beef"), Ok(vec![0xbe, 0xef]));
/// ```
pub const HEXLOWER_PERMISSIVE: Encoding = Encoding::predefined(1, HEXLOWER_PERMISSIVE_LAYOUT);
const HEXLOWER_PERMISSIVE_LAYOUT: &[u8] =
    &Form { translate: (b"ABCDEF", b"abcdef"), ..Form::new(HEX_LOWER) }.layout::<514>();

/// Hexadecimal with the letters `A` to `F`: RFC 4648, section 8.
///
/// ```
/// use data_encoding::HEXUPPER;
///
/// assert_eq!(HEXUPPER.encode(&[0xbe, 0xef]), "BEEF");
/// assert!(HEXUPPER.decode(b"beef").is_err());
/// ```
pub const HEXUPPER: Encoding = Encoding::predefined(2, HEXUPPER_LAYOUT);
const HEXUPPER_LAYOUT: &[u8] = &Form::new(HEX_UPPER).layout::<514>();

/// Hexadecimal with the letters `A` to `F`, which also reads `a` to `f`.
///
/// ```
/// use data_encoding::HEXUPPER_PERMISSIVE;
///
/// assert_eq!(HEXUPPER_PERMISSIVE.encode(&[0xbe, 0xef]), "BEEF");
/// assert_eq!(HEXUPPER_PERMISSIVE.decode(b"Beef"), Ok(vec![0xbe, 0xef]));
/// ```
pub const HEXUPPER_PERMISSIVE: Encoding = Encoding::predefined(3, HEXUPPER_PERMISSIVE_LAYOUT);
const HEXUPPER_PERMISSIVE_LAYOUT: &[u8] =
    &Form { translate: (b"abcdef", b"ABCDEF"), ..Form::new(HEX_UPPER) }.layout::<514>();

/// Base32 with padding: RFC 4648, section 6.
///
/// ```
/// use data_encoding::BASE32;
///
/// assert_eq!(BASE32.encode(b"Hi"), "JBUQ====");
/// ```
pub const BASE32: Encoding = Encoding::predefined(4, BASE32_LAYOUT);
const BASE32_LAYOUT: &[u8] =
    &Form { padding: Some(b'='), ..Form::new(BASE32_SYMBOLS) }.layout::<514>();

/// Base32 without padding.
///
/// ```
/// use data_encoding::BASE32_NOPAD;
///
/// assert_eq!(BASE32_NOPAD.encode(b"Hi"), "JBUQ");
/// ```
pub const BASE32_NOPAD: Encoding = Encoding::predefined(5, BASE32_NOPAD_LAYOUT);
const BASE32_NOPAD_LAYOUT: &[u8] = &Form::new(BASE32_SYMBOLS).layout::<514>();

/// Base32 without padding, which also reads lower case.
///
/// ```
/// use data_encoding::BASE32_NOPAD_NOCASE;
///
/// assert_eq!(BASE32_NOPAD_NOCASE.decode(b"jBuQ"), Ok(b"Hi".to_vec()));
/// ```
pub const BASE32_NOPAD_NOCASE: Encoding = Encoding::predefined(6, BASE32_NOPAD_NOCASE_LAYOUT);
const BASE32_NOPAD_NOCASE_LAYOUT: &[u8] = &Form {
    translate: (b"abcdefghijklmnopqrstuvwxyz", b"ABCDEFGHIJKLMNOPQRSTUVWXYZ"),
    ..Form::new(BASE32_SYMBOLS)
}
.layout::<514>();

/// Base32 without padding, which reads `0`, `1`, `l` and `8` as the letters they look like: `O`,
/// `I`, `I` and `B`.
///
/// ```
/// use data_encoding::BASE32_NOPAD_VISUAL;
///
/// assert_eq!(BASE32_NOPAD_VISUAL.decode(b"J8UQ"), Ok(b"Hi".to_vec()));
/// ```
pub const BASE32_NOPAD_VISUAL: Encoding = Encoding::predefined(7, BASE32_NOPAD_VISUAL_LAYOUT);
const BASE32_NOPAD_VISUAL_LAYOUT: &[u8] =
    &Form { translate: (b"01l8", b"OIIB"), ..Form::new(BASE32_SYMBOLS) }.layout::<514>();

/// Base32hex with padding: RFC 4648, section 7.
///
/// ```
/// use data_encoding::BASE32HEX;
///
/// assert_eq!(BASE32HEX.encode(b"Hi"), "91KG====");
/// ```
pub const BASE32HEX: Encoding = Encoding::predefined(8, BASE32HEX_LAYOUT);
const BASE32HEX_LAYOUT: &[u8] =
    &Form { padding: Some(b'='), ..Form::new(BASE32HEX_SYMBOLS) }.layout::<514>();

/// Base32hex without padding.
///
/// ```
/// use data_encoding::BASE32HEX_NOPAD;
///
/// assert_eq!(BASE32HEX_NOPAD.encode(b"Hi"), "91KG");
/// ```
pub const BASE32HEX_NOPAD: Encoding = Encoding::predefined(9, BASE32HEX_NOPAD_LAYOUT);
const BASE32HEX_NOPAD_LAYOUT: &[u8] = &Form::new(BASE32HEX_SYMBOLS).layout::<514>();

/// Base32hex in lower case without padding, which also reads upper case, as in DNSSEC: RFC 5155.
///
/// ```
/// use data_encoding::BASE32_DNSSEC;
///
/// assert_eq!(BASE32_DNSSEC.encode(b"Hi"), "91kg");
/// assert_eq!(BASE32_DNSSEC.decode(b"91KG"), Ok(b"Hi".to_vec()));
/// ```
pub const BASE32_DNSSEC: Encoding = Encoding::predefined(10, BASE32_DNSSEC_LAYOUT);
const BASE32_DNSSEC_LAYOUT: &[u8] = &Form {
    translate: (b"ABCDEFGHIJKLMNOPQRSTUV", b"abcdefghijklmnopqrstuv"),
    ..Form::new(b"0123456789abcdefghijklmnopqrstuv")
}
.layout::<514>();

/// Base32 with the least significant bit first, as in `DNSCurve`. Also reads upper case.
///
/// ```
/// use data_encoding::BASE32_DNSCURVE;
///
/// assert_eq!(BASE32_DNSCURVE.encode(&[1, 2]), "1j00");
/// ```
pub const BASE32_DNSCURVE: Encoding = Encoding::predefined(11, BASE32_DNSCURVE_LAYOUT);
const BASE32_DNSCURVE_LAYOUT: &[u8] = &Form {
    translate: (b"BCDFGHJKLMNPQRSTUVWXYZ", b"bcdfghjklmnpqrstuvwxyz"),
    most_significant_first: false,
    ..Form::new(b"0123456789bcdfghjklmnpqrstuvwxyz")
}
.layout::<514>();

/// Base64 with padding: RFC 4648, section 4.
///
/// ```
/// use data_encoding::BASE64;
///
/// assert_eq!(BASE64.encode(&[0xff, 0xef]), "/+8=");
/// ```
pub const BASE64: Encoding = Encoding::predefined(12, BASE64_LAYOUT);
const BASE64_LAYOUT: &[u8] =
    &Form { padding: Some(b'='), ..Form::new(BASE64_SYMBOLS) }.layout::<514>();

/// Base64 without padding.
///
/// ```
/// use data_encoding::BASE64_NOPAD;
///
/// assert_eq!(BASE64_NOPAD.encode(&[0xff, 0xef]), "/+8");
/// ```
pub const BASE64_NOPAD: Encoding = Encoding::predefined(13, BASE64_NOPAD_LAYOUT);
const BASE64_NOPAD_LAYOUT: &[u8] = &Form::new(BASE64_SYMBOLS).layout::<514>();

/// Base64 of MIME: lines of 76 characters, which end with CR LF. Both bytes are ignored wherever
/// they are in a text.
///
/// ```
/// use data_encoding::BASE64_MIME;
///
/// assert_eq!(BASE64_MIME.encode(b"Hi"), "SGk=\r\n");
/// assert_eq!(BASE64_MIME.decode(b"SG\nk="), Ok(b"Hi".to_vec()));
/// ```
pub const BASE64_MIME: Encoding = Encoding::predefined(14, BASE64_MIME_LAYOUT);
const BASE64_MIME_LAYOUT: &[u8] =
    &Form { padding: Some(b'='), lines: Some((76, b"\r\n")), ..Form::new(BASE64_SYMBOLS) }
        .layout::<517>();

/// Base64 of MIME, which does not check trailing bits.
///
/// ```
/// use data_encoding::BASE64_MIME_PERMISSIVE;
///
/// assert_eq!(BASE64_MIME_PERMISSIVE.decode(b"SGl=\r\n"), Ok(b"Hi".to_vec()));
/// ```
pub const BASE64_MIME_PERMISSIVE: Encoding =
    Encoding::predefined(15, BASE64_MIME_PERMISSIVE_LAYOUT);
const BASE64_MIME_PERMISSIVE_LAYOUT: &[u8] = &Form {
    padding: Some(b'='),
    lines: Some((76, b"\r\n")),
    check_trailing_bits: false,
    ..Form::new(BASE64_SYMBOLS)
}
.layout::<517>();

/// Base64url with padding: RFC 4648, section 5.
///
/// ```
/// use data_encoding::BASE64URL;
///
/// assert_eq!(BASE64URL.encode(&[0xff, 0xef]), "_-8=");
/// ```
pub const BASE64URL: Encoding = Encoding::predefined(16, BASE64URL_LAYOUT);
const BASE64URL_LAYOUT: &[u8] =
    &Form { padding: Some(b'='), ..Form::new(BASE64URL_SYMBOLS) }.layout::<514>();

/// Base64url without padding.
///
/// ```
/// use data_encoding::BASE64URL_NOPAD;
///
/// assert_eq!(BASE64URL_NOPAD.encode(&[0xff, 0xef]), "_-8");
/// ```
pub const BASE64URL_NOPAD: Encoding = Encoding::predefined(17, BASE64URL_NOPAD_LAYOUT);
const BASE64URL_NOPAD_LAYOUT: &[u8] = &Form::new(BASE64URL_SYMBOLS).layout::<514>();
