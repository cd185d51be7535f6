//! What the program of the Rust crate `data-encoding` does, over that crate: tests/interop.sh builds
//! it with the crate's sources as Debian has them. A base may also be the name of a constant.
//!
//! usage: data-encoding --mode=encode|decode --base=BASE

use data_encoding::*;
use std::io::{self, Read, Write};

fn base(word: &str) -> Option<Encoding> {
    Some(match word {
        "hex" | "HEXLOWER" => HEXLOWER,
        "HEXLOWER_PERMISSIVE" => HEXLOWER_PERMISSIVE,
        "16" | "HEXUPPER" => HEXUPPER,
        "HEXUPPER_PERMISSIVE" => HEXUPPER_PERMISSIVE,
        "32" | "BASE32" => BASE32,
        "BASE32_NOPAD" => BASE32_NOPAD,
        "32hex" | "BASE32HEX" => BASE32HEX,
        "BASE32HEX_NOPAD" => BASE32HEX_NOPAD,
        "BASE32_DNSSEC" => BASE32_DNSSEC,
        "BASE32_DNSCURVE" => BASE32_DNSCURVE,
        "64" | "BASE64" => BASE64,
        "BASE64_NOPAD" => BASE64_NOPAD,
        "BASE64_MIME" => BASE64_MIME,
        "64url" | "BASE64URL" => BASE64URL,
        "BASE64URL_NOPAD" => BASE64URL_NOPAD,
        _ => return None,
    })
}

fn main() -> io::Result<()> {
    let words: Vec<String> = std::env::args().skip(1).collect();
    let (mode, base) = match &words[..] {
        [mode, name] => (mode.as_str(), name.strip_prefix("--base=").and_then(base)),
        _ => ("", None),
    };
    let mut input = Vec::new();
    io::stdin().read_to_end(&mut input)?;
    let output = match (mode, base) {
        ("--mode=encode", Some(encoding)) => encoding.encode(&input).into_bytes(),
        ("--mode=decode", Some(encoding)) => encoding.decode(&input).unwrap_or_else(|fault| {
            eprintln!("{fault}");
            std::process::exit(1)
        }),
        _ => {
            eprintln!("usage: data-encoding --mode=encode|decode --base=BASE");
            std::process::exit(2)
        }
    };
    io::stdout().write_all(&output)
}
