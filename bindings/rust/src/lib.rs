//! Base encodings with proofs: data as text over an alphabet of symbols, and back.
//!
//! This crate has the calls of the crate `data-encoding` 2.11.1 and can replace it. Hexadecimal,
//! base32 and base64 are [constants](#constants); a [`Specification`] makes any other encoding of
//! 2, 4, 8, 16, 32 or 64 symbols. The functions call a library with proofs: it writes the text that
//! the definition of the encoding gives, and decodes exactly the valid texts. The crate itself is
//! tested, not proved.
//!
//! ```
//! use data_encoding::BASE64;
//!
//! assert_eq!(BASE64.encode(b"Hi"), "SGk=");
//! assert_eq!(BASE64.decode(b"SGk="), Ok(b"Hi".to_vec()));
//! assert_eq!(BASE64.decode(b"SGl=").unwrap_err().to_string(), "non-zero trailing bits at 2");
//! ```
//!
//! Other calls encode to a slice ([`Encoding::encode_mut`]), to the end of a `String`
//! ([`Encoding::encode_append`]), in pieces ([`Encoding::new_encoder`]), to a writer
//! ([`Encoding::encode_write`]), or when formatted ([`Encoding::encode_display`]). The module
//! [`pieces`], which the original lacks, decodes in pieces, too, and reads and writes streams.
//!
//! # Features
//!
//! `std`, the default, includes `alloc`, and checks the layout of an [`Encoding::internal_new`]
//! once instead of in each call. `alloc` adds the calls that allocate. Without both, the other
//! calls remain.

#![no_std]

#[cfg(feature = "alloc")]
extern crate alloc;
#[cfg(feature = "std")]
extern crate std;

mod character;
mod display;
#[cfg(feature = "alloc")]
mod encoder;
mod encoding;
mod error;
#[allow(unsafe_code)]
mod ffi;
mod layout;
pub mod pieces;
mod predefined;
#[cfg(feature = "alloc")]
mod specification;
mod static_layout;

pub use crate::character::Character;
pub use crate::display::Display;
#[cfg(feature = "alloc")]
pub use crate::encoder::Encoder;
pub use crate::encoding::Encoding;
#[cfg(feature = "alloc")]
pub use crate::error::SpecificationError;
pub use crate::error::{DecodeError, DecodeKind, DecodePartial};
pub use crate::predefined::*;
#[cfg(feature = "alloc")]
pub use crate::specification::{BitOrder, Specification, Translate, Wrap};
