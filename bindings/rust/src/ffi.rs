//! The calls of the library for C, which its header `data_encoding.h` describes. No other module
//! has unsafe code.

#[cfg(feature = "alloc")]
use alloc::string::String;
#[cfg(feature = "alloc")]
use alloc::vec::Vec;
#[cfg(feature = "alloc")]
use core::ffi::c_int;
use core::mem::size_of;
use core::str;

// It has the library.
use bamsturk_data_encoding_sys as _;

#[cfg(feature = "alloc")]
use crate::error::Refusal;
#[cfg(feature = "alloc")]
use crate::{BitOrder, Specification, SpecificationError};
use crate::{DecodeError, DecodeKind, DecodePartial};

/// The statuses that these calls look at.
mod status {
    pub(super) const OK: u32 = 0;
    pub(super) const TOO_LONG: u32 = 3;
    pub(super) const SHORT_BUFFER: u32 = 4;
    pub(super) const INVALID_LENGTH: u32 = 6;
    pub(super) const INVALID_SYMBOL: u32 = 7;
    pub(super) const INVALID_TRAILING_BITS: u32 = 8;
    pub(super) const INVALID_PADDING: u32 = 9;
}

/// The statuses of a specification that is refused.
#[cfg(feature = "alloc")]
mod refused {
    pub(super) const SYMBOL_COUNT: u32 = 10;
    pub(super) const NOT_ASCII: u32 = 11;
    pub(super) const DUPLICATE: u32 = 12;
    pub(super) const EXTRA_PADDING: u32 = 13;
    pub(super) const WRAP_LENGTH: u32 = 14;
    pub(super) const WRAP_WIDTH: u32 = 15;
    pub(super) const TRANSLATE_LENGTH: u32 = 16;
    pub(super) const UNDEFINED: u32 = 17;
}

/// The size of a `de_encoding`, or more.
const TABLES_SIZE: usize = 851;

/// The greatest length of a layout.
#[cfg(feature = "alloc")]
const LAYOUT_LIMIT: usize = 770;

/// The tables of an encoding that the library made: a `de_encoding`, which is plain bytes.
#[repr(C, align(8))]
pub(crate) struct Tables([u8; TABLES_SIZE]);

/// An encoding as the calls take it.
#[derive(Clone, Copy)]
pub(crate) enum Handle<'a> {
    /// The number of a predefined encoding.
    Number(u32),
    /// The tables of any encoding.
    Tables(&'a Tables),
}

/// How far a text was decoded.
#[derive(Default)]
#[repr(C)]
struct Decoded {
    read: usize,
    written: usize,
    position: usize,
}

/// The state of a decoder of pieces: a `de_decoder`.
#[derive(Clone, Debug, Default)]
#[repr(C)]
pub(crate) struct DecoderState {
    len: usize,
    count: usize,
    positions: [usize; 8],
    fault_position: usize,
    fault: u32,
    ended: u32,
    bytes: [u8; 8],
}

/// The state of an encoder of pieces: a `de_encoder`.
#[derive(Clone, Debug)]
#[repr(C)]
pub(crate) struct EncoderState {
    count: usize,
    bytes: [u8; 189],
}

// Their sizes in C.
const _: () = assert!(size_of::<DecoderState>() == 104 && size_of::<EncoderState>() == 200);

impl Default for EncoderState {
    fn default() -> Self {
        EncoderState { count: 0, bytes: [0; 189] }
    }
}

#[cfg(feature = "std")]
impl EncoderState {
    /// Returns the number of held bytes.
    pub(crate) fn held(&self) -> usize {
        self.count
    }
}

/// Bytes of a `de_specification`.
#[cfg(feature = "alloc")]
#[repr(C)]
struct Bytes {
    start: *const u8,
    len: usize,
}

#[cfg(feature = "alloc")]
impl Bytes {
    fn of(text: &str) -> Self {
        Bytes { start: text.as_ptr(), len: text.len() }
    }
}

/// A `de_specification`.
#[cfg(feature = "alloc")]
#[repr(C)]
struct Request {
    symbols: Bytes,
    ignore: Bytes,
    separator: Bytes,
    width: usize,
    from: Bytes,
    to: Bytes,
    padding: c_int,
    least_significant_first: bool,
    check_trailing_bits: bool,
    concatenate: bool,
}

extern "C" {
    fn de_encode_len(number: u32, len: usize, text_len: *mut usize) -> u32;
    fn de_encode(
        number: u32,
        input: *const u8,
        input_len: usize,
        output: *mut u8,
        output_len: usize,
        written: *mut usize,
    ) -> u32;
    fn de_decode_len(number: u32, len: usize, most: *mut usize) -> u32;
    fn de_decode(
        number: u32,
        input: *const u8,
        input_len: usize,
        output: *mut u8,
        output_len: usize,
        decoded: *mut Decoded,
    ) -> u32;
    fn de_is_canonical(number: u32, canonical: *mut bool) -> u32;
    fn de_encoding_encode_len(encoding: *const Tables, len: usize, text_len: *mut usize) -> u32;
    fn de_encoding_encode(
        encoding: *const Tables,
        input: *const u8,
        input_len: usize,
        output: *mut u8,
        output_len: usize,
        written: *mut usize,
    ) -> u32;
    fn de_encoding_decode_len(encoding: *const Tables, len: usize, most: *mut usize) -> u32;
    fn de_encoding_decode(
        encoding: *const Tables,
        input: *const u8,
        input_len: usize,
        output: *mut u8,
        output_len: usize,
        decoded: *mut Decoded,
    ) -> u32;
    fn de_encoding_is_canonical(encoding: *const Tables, canonical: *mut bool) -> u32;
    fn de_encoding_read(encoding: *mut Tables, layout: *const u8, len: usize) -> u32;
    fn de_decoder_most(
        number: u32,
        decoder: *const DecoderState,
        len: usize,
        most: *mut usize,
    ) -> u32;
    fn de_decoder_read(
        number: u32,
        decoder: *mut DecoderState,
        input: *const u8,
        input_len: usize,
        output: *mut u8,
        output_len: usize,
        written: *mut usize,
    ) -> u32;
    fn de_decoder_finish(
        number: u32,
        decoder: *const DecoderState,
        output: *mut u8,
        output_len: usize,
        decoded: *mut Decoded,
    ) -> u32;
    fn de_encoding_decoder_most(
        encoding: *const Tables,
        decoder: *const DecoderState,
        len: usize,
        most: *mut usize,
    ) -> u32;
    fn de_encoding_decoder_read(
        encoding: *const Tables,
        decoder: *mut DecoderState,
        input: *const u8,
        input_len: usize,
        output: *mut u8,
        output_len: usize,
        written: *mut usize,
    ) -> u32;
    fn de_encoding_decoder_finish(
        encoding: *const Tables,
        decoder: *const DecoderState,
        output: *mut u8,
        output_len: usize,
        decoded: *mut Decoded,
    ) -> u32;
    fn de_encoder_most(
        number: u32,
        encoder: *const EncoderState,
        len: usize,
        most: *mut usize,
    ) -> u32;
    fn de_encoder_read(
        number: u32,
        encoder: *mut EncoderState,
        input: *const u8,
        input_len: usize,
        output: *mut u8,
        output_len: usize,
        written: *mut usize,
    ) -> u32;
    fn de_encoder_finish(
        number: u32,
        encoder: *const EncoderState,
        output: *mut u8,
        output_len: usize,
        written: *mut usize,
    ) -> u32;
    fn de_encoding_encoder_most(
        encoding: *const Tables,
        encoder: *const EncoderState,
        len: usize,
        most: *mut usize,
    ) -> u32;
    fn de_encoding_encoder_read(
        encoding: *const Tables,
        encoder: *mut EncoderState,
        input: *const u8,
        input_len: usize,
        output: *mut u8,
        output_len: usize,
        written: *mut usize,
    ) -> u32;
    fn de_encoding_encoder_finish(
        encoding: *const Tables,
        encoder: *const EncoderState,
        output: *mut u8,
        output_len: usize,
        written: *mut usize,
    ) -> u32;
    #[cfg(feature = "alloc")]
    fn de_encoding_new(
        encoding: *mut Tables,
        specification: *const Request,
        detail: *mut usize,
    ) -> u32;
    #[cfg(feature = "alloc")]
    fn de_encoding_layout(
        encoding: *const Tables,
        output: *mut u8,
        output_len: usize,
        written: *mut usize,
    ) -> u32;
}

/// Returns the length of the text of `len` bytes.
///
/// # Panics
///
/// Panics if the length is over the limit.
#[inline]
pub(crate) fn encode_len(encoding: Handle<'_>, len: usize) -> usize {
    let mut text_len = 0;
    // SAFETY: The tables are borrowed, and the other pointer is to a local variable.
    let status = unsafe {
        match encoding {
            Handle::Number(number) => de_encode_len(number, len, &mut text_len),
            Handle::Tables(tables) => de_encoding_encode_len(tables, len, &mut text_len),
        }
    };
    accept(status);
    text_len
}

/// Writes the text of the data to the start of the output, and returns it.
///
/// # Panics
///
/// Panics if the output has no room, or the data is over the limit.
#[inline]
pub(crate) fn encode<'a>(encoding: Handle<'_>, input: &[u8], output: &'a mut [u8]) -> &'a str {
    // SAFETY: The output is borrowed mutably, so that nothing else is in it.
    let written = unsafe { encode_to(encoding, input, output.as_mut_ptr(), output.len()) };
    // SAFETY: The library wrote these bytes, and each of them is ASCII: a symbol, a padding
    // character or a byte of a separator, which a specification and a layout have to have so.
    unsafe { str::from_utf8_unchecked(&output[..written]) }
}

/// Appends the text of the data, which is `len` bytes, to the output.
///
/// # Panics
///
/// Panics if the data is over the limit.
#[cfg(feature = "alloc")]
#[inline]
pub(crate) fn encode_append(encoding: Handle<'_>, input: &[u8], len: usize, output: &mut String) {
    // SAFETY: The appended bytes are ASCII, as in `encode`.
    let output = unsafe { output.as_mut_vec() };
    output.reserve(len);
    let room = output.spare_capacity_mut();
    // SAFETY: The room is borrowed mutably. The library reads none of it.
    unsafe {
        let written = encode_to(encoding, input, room.as_mut_ptr().cast(), room.len());
        output.set_len(output.len() + written);
    }
}

/// Writes the text of the data to the start of the output, and returns its length. These bytes of
/// the output are then initialized.
///
/// # Safety
///
/// The output may be written for `output_len` bytes, and does not overlap the input.
#[inline]
unsafe fn encode_to(
    encoding: Handle<'_>,
    input: &[u8],
    output: *mut u8,
    output_len: usize,
) -> usize {
    let (bytes, len) = (input.as_ptr(), input.len());
    let mut written = 0;
    // SAFETY: The caller answers for the output; the other pointers are of borrowed values.
    let status = unsafe {
        match encoding {
            Handle::Number(number) => {
                de_encode(number, bytes, len, output, output_len, &mut written)
            }
            Handle::Tables(tables) => {
                de_encoding_encode(tables, bytes, len, output, output_len, &mut written)
            }
        }
    };
    accept(status);
    written
}

/// Returns how many bytes a text of `len` bytes may mean at most.
///
/// # Panics
///
/// Panics if the length is over the limit.
#[inline]
pub(crate) fn decode_len(encoding: Handle<'_>, len: usize) -> Result<usize, DecodeError> {
    let mut most = 0;
    // SAFETY: The tables are borrowed, and the other pointer is to a local variable.
    let status = unsafe {
        match encoding {
            Handle::Number(number) => de_decode_len(number, len, &mut most),
            Handle::Tables(tables) => de_encoding_decode_len(tables, len, &mut most),
        }
    };
    match status {
        status::OK => Ok(most),
        _ => Err(length_error(status, most)),
    }
}

/// Returns whether `decode_len` of a text of `len` bytes is `most`.
///
/// # Panics
///
/// Panics if the length is over the limit.
#[cold]
pub(crate) fn is_most(encoding: Handle<'_>, len: usize, most: usize) -> bool {
    decode_len(encoding, len) == Ok(most)
}

/// Writes the data that the text means to the start of the output, and returns its length.
///
/// # Panics
///
/// Panics if the output has no room, or the text is over the limit.
#[inline]
pub(crate) fn decode(
    encoding: Handle<'_>,
    input: &[u8],
    output: &mut [u8],
) -> Result<usize, DecodePartial> {
    // SAFETY: The output is borrowed mutably, so that nothing else is in it.
    unsafe { decode_to(encoding, input, output.as_mut_ptr(), output.len()) }
}

/// Returns the data that the text means, which is `most` bytes at most.
///
/// # Panics
///
/// Panics if the data has more than `most` bytes, or the text is over the limit.
#[cfg(feature = "alloc")]
#[inline]
pub(crate) fn decode_new(
    encoding: Handle<'_>,
    input: &[u8],
    most: usize,
) -> Result<Vec<u8>, DecodePartial> {
    let mut output = Vec::with_capacity(most);
    let room = output.spare_capacity_mut();
    // SAFETY: The room is borrowed mutably. The library reads none of it.
    unsafe {
        let written = decode_to(encoding, input, room.as_mut_ptr().cast(), room.len())?;
        output.set_len(written);
    }
    Ok(output)
}

/// Writes the data that the text means to the start of the output, and returns its length: that
/// many bytes of the output are then initialized.
///
/// # Safety
///
/// The output may be written for `output_len` bytes, and does not overlap the input.
#[inline]
unsafe fn decode_to(
    encoding: Handle<'_>,
    input: &[u8],
    output: *mut u8,
    output_len: usize,
) -> Result<usize, DecodePartial> {
    let (bytes, len) = (input.as_ptr(), input.len());
    let mut decoded = Decoded::default();
    // SAFETY: The caller answers for the output; the other pointers are of borrowed values.
    let status = unsafe {
        match encoding {
            Handle::Number(number) => {
                de_decode(number, bytes, len, output, output_len, &mut decoded)
            }
            Handle::Tables(tables) => {
                de_encoding_decode(tables, bytes, len, output, output_len, &mut decoded)
            }
        }
    };
    match status {
        status::OK => Ok(decoded.written),
        _ => Err(partial(status, &decoded)),
    }
}

#[cold]
fn length_error(status: u32, position: usize) -> DecodeError {
    DecodeError { position, kind: kind(status) }
}

#[cold]
fn partial(status: u32, decoded: &Decoded) -> DecodePartial {
    let error = DecodeError { position: decoded.position, kind: kind(status) };
    DecodePartial { read: decoded.read, written: decoded.written, error }
}

/// Returns whether no two different texts decode to the same data.
pub(crate) fn is_canonical(encoding: Handle<'_>) -> bool {
    let mut canonical = false;
    // SAFETY: The tables are borrowed, and the other pointer is to a local variable.
    let status = unsafe {
        match encoding {
            Handle::Number(number) => de_is_canonical(number, &mut canonical),
            Handle::Tables(tables) => de_encoding_is_canonical(tables, &mut canonical),
        }
    };
    accept(status);
    canonical
}

/// Returns the encoding of a layout, if the bytes are one.
pub(crate) fn read(layout: &[u8]) -> Option<Tables> {
    let mut tables = Tables([0; TABLES_SIZE]);
    // SAFETY: `Tables` has room for a `de_encoding`, and the layout is borrowed.
    let status = unsafe { de_encoding_read(&mut tables, layout.as_ptr(), layout.len()) };
    (status == status::OK).then_some(tables)
}

/// Returns the encoding that is asked for, or why there is none.
#[cfg(feature = "alloc")]
pub(crate) fn build(specification: &Specification) -> Result<Tables, SpecificationError> {
    let request = Request {
        symbols: Bytes::of(&specification.symbols),
        ignore: Bytes::of(&specification.ignore),
        separator: Bytes::of(&specification.wrap.separator),
        width: specification.wrap.width,
        from: Bytes::of(&specification.translate.from),
        to: Bytes::of(&specification.translate.to),
        // No character is above 0x10FFFF.
        padding: specification.padding.map_or(-1, |padding| u32::from(padding) as c_int),
        least_significant_first: specification.bit_order == BitOrder::LeastSignificantFirst,
        check_trailing_bits: specification.check_trailing_bits,
        concatenate: true,
    };
    let mut tables = Tables([0; TABLES_SIZE]);
    let mut detail = 0;
    // SAFETY: `Tables` has room for a `de_encoding`, and all that the request points to is borrowed
    // by the specification.
    let status = unsafe { de_encoding_new(&mut tables, &request, &mut detail) };
    match status {
        status::OK => Ok(tables),
        _ => Err(SpecificationError(refusal(status, detail as u8))),
    }
}

/// Returns the reason of a refusal, by a status and the byte or number that is the cause.
#[cfg(feature = "alloc")]
fn refusal(status: u32, detail: u8) -> Refusal {
    match status {
        refused::SYMBOL_COUNT => Refusal::BadSize,
        refused::NOT_ASCII => Refusal::NotAscii,
        refused::DUPLICATE => Refusal::Duplicate(detail),
        refused::EXTRA_PADDING => Refusal::ExtraPadding,
        refused::WRAP_LENGTH => Refusal::WrapLength,
        refused::WRAP_WIDTH => Refusal::WrapWidth(detail),
        refused::TRANSLATE_LENGTH => Refusal::FromTo,
        refused::UNDEFINED => Refusal::Undefined(detail),
        _ => refuse(status),
    }
}

/// Returns the layout of the encoding.
#[cfg(feature = "alloc")]
pub(crate) fn layout(tables: &Tables) -> Vec<u8> {
    let mut layout = alloc::vec![0; LAYOUT_LIMIT];
    let mut written = 0;
    // SAFETY: The tables are borrowed, and so is the output, mutably.
    let status =
        unsafe { de_encoding_layout(tables, layout.as_mut_ptr(), layout.len(), &mut written) };
    accept(status);
    layout.truncate(written);
    layout
}

/// Returns the greatest number of bytes that `len` more bytes of text complete.
///
/// # Panics
///
/// Panics if the text is then over the limit.
pub(crate) fn decoder_most(encoding: Handle<'_>, state: &DecoderState, len: usize) -> usize {
    let mut most = 0;
    // SAFETY: The state and the tables are borrowed, and the other pointer is to a local variable.
    let status = unsafe {
        match encoding {
            Handle::Number(number) => de_decoder_most(number, state, len, &mut most),
            Handle::Tables(tables) => de_encoding_decoder_most(tables, state, len, &mut most),
        }
    };
    accept(status);
    most
}

/// Writes the data that a piece of text completes to the start of the output, and returns its
/// length.
///
/// # Panics
///
/// Panics if the output has no room, or the text is over the limit.
pub(crate) fn decoder_read(
    encoding: Handle<'_>,
    state: &mut DecoderState,
    input: &[u8],
    output: &mut [u8],
) -> usize {
    let (bytes, len) = (input.as_ptr(), input.len());
    let (room, room_len) = (output.as_mut_ptr(), output.len());
    let mut written = 0;
    // SAFETY: The state and the output are borrowed mutably, so that nothing else is in them.
    let status = unsafe {
        match encoding {
            Handle::Number(number) => {
                de_decoder_read(number, state, bytes, len, room, room_len, &mut written)
            }
            Handle::Tables(tables) => {
                de_encoding_decoder_read(tables, state, bytes, len, room, room_len, &mut written)
            }
        }
    };
    accept(status);
    written
}

/// Writes the data of a last group to the start of the output. Returns its length, and the fault of
/// the whole text if there is one.
///
/// # Panics
///
/// Panics if the output has no room.
pub(crate) fn decoder_finish(
    encoding: Handle<'_>,
    state: &DecoderState,
    output: &mut [u8],
) -> (usize, Result<(), DecodeError>) {
    let (room, room_len) = (output.as_mut_ptr(), output.len());
    let mut decoded = Decoded::default();
    // SAFETY: The output is borrowed mutably, and the state and the tables are borrowed.
    let status = unsafe {
        match encoding {
            Handle::Number(number) => {
                de_decoder_finish(number, state, room, room_len, &mut decoded)
            }
            Handle::Tables(tables) => {
                de_encoding_decoder_finish(tables, state, room, room_len, &mut decoded)
            }
        }
    };
    let verdict = match status {
        status::OK => Ok(()),
        _ => Err(length_error(status, decoded.position)),
    };
    (decoded.written, verdict)
}

/// Returns the length of the text that `len` more bytes of data complete.
///
/// # Panics
///
/// Panics if `len` is over the limit.
pub(crate) fn encoder_most(encoding: Handle<'_>, state: &EncoderState, len: usize) -> usize {
    let mut most = 0;
    // SAFETY: The state and the tables are borrowed, and the other pointer is to a local variable.
    let status = unsafe {
        match encoding {
            Handle::Number(number) => de_encoder_most(number, state, len, &mut most),
            Handle::Tables(tables) => de_encoding_encoder_most(tables, state, len, &mut most),
        }
    };
    accept(status);
    most
}

/// Writes the text of the blocks that a piece of data completes to the start of the output, and
/// returns its length.
///
/// # Panics
///
/// Panics if the output has no room, or the piece is over the limit.
pub(crate) fn encoder_read(
    encoding: Handle<'_>,
    state: &mut EncoderState,
    input: &[u8],
    output: &mut [u8],
) -> usize {
    let (bytes, len) = (input.as_ptr(), input.len());
    let (room, room_len) = (output.as_mut_ptr(), output.len());
    let mut written = 0;
    // SAFETY: The state and the output are borrowed mutably, so that nothing else is in them.
    let status = unsafe {
        match encoding {
            Handle::Number(number) => {
                de_encoder_read(number, state, bytes, len, room, room_len, &mut written)
            }
            Handle::Tables(tables) => {
                de_encoding_encoder_read(tables, state, bytes, len, room, room_len, &mut written)
            }
        }
    };
    accept(status);
    written
}

/// Writes the text of the held bytes to the start of the output, and returns its length.
///
/// # Panics
///
/// Panics if the output has no room.
pub(crate) fn encoder_finish(
    encoding: Handle<'_>,
    state: &EncoderState,
    output: &mut [u8],
) -> usize {
    let (room, room_len) = (output.as_mut_ptr(), output.len());
    let mut written = 0;
    // SAFETY: The output is borrowed mutably, and the state and the tables are borrowed.
    let status = unsafe {
        match encoding {
            Handle::Number(number) => {
                de_encoder_finish(number, state, room, room_len, &mut written)
            }
            Handle::Tables(tables) => {
                de_encoding_encoder_finish(tables, state, room, room_len, &mut written)
            }
        }
    };
    accept(status);
    written
}

#[inline]
fn accept(status: u32) {
    if status != status::OK {
        refuse(status);
    }
}

fn kind(status: u32) -> DecodeKind {
    match status {
        status::INVALID_LENGTH => DecodeKind::Length,
        status::INVALID_SYMBOL => DecodeKind::Symbol,
        status::INVALID_TRAILING_BITS => DecodeKind::Trailing,
        status::INVALID_PADDING => DecodeKind::Padding,
        _ => refuse(status),
    }
}

#[cold]
fn refuse(status: u32) -> ! {
    match status {
        status::TOO_LONG => panic!("the length is over the limit"),
        status::SHORT_BUFFER => panic!("the output has no room"),
        _ => panic!("status {status} of the library"),
    }
}
