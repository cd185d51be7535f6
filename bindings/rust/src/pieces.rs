//! Data and texts that come in pieces, cut anywhere.
//!
//! The crate `data-encoding` has no such module. No call here allocates.
//!
//! [`Decoder`] and [`Encoder`] write to slices. With the feature `std`, `DecodeReader` reads the data
//! of a text from a reader, `EncodeWriter` writes the text of data to a writer, and `decode_stream`
//! and `encode_stream` do both to the end.

#[cfg(feature = "std")]
mod streams;

#[cfg(feature = "std")]
pub use self::streams::{decode_stream, encode_stream, DecodeReader, EncodeWriter, StreamFault};

use core::fmt;

use crate::ffi::{self, DecoderState, EncoderState};
use crate::{DecodeError, Encoding};

/// Decodes a text that comes in pieces.
///
/// The data of a group is written when the group is complete. [`finish`](Decoder::finish) reports
/// the fault that [`Encoding::decode`] reports for the whole text.
///
/// ```
/// use data_encoding::{pieces::Decoder, BASE64};
///
/// let mut data = [0; 32];
/// let mut decoder = Decoder::new(BASE64);
/// let mut len = decoder.read(b"Zm9vY", &mut data);
/// assert_eq!(&data[..len], b"foo");
/// len += decoder.read(b"mE=", &mut data[len..]);
/// let (last, verdict) = decoder.finish(&mut data[len..]);
/// assert_eq!((&data[..len + last], verdict), (&b"fooba"[..], Ok(())));
/// ```
#[derive(Clone)]
pub struct Decoder {
    encoding: Encoding,
    state: DecoderState,
}

impl Decoder {
    /// The greatest length of the data that [`finish`](Decoder::finish) writes.
    pub const LAST: usize = 5;

    /// Returns a decoder that has read nothing.
    #[must_use]
    pub fn new(encoding: Encoding) -> Self {
        Decoder { encoding, state: DecoderState::default() }
    }

    /// Returns the greatest number of bytes that `len` more bytes of text complete: at most
    /// `len + 7`, and 0 after a fault.
    ///
    /// # Panics
    ///
    /// Panics if the text would then be longer than `usize::MAX / 8`.
    #[must_use]
    pub fn most(&self, len: usize) -> usize {
        self.encoding.with(|encoding| ffi::decoder_most(encoding, &self.state, len))
    }

    /// Reads a piece of the text. Writes the data of the groups that it completes, up to the first
    /// faulty one, to the start of `output`, and returns its length.
    ///
    /// # Panics
    ///
    /// Panics if `output` is shorter than [`most(piece.len())`](Decoder::most), or if the text is
    /// then longer than `usize::MAX / 8`.
    pub fn read(&mut self, piece: &[u8], output: &mut [u8]) -> usize {
        let state = &mut self.state;
        self.encoding.with(|encoding| ffi::decoder_read(encoding, state, piece, output))
    }

    /// Ends the text. Writes the data of a last group to the start of `output`, and returns its
    /// length, and the fault of the whole text if there is one.
    ///
    /// The decoder is unchanged: this is the verdict on the text so far.
    ///
    /// # Panics
    ///
    /// Panics if `output` is too short. [`LAST`](Decoder::LAST) bytes always suffice.
    pub fn finish(&self, output: &mut [u8]) -> (usize, Result<(), DecodeError>) {
        self.encoding.with(|encoding| ffi::decoder_finish(encoding, &self.state, output))
    }
}

/// Leaves out the state, which may hold a part of the text.
impl fmt::Debug for Decoder {
    fn fmt(&self, formatter: &mut fmt::Formatter<'_>) -> fmt::Result {
        formatter.debug_struct("Decoder").field("encoding", &self.encoding).finish_non_exhaustive()
    }
}

/// Encodes data that comes in pieces. The joined results are the text of all the data.
///
/// ```
/// use data_encoding::{pieces::Encoder, BASE64};
///
/// let mut text = [0; 32];
/// let mut encoder = Encoder::new(BASE64);
/// let mut len = encoder.read(b"fo", &mut text);
/// len += encoder.read(b"oba", &mut text[len..]);
/// assert_eq!(&text[..len], b"Zm9v");
/// len += encoder.finish(&mut text[len..]);
/// assert_eq!(&text[..len], b"Zm9vYmE=");
/// ```
#[derive(Clone)]
pub struct Encoder {
    encoding: Encoding,
    state: EncoderState,
}

impl Encoder {
    /// The greatest length of the text that [`finish`](Encoder::finish) writes.
    pub const LAST: usize = 510;

    /// Returns an encoder that has read nothing.
    #[must_use]
    pub fn new(encoding: Encoding) -> Self {
        Encoder { encoding, state: EncoderState::default() }
    }

    /// Returns the length of the text that [`read`](Encoder::read) writes for `len` more bytes.
    ///
    /// # Panics
    ///
    /// Panics if `len` is greater than `usize::MAX / 512`.
    #[must_use]
    pub fn most(&self, len: usize) -> usize {
        self.encoding.with(|encoding| ffi::encoder_most(encoding, &self.state, len))
    }

    /// Reads a piece of the data. Writes the text of the blocks that it completes to the start of
    /// `output`, and returns its length.
    ///
    /// # Panics
    ///
    /// Panics if `output` is shorter than [`most(piece.len())`](Encoder::most), or if `piece` is
    /// longer than `usize::MAX / 512`.
    pub fn read(&mut self, piece: &[u8], output: &mut [u8]) -> usize {
        let state = &mut self.state;
        self.encoding.with(|encoding| ffi::encoder_read(encoding, state, piece, output))
    }

    /// Ends the data. Writes the text of the held bytes, with padding and line end, to the start of
    /// `output`, and returns its length. The encoder is unchanged.
    ///
    /// # Panics
    ///
    /// Panics if `output` is too short. [`LAST`](Encoder::LAST) bytes always suffice.
    pub fn finish(&self, output: &mut [u8]) -> usize {
        self.encoding.with(|encoding| ffi::encoder_finish(encoding, &self.state, output))
    }

    /// Returns the greatest length of a piece with at most `room` bytes of text. `room` is at least
    /// [`LAST`](Encoder::LAST).
    #[cfg(feature = "std")]
    fn most_data(&self, room: usize) -> usize {
        let align = self.encoding.encode_align();
        room / self.encoding.encode_len(align) * align - self.state.held()
    }
}

/// Leaves out the state, which may hold a part of the data.
impl fmt::Debug for Encoder {
    fn fmt(&self, formatter: &mut fmt::Formatter<'_>) -> fmt::Result {
        formatter.debug_struct("Encoder").field("encoding", &self.encoding).finish_non_exhaustive()
    }
}
