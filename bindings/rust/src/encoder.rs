use alloc::string::String;

use crate::Encoding;

/// The greatest `encode_align`: the data of a line of 252 symbols of six bits.
const ALIGN_LIMIT: usize = 189;

/// Encodes data that comes in pieces, and appends its text to a string.
///
/// The text does not depend on how the data is cut into pieces.
/// [`finalize`](Encoder::finalize) writes its end, or dropping the encoder does.
///
/// ```
/// static BASE32: data_encoding::Encoding = data_encoding::BASE32;
///
/// let mut text = String::new();
/// let mut encoder = BASE32.new_encoder(&mut text);
/// encoder.append(b"fo");
/// encoder.append(b"obar");
/// encoder.finalize();
/// assert_eq!(text, "MZXW6YTBOI======");
/// ```
#[derive(Debug)]
pub struct Encoder<'a> {
    encoding: &'a Encoding,
    output: &'a mut String,
    held: [u8; ALIGN_LIMIT],
    held_len: usize,
}

impl<'a> Encoder<'a> {
    pub(crate) fn new(encoding: &'a Encoding, output: &'a mut String) -> Self {
        Encoder { encoding, output, held: [0; ALIGN_LIMIT], held_len: 0 }
    }

    /// Encodes `input`, and holds back the bytes of an incomplete block.
    pub fn append(&mut self, input: &[u8]) {
        let align = self.encoding.encode_align();
        let mut input = input;
        if self.held_len > 0 {
            let missing = align - self.held_len;
            input = self.hold(input, missing);
            if self.held_len < align {
                return;
            }
            self.flush();
        }
        let (whole, rest) = input.split_at(input.len() - input.len() % align);
        self.encoding.encode_append(whole, self.output);
        self.hold(rest, align);
    }

    /// Appends the text of the held bytes.
    pub fn finalize(self) {}

    /// Holds at most `most` bytes of `input`, and returns the rest.
    fn hold<'b>(&mut self, input: &'b [u8], most: usize) -> &'b [u8] {
        let (front, rest) = input.split_at(most.min(input.len()));
        let len = self.held_len + front.len();
        self.held[self.held_len..len].copy_from_slice(front);
        self.held_len = len;
        rest
    }

    fn flush(&mut self) {
        self.encoding.encode_append(&self.held[..self.held_len], self.output);
        self.held_len = 0;
    }
}

impl Drop for Encoder<'_> {
    fn drop(&mut self) {
        self.flush();
    }
}
