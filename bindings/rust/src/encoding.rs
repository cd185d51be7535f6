#[cfg(feature = "alloc")]
use alloc::string::String;
#[cfg(feature = "alloc")]
use alloc::sync::Arc;
#[cfg(feature = "alloc")]
use alloc::vec::Vec;
use core::fmt;

use crate::ffi::{self, Handle};
use crate::layout::{Due, Layout};
use crate::{static_layout, Character, DecodeError, DecodePartial, Display};
#[cfg(feature = "alloc")]
use crate::{Encoder, Specification};

/// The length of the longest line with its separator.
const BUFFER_LEN: usize = 510;

/// A way to write data as text, and to read it back.
///
/// Two encodings are equal if their layouts are equal: then they write the same texts, and decode
/// the same texts to the same data. A clone does not allocate.
#[derive(Clone)]
pub struct Encoding(Source);

/// The representation of an encoding.
#[derive(Clone)]
enum Source {
    /// A predefined encoding, which the library knows by its number.
    Predefined { number: u32, due: Due, layout: &'static [u8] },
    /// A layout in the program, which is checked when it is used.
    Static(&'static [u8]),
    /// An encoding that was built from a specification.
    #[cfg(feature = "alloc")]
    Built(Arc<Built>),
}

#[cfg(feature = "alloc")]
struct Built {
    tables: ffi::Tables,
    layout: Vec<u8>,
}

impl Encoding {
    pub(crate) const fn predefined(number: u32, layout: &'static [u8]) -> Self {
        Encoding(Source::Predefined { number, due: Layout::new(layout).due(), layout })
    }

    #[cfg(feature = "alloc")]
    pub(crate) fn built(tables: ffi::Tables) -> Self {
        let layout = ffi::layout(&tables);
        Encoding(Source::Built(Arc::new(Built { tables, layout })))
    }

    /// Calls `call` with the handle of this encoding.
    #[inline]
    pub(crate) fn with<R>(&self, call: impl FnOnce(Handle<'_>) -> R) -> R {
        match self.0 {
            Source::Predefined { number, .. } => call(Handle::Number(number)),
            _ => self.with_tables(call),
        }
    }

    /// Like [`with`](Self::with), for an encoding without a number. Not inlined, so that calls of
    /// predefined encodings stay short.
    #[inline(never)]
    fn with_tables<R>(&self, call: impl FnOnce(Handle<'_>) -> R) -> R {
        let tables;
        call(match &self.0 {
            Source::Predefined { number, .. } => Handle::Number(*number),
            Source::Static(layout) => Handle::Tables(match static_layout::kept(layout) {
                Some(kept) => kept,
                None => {
                    tables = static_layout::read(layout);
                    &tables
                }
            }),
            #[cfg(feature = "alloc")]
            Source::Built(built) => Handle::Tables(&built.tables),
        })
    }

    /// Returns the fields of the layout. Checks a layout of the program first.
    fn layout(&self) -> Layout<'_> {
        if let Source::Static(_) = self.0 {
            self.with(|_| ());
        }
        self.fields()
    }

    #[inline]
    fn fields(&self) -> Layout<'_> {
        Layout::new(self.internal_implementation())
    }

    #[inline]
    fn due(&self) -> Due {
        match &self.0 {
            Source::Predefined { due, .. } => *due,
            _ => self.fields().due(),
        }
    }

    /// Returns the length of the text of `len` bytes of data.
    ///
    /// # Panics
    ///
    /// Panics if `len` is greater than `usize::MAX / 512`. To encode longer data, cut it at a
    /// multiple of [`encode_align`](Encoding::encode_align).
    #[must_use]
    #[inline]
    pub fn encode_len(&self, len: usize) -> usize {
        self.with(|encoding| ffi::encode_len(encoding, len))
    }

    /// Returns the block size: encoding blocks separately and joining their texts gives the text of
    /// all the data.
    ///
    /// ```
    /// use data_encoding::BASE64;
    ///
    /// assert_eq!(BASE64.encode_align(), 3);
    /// assert_eq!(BASE64.encode(b"foobar"), BASE64.encode(b"foo") + &BASE64.encode(b"bar"));
    /// ```
    #[must_use]
    pub fn encode_align(&self) -> usize {
        let layout = self.layout();
        let bit_width = layout.bit_width();
        match layout.line_width() {
            Some(width) => width * bit_width / 8,
            None => bit_width >> bit_width.trailing_zeros(),
        }
    }

    /// Writes the text of `input` to `output`.
    ///
    /// # Panics
    ///
    /// Panics if the length of `output` is not
    /// [`encode_len(input.len())`](Encoding::encode_len).
    ///
    /// ```
    /// use data_encoding::HEXLOWER;
    ///
    /// let mut text = [0; 4];
    /// HEXLOWER.encode_mut(b"Hi", &mut text);
    /// assert_eq!(&text, b"4869");
    /// ```
    #[inline]
    pub fn encode_mut(&self, input: &[u8], output: &mut [u8]) {
        self.encode_mut_str(input, output);
    }

    /// Writes the text of `input` to `output`, and returns it as a string.
    ///
    /// # Panics
    ///
    /// Panics if the length of `output` is not
    /// [`encode_len(input.len())`](Encoding::encode_len).
    #[inline]
    pub fn encode_mut_str<'a>(&self, input: &[u8], output: &'a mut [u8]) -> &'a str {
        let len = output.len();
        let text = self.with(|encoding| ffi::encode(encoding, input, output));
        assert!(text.len() == len, "the length of the output is not what `encode_len` says");
        text
    }

    /// Appends the text of `input` to `output`.
    ///
    /// ```
    /// use data_encoding::HEXUPPER;
    ///
    /// let mut line = String::from("0x");
    /// HEXUPPER.encode_append(&[0xca, 0xfe], &mut line);
    /// assert_eq!(line, "0xCAFE");
    /// ```
    #[cfg(feature = "alloc")]
    #[inline]
    pub fn encode_append(&self, input: &[u8], output: &mut String) {
        self.with(|encoding| {
            let len = ffi::encode_len(encoding, input.len());
            ffi::encode_append(encoding, input, len, output);
        });
    }

    /// Returns an encoder, which appends the text of data that comes in pieces to `output`.
    #[cfg(feature = "alloc")]
    pub fn new_encoder<'a>(&'a self, output: &'a mut String) -> Encoder<'a> {
        Encoder::new(self, output)
    }

    /// Writes the text of `input` to the writer `output`, through a buffer of 1024 bytes on the
    /// stack.
    ///
    /// # Errors
    ///
    /// Returns the error of the writer, which may have received part of the text.
    pub fn encode_write(&self, input: &[u8], output: &mut impl fmt::Write) -> fmt::Result {
        self.encode_write_buffer(input, output, &mut [0; 1024])
    }

    /// Writes the text of `input` to the writer `output`, through `buffer`.
    ///
    /// # Panics
    ///
    /// Panics if `buffer` is shorter than 510 bytes.
    ///
    /// # Errors
    ///
    /// Returns the error of the writer, which may have received part of the text.
    pub fn encode_write_buffer(
        &self,
        input: &[u8],
        output: &mut impl fmt::Write,
        buffer: &mut [u8],
    ) -> fmt::Result {
        assert!(buffer.len() >= BUFFER_LEN, "a buffer of less than {BUFFER_LEN} bytes");
        let align = self.encode_align();
        let parts = input.chunks(buffer.len() / self.encode_len(align) * align);
        self.with(|encoding| {
            for part in parts {
                output.write_str(ffi::encode(encoding, part, buffer))?;
            }
            Ok(())
        })
    }

    /// Returns a value that is formatted as the text of `input`.
    ///
    /// ```
    /// use data_encoding::BASE64URL_NOPAD;
    ///
    /// assert_eq!(format!("id={}", BASE64URL_NOPAD.encode_display(&[0xff, 0xef])), "id=_-8");
    /// ```
    #[must_use]
    pub fn encode_display<'a>(&'a self, input: &'a [u8]) -> Display<'a> {
        Display::new(self, input)
    }

    /// Returns the text of `input`.
    #[cfg(feature = "alloc")]
    #[must_use]
    #[inline]
    pub fn encode(&self, input: &[u8]) -> String {
        self.with(|encoding| {
            let len = ffi::encode_len(encoding, input.len());
            let mut output = String::with_capacity(len);
            ffi::encode_append(encoding, input, len, &mut output);
            output
        })
    }

    /// Returns the greatest number of bytes that a text of `len` bytes decodes to. A text with
    /// padding or ignored bytes decodes to fewer.
    ///
    /// # Panics
    ///
    /// Panics if `len` is greater than `usize::MAX / 8`.
    ///
    /// # Errors
    ///
    /// Returns [`DecodeKind::Length`](crate::DecodeKind::Length), with the greatest valid length
    /// below `len`, if no valid text has this length.
    #[inline]
    pub fn decode_len(&self, len: usize) -> Result<usize, DecodeError> {
        self.with(|encoding| ffi::decode_len(encoding, len))
    }

    /// Writes the data of the text `input` to the start of `output`, and returns its length. The
    /// rest of `output` is unspecified.
    ///
    /// # Panics
    ///
    /// Panics if the length of `output` is not [`decode_len(input.len())`](Encoding::decode_len),
    /// or if that is an error.
    ///
    /// # Errors
    ///
    /// Returns the fault of the text. The first `read` bytes of `input` then decode to the first
    /// `written` bytes of `output`. The fault is [`DecodeKind::Length`](crate::DecodeKind::Length)
    /// only if the encoding ignores bytes: otherwise `decode_len` returns it.
    ///
    /// ```
    /// use data_encoding::HEXLOWER;
    ///
    /// let mut data = [0; 3];
    /// assert_eq!(HEXLOWER.decode_mut(b"486921", &mut data), Ok(3));
    /// assert_eq!(&data, b"Hi!");
    /// let partial = HEXLOWER.decode_mut(b"48692x", &mut data).unwrap_err();
    /// assert_eq!((partial.read, partial.written, partial.error.position), (4, 2, 5));
    /// ```
    #[inline]
    pub fn decode_mut(&self, input: &[u8], output: &mut [u8]) -> Result<usize, DecodePartial> {
        self.with(|encoding| {
            let decoded = ffi::decode(encoding, input, output);
            // The library takes any output that holds the data.
            let fits = match decoded {
                Ok(_) => self.due().most(input.len()) == output.len(),
                Err(_) => ffi::is_most(encoding, input.len(), output.len()),
            };
            assert!(fits, "the length of the output is not what `decode_len` says");
            decoded
        })
    }

    /// Returns the data of the text `input`.
    ///
    /// # Errors
    ///
    /// Returns the fault of the text.
    #[cfg(feature = "alloc")]
    #[inline]
    pub fn decode(&self, input: &[u8]) -> Result<Vec<u8>, DecodeError> {
        self.with(|encoding| {
            let most = ffi::decode_len(encoding, input.len())?;
            ffi::decode_new(encoding, input, most).map_err(|partial| partial.error)
        })
    }

    /// Returns the number of bits of a symbol, from 1 to 6.
    #[must_use]
    pub fn bit_width(&self) -> usize {
        self.layout().bit_width()
    }

    /// Returns the role of a byte in the texts of this encoding.
    #[must_use]
    pub fn interpret_byte(&self, byte: u8) -> Character {
        self.layout().character(byte)
    }

    /// Returns `true` if no two different texts decode to the same data.
    #[must_use]
    pub fn is_canonical(&self) -> bool {
        self.with(ffi::is_canonical)
    }

    /// Returns a specification of this encoding.
    #[cfg(feature = "alloc")]
    #[must_use]
    pub fn specification(&self) -> Specification {
        Specification::of(self.layout())
    }

    /// Returns the encoding with this layout, as `data-encoding-macro` writes it. The first call
    /// that reads the layout checks it, and panics if the bytes are not a layout.
    #[doc(hidden)]
    #[must_use]
    pub const fn internal_new(implementation: &'static [u8]) -> Encoding {
        Encoding(Source::Static(implementation))
    }

    /// Returns the layout.
    #[doc(hidden)]
    #[must_use]
    #[inline]
    pub fn internal_implementation(&self) -> &[u8] {
        match &self.0 {
            Source::Predefined { layout, .. } | Source::Static(layout) => layout,
            #[cfg(feature = "alloc")]
            Source::Built(built) => &built.layout,
        }
    }
}

impl PartialEq for Encoding {
    fn eq(&self, other: &Self) -> bool {
        self.internal_implementation() == other.internal_implementation()
    }
}

impl Eq for Encoding {}

impl fmt::Debug for Encoding {
    fn fmt(&self, formatter: &mut fmt::Formatter<'_>) -> fmt::Result {
        formatter.debug_tuple("Encoding").field(&self.internal_implementation()).finish()
    }
}
