use core::fmt;

use crate::Encoding;

/// Data that is encoded when it is formatted.
///
/// [`Encoding::encode_display`] returns it.
#[derive(Debug)]
pub struct Display<'a> {
    encoding: &'a Encoding,
    input: &'a [u8],
}

impl<'a> Display<'a> {
    pub(crate) fn new(encoding: &'a Encoding, input: &'a [u8]) -> Self {
        Display { encoding, input }
    }
}

impl fmt::Display for Display<'_> {
    fn fmt(&self, formatter: &mut fmt::Formatter<'_>) -> fmt::Result {
        self.encoding.encode_write(self.input, formatter)
    }
}
