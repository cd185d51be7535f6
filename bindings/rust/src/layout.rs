//! The layout of an encoding: bytes that say all of it, with the fields
//!
//! | Bytes | Hold |
//! |---|---|
//! | 0 to 255 | the symbols in order of value, repeated |
//! | 256 to 511 | the meaning of each byte: the value of a symbol, or one of the constants below |
//! | 512 | the padding character, or `INVALID` |
//! | 513 | the bits of a symbol, and flags |
//! | from 514 | the characters of a line, and its separator; one 0 if there are no lines, but a byte is ignored |

use crate::Character;

const MEANINGS: usize = 256;
const PADDING_AT: usize = 512;
const FLAGS_AT: usize = 513;
const LINES_AT: usize = 514;

const INVALID: u8 = 128;
const IGNORED: u8 = 129;
const PADDING: u8 = 130;

const BIT_WIDTH: u8 = 7;
const MOST_SIGNIFICANT_FIRST: u8 = 8;
const CHECK_TRAILING_BITS: u8 = 16;

/// The fields of a layout.
#[derive(Clone, Copy)]
pub(crate) struct Layout<'a>(&'a [u8]);

impl<'a> Layout<'a> {
    #[inline]
    pub(crate) const fn new(bytes: &'a [u8]) -> Self {
        Layout(bytes)
    }

    #[inline]
    pub(crate) const fn bit_width(self) -> usize {
        (self.0[FLAGS_AT] & BIT_WIDTH) as usize
    }

    #[inline]
    pub(crate) const fn padding(self) -> Option<u8> {
        match self.0[PADDING_AT] {
            INVALID => None,
            byte => Some(byte),
        }
    }

    /// Returns how many bytes a text means at most, by its length.
    #[inline]
    pub(crate) const fn due(self) -> Due {
        let bit_width = self.bit_width() as u8;
        if self.padding().is_none() {
            return Due { symbols_shift: 0, factor: bit_width, bits_shift: 3 };
        }
        // A group is the least number of symbols that are whole bytes.
        let shared = bit_width.trailing_zeros();
        Due { symbols_shift: 3 - shared as u8, factor: bit_width >> shared, bits_shift: 0 }
    }

    pub(crate) fn character(self, byte: u8) -> Character {
        match self.0[MEANINGS + usize::from(byte)] {
            INVALID => Character::Invalid,
            IGNORED => Character::Ignored,
            PADDING => Character::Padding,
            value => Character::Symbol { value: usize::from(value) },
        }
    }

    /// The characters of a line, if there are lines.
    pub(crate) fn line_width(self) -> Option<usize> {
        self.0.get(LINES_AT).map(|&width| usize::from(width)).filter(|&width| width > 0)
    }
}

/// Returns the most bytes that a text means: with padding the bytes of its whole groups, and
/// without padding the bytes of its bits.
#[derive(Clone, Copy)]
pub(crate) struct Due {
    /// A group has two to the power of this symbols; 0 where symbols are counted.
    symbols_shift: u8,
    /// The bytes of a group, or the bits of a symbol.
    factor: u8,
    /// A byte has two to the power of this bits; 0 where bytes are counted.
    bits_shift: u8,
}

impl Due {
    /// Returns how many bytes a text means at most, if some text has `len` bytes.
    #[inline]
    pub(crate) fn most(self, len: usize) -> usize {
        ((len >> self.symbols_shift) * usize::from(self.factor)) >> self.bits_shift
    }
}

#[cfg(feature = "alloc")]
impl<'a> Layout<'a> {
    pub(crate) fn symbols(self) -> &'a [u8] {
        &self.0[..1 << self.bit_width()]
    }

    /// The separator of lines, if there are lines.
    pub(crate) fn separator(self) -> &'a [u8] {
        self.0.get(LINES_AT + 1..).unwrap_or_default()
    }

    pub(crate) fn is_most_significant_first(self) -> bool {
        self.0[FLAGS_AT] & MOST_SIGNIFICANT_FIRST != 0
    }

    pub(crate) fn checks_trailing_bits(self) -> bool {
        self.0[FLAGS_AT] & CHECK_TRAILING_BITS != 0
    }
}

/// The parts of the layout of a predefined encoding.
pub(crate) struct Form {
    pub(crate) symbols: &'static [u8],
    pub(crate) padding: Option<u8>,
    /// The characters of a line, and its separator.
    pub(crate) lines: Option<(u8, &'static [u8])>,
    /// Each byte of the first has the meaning of the symbol of the second at its position.
    pub(crate) translate: (&'static [u8], &'static [u8]),
    pub(crate) most_significant_first: bool,
    pub(crate) check_trailing_bits: bool,
}

impl Form {
    /// The form of symbols, and of nothing but the defaults.
    pub(crate) const fn new(symbols: &'static [u8]) -> Self {
        Form {
            symbols,
            padding: None,
            lines: None,
            translate: (b"", b""),
            most_significant_first: true,
            check_trailing_bits: true,
        }
    }

    /// Returns the layout, which has `LEN` bytes.
    pub(crate) const fn layout<const LEN: usize>(&self) -> [u8; LEN] {
        let mut layout = self.symbols_and_meanings();
        let (from, to) = self.translate;
        let mut index = 0;
        while index < from.len() {
            layout[MEANINGS + from[index] as usize] = layout[MEANINGS + to[index] as usize];
            index += 1;
        }
        layout[FLAGS_AT] = self.flags();
        if let Some(byte) = self.padding {
            layout[MEANINGS + byte as usize] = PADDING;
            layout[PADDING_AT] = byte;
        }
        if let Some((width, separator)) = self.lines {
            layout[LINES_AT] = width;
            let mut index = 0;
            while index < separator.len() {
                layout[MEANINGS + separator[index] as usize] = IGNORED;
                layout[LINES_AT + 1 + index] = separator[index];
                index += 1;
            }
        }
        layout
    }

    /// Returns a layout with the symbols. Any other byte is invalid.
    const fn symbols_and_meanings<const LEN: usize>(&self) -> [u8; LEN] {
        let mut layout = [INVALID; LEN];
        let mut index = 0;
        while index < MEANINGS {
            layout[index] = self.symbols[index % self.symbols.len()];
            index += 1;
        }
        let mut value = 0;
        while value < self.symbols.len() {
            layout[MEANINGS + self.symbols[value] as usize] = value as u8;
            value += 1;
        }
        layout
    }

    const fn flags(&self) -> u8 {
        let mut flags = self.symbols.len().trailing_zeros() as u8;
        if self.most_significant_first {
            flags |= MOST_SIGNIFICANT_FIRST;
        }
        if self.check_trailing_bits {
            flags |= CHECK_TRAILING_BITS;
        }
        flags
    }
}
