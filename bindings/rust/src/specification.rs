use alloc::string::String;

use crate::encoding::Encoding;
use crate::layout::Layout;
use crate::{ffi, Character, SpecificationError};

/// The order of the bits of a byte.
///
/// ```
/// use data_encoding::{BitOrder, Specification};
///
/// let mut binary = Specification::new();
/// binary.symbols.push_str("01");
/// assert_eq!(binary.encoding().unwrap().encode(&[6]), "00000110");
/// binary.bit_order = BitOrder::LeastSignificantFirst;
/// assert_eq!(binary.encoding().unwrap().encode(&[6]), "01100000");
/// ```
#[derive(Debug, Clone, Copy, PartialEq, Eq)]
pub enum BitOrder {
    /// The bit of weight 128 comes first, as in RFC 4648.
    MostSignificantFirst,

    /// The bit of weight 1 comes first.
    LeastSignificantFirst,
}

/// A translation: bytes that are decoded like others.
#[derive(Debug, Clone)]
pub struct Translate {
    /// The bytes to translate. A byte that is already defined must have the same meaning.
    pub from: String,

    /// The bytes that they are decoded like, index by index. Its length equals the length of
    /// `from`.
    pub to: String,
}

/// The lines of a text. There are no lines if the width is 0 or the separator is empty.
#[derive(Debug, Clone)]
pub struct Wrap {
    /// The number of characters of a line, at most 255. It is a multiple of the symbols of a group:
    /// 8 for symbols of 1, 3 and 5 bits, 4 for symbols of 2 and 6 bits, and 2 for symbols of 4
    /// bits.
    pub width: usize,

    /// The separator after each line, also the last: at most 255 bytes, which decoding ignores.
    pub separator: String,
}

/// The parameters of an encoding.
///
/// A byte has at most one meaning: a symbol, padding, or ignored.
///
/// ```
/// use data_encoding::Specification;
///
/// let mut specification = Specification::new();
/// specification.symbols.push_str("01234567");
/// specification.padding = Some('=');
/// specification.ignore.push(' ');
/// let octal = specification.encoding().unwrap();
/// assert_eq!(octal.encode(b"Hi"), "220644==");
/// assert_eq!(octal.decode(b"220 644 =="), Ok(b"Hi".to_vec()));
///
/// specification.ignore.push('7');
/// let error = specification.encoding().unwrap_err();
/// assert_eq!(error.to_string(), "'7' has conflicting definitions");
/// ```
#[derive(Debug, Clone)]
pub struct Specification {
    /// The symbols in order of value: 2, 4, 8, 16, 32 or 64 ASCII characters.
    pub symbols: String,

    /// The order of the bits of a byte. The default is the most significant bit first.
    pub bit_order: BitOrder,

    /// If `true`, the default, the bits after the last byte must be zeros. Symbols of 1, 2 and 4
    /// bits have no such bits, and count as checked.
    pub check_trailing_bits: bool,

    /// The character that fills the last group of a text. The default is `None`: no padding.
    pub padding: Option<char>,

    /// Bytes that decoding ignores, anywhere in a text.
    pub ignore: String,

    /// The lines of a text.
    pub wrap: Wrap,

    /// Bytes that are decoded like others.
    pub translate: Translate,
}

impl Specification {
    /// Returns a specification with the defaults, and without symbols.
    #[must_use]
    pub fn new() -> Specification {
        Specification {
            symbols: String::new(),
            bit_order: BitOrder::MostSignificantFirst,
            check_trailing_bits: true,
            padding: None,
            ignore: String::new(),
            wrap: Wrap { width: 0, separator: String::new() },
            translate: Translate { from: String::new(), to: String::new() },
        }
    }

    /// Returns the encoding.
    ///
    /// # Errors
    ///
    /// Returns an error if the specification is invalid.
    pub fn encoding(&self) -> Result<Encoding, SpecificationError> {
        ffi::build(self).map(Encoding::built)
    }

    /// Returns the specification of a layout.
    pub(crate) fn of(layout: Layout<'_>) -> Self {
        let mut specification = Specification::new();
        specification.symbols.extend(layout.symbols().iter().copied().map(char::from));
        if !layout.is_most_significant_first() {
            specification.bit_order = BitOrder::LeastSignificantFirst;
        }
        specification.check_trailing_bits = layout.checks_trailing_bits();
        specification.padding = layout.padding().map(char::from);
        specification.wrap.width = layout.line_width().unwrap_or(0);
        specification.wrap.separator.extend(layout.separator().iter().copied().map(char::from));
        for byte in 0..128 {
            specification.add_meaning(layout, byte);
        }
        specification
    }

    /// Adds the byte to `ignore` or `translate`, if the layout has it so.
    fn add_meaning(&mut self, layout: Layout<'_>, byte: u8) {
        let read_as = match layout.character(byte) {
            Character::Invalid => return,
            Character::Ignored => return self.ignore.push(char::from(byte)),
            Character::Padding => layout.padding(),
            Character::Symbol { value } => Some(layout.symbols()[value]),
        };
        if let Some(read_as) = read_as.filter(|&other| other != byte) {
            self.translate.from.push(char::from(byte));
            self.translate.to.push(char::from(read_as));
        }
    }
}

impl Default for Specification {
    fn default() -> Self {
        Self::new()
    }
}
