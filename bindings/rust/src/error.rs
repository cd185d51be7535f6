use core::error::Error;
use core::fmt;

/// The kinds of faults of a text.
#[derive(Debug, Clone, Copy, PartialEq, Eq)]
pub enum DecodeKind {
    /// No valid text has this length.
    Length,

    /// A byte is not a symbol.
    Symbol,

    /// The bits after the last byte are not zeros.
    Trailing,

    /// The number of padding characters is wrong.
    Padding,
}

impl fmt::Display for DecodeKind {
    fn fmt(&self, formatter: &mut fmt::Formatter<'_>) -> fmt::Result {
        formatter.write_str(match self {
            DecodeKind::Length => "invalid length",
            DecodeKind::Symbol => "invalid symbol",
            DecodeKind::Trailing => "non-zero trailing bits",
            DecodeKind::Padding => "invalid padding length",
        })
    }
}

/// The fault of a text.
#[derive(Debug, Clone, Copy, PartialEq, Eq)]
pub struct DecodeError {
    /// The index of the invalid byte. For [`DecodeKind::Length`] in an encoding that ignores no
    /// byte: the greatest valid length below the length of the text.
    pub position: usize,

    /// The kind of the fault.
    pub kind: DecodeKind,
}

impl fmt::Display for DecodeError {
    fn fmt(&self, formatter: &mut fmt::Formatter<'_>) -> fmt::Result {
        write!(formatter, "{} at {}", self.kind, self.position)
    }
}

impl Error for DecodeError {}

/// The result of decoding an invalid text.
#[derive(Debug, Clone, Copy, PartialEq, Eq)]
pub struct DecodePartial {
    /// The number of bytes of the text that were decoded, at most the position of the fault.
    pub read: usize,

    /// The number of bytes of data that were written: the data of the first `read` bytes.
    pub written: usize,

    /// The fault.
    pub error: DecodeError,
}

/// The error of an invalid [`Specification`](crate::Specification).
#[derive(Debug, Clone, Copy)]
#[cfg(feature = "alloc")]
pub struct SpecificationError(pub(crate) Refusal);

/// The kinds of errors, with the names that `Debug` prints.
#[derive(Debug, Clone, Copy)]
#[cfg(feature = "alloc")]
pub(crate) enum Refusal {
    BadSize,
    NotAscii,
    Duplicate(u8),
    ExtraPadding,
    WrapLength,
    WrapWidth(u8),
    FromTo,
    Undefined(u8),
}

#[cfg(feature = "alloc")]
impl fmt::Display for SpecificationError {
    fn fmt(&self, formatter: &mut fmt::Formatter<'_>) -> fmt::Result {
        match self.0 {
            Refusal::Duplicate(byte) => {
                write!(formatter, "{:?} has conflicting definitions", char::from(byte))
            }
            Refusal::WrapWidth(group) => write!(formatter, "wrap width not a multiple of {group}"),
            Refusal::Undefined(byte) => write!(formatter, "{:?} is undefined", char::from(byte)),
            other => formatter.write_str(other.in_general()),
        }
    }
}

#[cfg(feature = "alloc")]
impl Error for SpecificationError {
    fn description(&self) -> &str {
        self.0.in_general()
    }
}

#[cfg(feature = "alloc")]
impl Refusal {
    /// Returns the message without its character or number.
    fn in_general(self) -> &'static str {
        match self {
            Refusal::BadSize => "invalid number of symbols",
            Refusal::NotAscii => "non-ascii character",
            Refusal::Duplicate(_) => "conflicting definitions",
            Refusal::ExtraPadding => "unnecessary padding",
            Refusal::WrapLength => "invalid wrap width or separator length",
            Refusal::WrapWidth(_) => "wrap width not a multiple",
            Refusal::FromTo => "translate from/to length mismatch",
            Refusal::Undefined(_) => "undefined character",
        }
    }
}
