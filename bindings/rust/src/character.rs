/// The role of a byte in the texts of an encoding.
#[derive(Debug, Clone, Copy, PartialEq, Eq)]
pub enum Character {
    /// A symbol, or a byte that is translated to one.
    Symbol {
        /// The value of the symbol, below the number of symbols.
        value: usize,
    },

    /// The padding character, or a byte that is translated to it.
    Padding,

    /// A byte that decoding ignores.
    Ignored,

    /// A byte that is not allowed in a text.
    Invalid,
}

impl Character {
    /// Returns the value of a symbol, and `None` for any other byte.
    #[must_use]
    pub fn is_symbol(self) -> Option<usize> {
        match self {
            Character::Symbol { value } => Some(value),
            _ => None,
        }
    }

    /// Returns `true` for padding.
    #[must_use]
    pub fn is_padding(self) -> bool {
        self == Character::Padding
    }

    /// Returns `true` for a byte that decoding ignores.
    #[must_use]
    pub fn is_ignored(self) -> bool {
        self == Character::Ignored
    }

    /// Returns `true` for a byte that is not allowed in a text.
    #[must_use]
    pub fn is_invalid(self) -> bool {
        self == Character::Invalid
    }
}
