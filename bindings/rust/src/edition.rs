//! Editions of M17 addresses.

/// An edition of M17 addresses (document 02, \[10\]). One is used throughout with a codeplug and its history; the crate's page says why.
#[derive(Clone, Copy, Debug, PartialEq, Eq, Hash)]
pub enum Edition {
    /// 1 to 262,143,999,999,999 are callsigns of 1 to 9 characters, 0xFFFFFFFFFFFF is broadcast.
    Older = 0,
    /// The same, and 262,144,000,000,000 to 268,697,599,999,999 are hash addresses: a hash sign and then the text, of at most eight
    /// characters, of the number less 262,144,000,000,000.
    Newer = 1,
}

impl Edition {
    /// As the functions of bindings/c/include/codeplug.h take it.
    pub(crate) fn number(self) -> u32 {
        self as u32
    }
}
