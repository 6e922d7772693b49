//! "Refusal numbers": "Each returns its number and changes no lent octet."

/// A refusal of document 01's table, or of document 02.
#[derive(Debug, Clone, Copy, PartialEq, Eq)]
pub struct Refusal {
    /// The number in the table, 1 to 27; document 02 has 28 to 38.
    pub number: u8,
    /// "1-4 also return the offset of the section's count (1, 2), of the entry (3) or of the first octet
    /// too many (4); 15 returns the first signal at fault", counted from 0; "34 profile rule broken, with the
    /// entry's offset". 0 with every other number.
    pub carried: u64,
}

impl Refusal {
    /// A refusal that carries nothing.
    pub(crate) const fn plain(number: u8) -> Self {
        Refusal { number, carried: 0 }
    }

    /// A refusal with an offset (1-4, 34) or a signal number (15).
    pub(crate) const fn with(number: u8, carried: usize) -> Self {
        Refusal {
            number,
            carried: carried as u64,
        }
    }
}
