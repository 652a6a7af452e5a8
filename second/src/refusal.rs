//! A refusal with the place of what is refused in a sheet.

/// Why something is refused.
#[derive(Clone, Copy, Debug, PartialEq, Eq)]
pub struct Refusal {
    pub number: u8,
    /// Which profile of the list or which entry of the contents, counted from 1; 0 for a number that means neither.
    pub place: usize,
}

impl Refusal {
    /// A number for the profile or the entry with an index.
    pub(crate) fn of_index(number: u8, index: usize) -> Refusal {
        Refusal { number, place: index + 1 }
    }
}

impl From<u8> for Refusal {
    /// A number that means no profile and no entry.
    fn from(number: u8) -> Refusal {
        Refusal { number, place: 0 }
    }
}
