//! The number of a refusal in words.

use std::fmt;

/// A refusal by its number. It prints as the words that `velichundam_why` of the header has for it.
#[derive(Clone, Copy, Debug, PartialEq, Eq)]
pub struct Refusal(pub i64);

impl Refusal {
    /// What the number means. Any other number is an unknown refusal.
    pub const fn why(self) -> &'static str {
        match self.0 {
            1 => "the records table is not sound",
            2 => "the positions table is not sound",
            3 => "a figure or a count is out of range",
            4 => "the new id has a record",
            5 => "no such record",
            6 => "the record is of another account or series",
            7 => "the record's status does not allow it",
            8 => "the record is to close",
            9 => "this pair stood earlier in the list",
            10 => "the side differs from the first source's",
            11 => "the sum of the quantities does not fit",
            12 => "the account holds less than the quantity",
            13 => "no suffix is left",
            14 => "no room for the records or the text",
            15 => "no room for the new positions",
            16 => "a position would leave its range",
            17 => "the record is under give-up",
            18 => "the process is taken, unknown or not at this step",
            19 => "the process table is not sound",
            23 => "no room for the new process",
            _ => "unknown refusal",
        }
    }
}

impl fmt::Display for Refusal {
    fn fmt(&self, f: &mut fmt::Formatter<'_>) -> fmt::Result {
        f.pad(self.why())
    }
}

impl std::error::Error for Refusal {}
