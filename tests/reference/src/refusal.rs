//! The numbered refusals (01, Refusal numbers).

use std::fmt;

#[derive(Clone, Copy, Debug, PartialEq, Eq)]
pub struct Refusal {
    pub number: u8,
    pub offset: usize,
}

impl Refusal {
    /// A refusal while a file is read.
    pub fn at(number: u8, offset: usize) -> Refusal {
        Refusal { number, offset }
    }

    /// A refusal of every other call: its offset is 0.
    pub fn of(number: u8) -> Refusal {
        Refusal { number, offset: 0 }
    }
}

impl fmt::Display for Refusal {
    fn fmt(&self, out: &mut fmt::Formatter) -> fmt::Result {
        write!(out, "refused {} at {}", self.number, self.offset)
    }
}
