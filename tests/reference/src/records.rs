//! The reader: it stands on a lent file and hands out record after record
//! (01, The system file). Alone, a step refuses only with 1.

use crate::refusal::Refusal;

#[derive(Clone, Copy, Debug)]
pub struct Reader<'a> {
    pub file: &'a [u8],
    pub offset: usize,
}

#[derive(Clone, Copy, Debug, PartialEq, Eq)]
pub struct Record<'a> {
    pub kind: u16,
    pub body: &'a [u8],
}

pub fn two_bytes(file: &[u8], at: usize) -> u16 {
    u16::from_le_bytes([file[at], file[at + 1]])
}

/// Whether `count` bytes stand from `at` on, without a sum that could overflow.
pub fn present(file: &[u8], at: usize, count: usize) -> bool {
    at <= file.len() && file.len() - at >= count
}

impl<'a> Reader<'a> {
    /// The next record; a refused step leaves the reader where it stands.
    pub fn step(&mut self) -> Result<Record<'a>, Refusal> {
        let at = self.offset;
        if !present(self.file, at, 4) {
            return Err(Refusal::at(1, at));
        }
        let length = two_bytes(self.file, at) as usize;
        if !present(self.file, at + 4, length) {
            return Err(Refusal::at(1, at));
        }
        self.offset = at + 4 + length;
        Ok(Record {
            kind: two_bytes(self.file, at + 2),
            body: &self.file[at + 4..self.offset],
        })
    }
}
