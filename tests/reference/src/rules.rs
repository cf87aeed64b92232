//! What becomes of a box, by its numbers (01, One visit).

use crate::boxes::SubBox;
use crate::cut::can_be_cut;
use crate::head::Head;

#[derive(Clone, Copy, Debug, PartialEq, Eq)]
pub enum Sign {
    Above,
    Below,
}

/// Polynomials count from 1. Directions count from 0 here and from 1 where printed.
#[derive(Clone, Copy, Debug, PartialEq, Eq)]
pub enum Fate {
    Dropped { polynomial: usize, sign: Sign },
    Kept { mark: i64 },
    Cut { r: usize },
}

/// The answer of a run.
#[derive(Clone, Copy, Debug, PartialEq, Eq)]
pub enum Answer {
    Finished,
    Spent,
    Full,
}

impl Answer {
    pub fn word(&self) -> &'static str {
        match self {
            Answer::Finished => "finished",
            Answer::Spent => "spent",
            Answer::Full => "full",
        }
    }
}

/// The four steps of a visit, in their order.
pub fn fate(head: &Head, sub_box: &SubBox, numbers: &[i64]) -> Fate {
    for (p, of_one) in numbers.chunks(head.size()).enumerate() {
        if let Some(sign) = strict_sign(of_one) {
            let polynomial = p + 1;
            return Fate::Dropped { polynomial, sign };
        }
    }
    match direction(head, sub_box) {
        None => Fate::Kept { mark: 1 },
        Some(r) if !can_be_cut(head, r, numbers) => Fate::Kept { mark: 2 },
        Some(r) => Fate::Cut { r },
    }
}

/// The sign that all numbers share. Zero is neither.
fn strict_sign(numbers: &[i64]) -> Option<Sign> {
    if numbers.iter().all(|number| *number > 0) {
        Some(Sign::Above)
    } else if numbers.iter().all(|number| *number < 0) {
        Some(Sign::Below)
    } else {
        None
    }
}

/// The fewest cuts among the directions below their depth, ties to the lowest.
pub fn direction(head: &Head, sub_box: &SubBox) -> Option<usize> {
    (0..3)
        .filter(|r| sub_box.cuts[*r] < head.depths[*r] as i64)
        .min_by_key(|r| (sub_box.cuts[*r], *r))
}
