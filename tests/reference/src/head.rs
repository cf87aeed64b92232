//! The head of a system: eight values, their ranges, and the sizes that follow
//! from them (01, The system).

use crate::refusal::Refusal;

/// Power coefficients lie between minus this and this.
pub const COEFFICIENT_LIMIT: i64 = 1_000_000_000;

#[derive(Clone, Copy, Debug, PartialEq, Eq)]
pub struct Head {
    pub variables: usize,
    pub polynomials: usize,
    pub degrees: [usize; 3],
    pub depths: [usize; 3],
}

impl Head {
    /// The head as its eight bytes say it, checked or not.
    pub fn from_bytes(bytes: [u8; 8]) -> Head {
        let value = bytes.map(usize::from);
        Head {
            variables: value[0],
            polynomials: value[1],
            degrees: [value[2], value[3], value[4]],
            depths: [value[5], value[6], value[7]],
        }
    }

    /// l, m, n1, n2, n3, g1, g2, g3.
    pub fn values(&self) -> [usize; 8] {
        let (n, g) = (self.degrees, self.depths);
        let (l, m) = (self.variables, self.polynomials);
        [l, m, n[0], n[1], n[2], g[0], g[1], g[2]]
    }

    pub fn bytes(&self) -> [u8; 8] {
        self.values().map(|value| value as u8)
    }

    /// 4 unless every value is in its range and S is at most 64.
    pub fn check(&self) -> Result<(), Refusal> {
        let counts = (1..=3).contains(&self.variables) && (1..=3).contains(&self.polynomials);
        let directions = (0..3).all(|r| {
            let (degree, depth) = (self.degrees[r], self.depths[r]);
            let beyond = r >= self.variables;
            degree <= 6 && depth <= 10 && !(beyond && (degree > 0 || depth > 0))
        });
        if counts && directions && self.size() <= 64 {
            Ok(())
        } else {
            Err(Refusal::of(4))
        }
    }

    /// S: the terms of one polynomial.
    pub fn size(&self) -> usize {
        self.degrees.iter().map(|degree| degree + 1).product()
    }

    /// D: all the cuts that a box can have.
    pub fn total_depth(&self) -> usize {
        self.depths.iter().sum()
    }

    /// m × S: the coefficients of the system, or the numbers of one box.
    pub fn all_terms(&self) -> usize {
        self.polynomials * self.size()
    }

    /// The numbers in one slot of the waiting store.
    pub fn slot_length(&self) -> usize {
        6 + self.all_terms()
    }

    /// The numbers in D + 1 slots.
    pub fn store_length(&self) -> usize {
        (self.total_depth() + 1) * self.slot_length()
    }

    /// The place of term (i1, i2, i3).
    pub fn place(&self, term: [usize; 3]) -> usize {
        let n = self.degrees;
        (term[0] * (n[1] + 1) + term[1]) * (n[2] + 1) + term[2]
    }

    /// The terms in order of their places.
    pub fn terms(&self) -> Vec<[usize; 3]> {
        let n = self.degrees;
        let mut terms = Vec::new();
        for i1 in 0..=n[0] {
            for i2 in 0..=n[1] {
                for i3 in 0..=n[2] {
                    terms.push([i1, i2, i3]);
                }
            }
        }
        terms
    }
}

/// What start and write ask of their coefficients: 9, then 6. Those beyond the
/// first m × S are not looked at.
pub fn check_coefficients(head: &Head, coefficients: &[i64]) -> Result<(), Refusal> {
    if coefficients.len() < head.all_terms() {
        return Err(Refusal::of(9));
    }
    let range = -COEFFICIENT_LIMIT..=COEFFICIENT_LIMIT;
    let used = &coefficients[..head.all_terms()];
    match used.iter().all(|value| range.contains(value)) {
        true => Ok(()),
        false => Err(Refusal::of(6)),
    }
}
