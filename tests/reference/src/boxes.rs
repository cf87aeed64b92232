//! A box, its two halves in a direction, and its middle and half width
//! (01, The numbers of a box; 01, Runs).

use crate::refusal::Refusal;

/// Three counts of cuts and three positions. Signed, so that a bad box can be
/// held and refused.
#[derive(Clone, Copy, Debug, PartialEq, Eq, Default)]
pub struct SubBox {
    pub cuts: [i64; 3],
    pub positions: [i64; 3],
}

#[derive(Clone, Copy, Debug, PartialEq, Eq)]
pub enum Half {
    Lower,
    Upper,
}

/// A fraction with a power of two below: numerator / 2^shift.
#[derive(Clone, Copy, Debug, PartialEq, Eq)]
pub struct Fraction {
    pub numerator: i64,
    pub shift: i64,
}

impl Fraction {
    pub fn double(&self) -> f64 {
        self.numerator as f64 / (1i64 << self.shift) as f64
    }
}

impl SubBox {
    pub const UNIT: SubBox = SubBox {
        cuts: [0; 3],
        positions: [0; 3],
    };

    /// In the order of a slot: s1, k1, s2, k2, s3, k3.
    pub fn from_numbers(numbers: [i64; 6]) -> SubBox {
        SubBox {
            cuts: [numbers[0], numbers[2], numbers[4]],
            positions: [numbers[1], numbers[3], numbers[5]],
        }
    }

    pub fn numbers(&self) -> [i64; 6] {
        let (s, k) = (self.cuts, self.positions);
        [s[0], k[0], s[1], k[1], s[2], k[2]]
    }

    pub fn cuts_in_all(&self) -> i64 {
        self.cuts.iter().sum()
    }

    /// Whether each s is at most its depth and each k below 2^s, none negative.
    pub fn within(&self, depths: [usize; 3]) -> bool {
        (0..3).all(|r| {
            let (s, k) = (self.cuts[r], self.positions[r]);
            0 <= s && s <= depths[r] as i64 && 0 <= k && k < 1 << s
        })
    }

    /// What every call that takes a box refuses.
    fn check(&self) -> Result<(), Refusal> {
        match self.within([10; 3]) {
            true => Ok(()),
            false => Err(Refusal::of(10)),
        }
    }

    /// The half itself, of a box that can have one. Directions count from 0 here.
    pub fn halved(&self, r: usize, half: Half) -> SubBox {
        let mut child = *self;
        child.cuts[r] += 1;
        child.positions[r] = 2 * self.positions[r] + (half == Half::Upper) as i64;
        child
    }

    /// The call: a half in direction 1, 2 or 3.
    pub fn half(&self, direction: i64, half: Half) -> Result<SubBox, Refusal> {
        self.check()?;
        if !(1..=3).contains(&direction) {
            return Err(Refusal::of(10));
        }
        let r = direction as usize - 1;
        match self.cuts[r] {
            10 => Err(Refusal::of(10)),
            _ => Ok(self.halved(r, half)),
        }
    }

    /// The middles, (2k+1)/2^(s+1) per direction.
    pub fn middles(&self) -> Result<[Fraction; 3], Refusal> {
        self.check()?;
        Ok([0, 1, 2].map(|r| Fraction {
            numerator: 2 * self.positions[r] + 1,
            shift: self.cuts[r] + 1,
        }))
    }

    /// The half widths, 1/2^(s+1) per direction.
    pub fn half_widths(&self) -> Result<[Fraction; 3], Refusal> {
        self.check()?;
        Ok([0, 1, 2].map(|r| Fraction {
            numerator: 1,
            shift: self.cuts[r] + 1,
        }))
    }
}
