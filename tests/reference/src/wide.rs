//! Whole numbers of 192 bits. 128 do not suffice: degrees 6 and 6 at ten cuts
//! each make 2^120 times the coefficients. Every operation is checked.

/// high × 2^64 + low.
#[derive(Clone, Copy, Debug, PartialEq, Eq)]
pub struct Wide {
    high: i128,
    low: u64,
}

impl Wide {
    pub const ZERO: Wide = Wide { high: 0, low: 0 };

    pub fn of(value: i64) -> Wide {
        Wide {
            high: if value < 0 { -1 } else { 0 },
            low: value as u64,
        }
    }

    pub fn plus(self, other: Wide) -> Wide {
        let (low, carry) = self.low.overflowing_add(other.low);
        let high = self.high.checked_add(other.high);
        Wide {
            high: high
                .and_then(|sum| sum.checked_add(carry as i128))
                .expect("a sum beyond 192 bits"),
            low,
        }
    }

    pub fn times(self, factor: i64) -> Wide {
        let low = self.low as i128 * factor as i128;
        let high = self.high.checked_mul(factor as i128);
        Wide {
            // The shift of a signed number rounds down, as high × 2^64 + low needs.
            high: high
                .and_then(|product| product.checked_add(low >> 64))
                .expect("a product beyond 192 bits"),
            low: low as u64,
        }
    }

    /// The number as 64 bits, where it fits.
    pub fn narrow(self) -> Option<i64> {
        let value = self.low as i64;
        (Wide::of(value) == self).then_some(value)
    }
}
