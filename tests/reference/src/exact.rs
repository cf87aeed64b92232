//! The stored numbers of a box, by document 004's formula (2) on that very box
//! (01, The numbers of a box). No line is ever cut here.
//!
//! Both sums, the substituted polynomial and formula (2), are products over the
//! directions, so they are taken direction by direction. Each is multiplied out:
//! with (k+y)/2^s put for x and times 2^(n·s), the coefficient of y^t is
//! the sum over i ≥ t of C(i,t) k^(i-t) 2^(s(n-i)) a_i.

use crate::boxes::SubBox;
use crate::head::Head;
use crate::wide::Wide;

/// M: no stored number exceeds it in size.
pub const LARGEST: i64 = (1 << 62) - 1;

/// factors[to][from] of a sum along one direction.
type Factors = [[i64; 7]; 7];

pub fn binomial(n: usize, i: usize) -> i64 {
    let choices = (0..i).fold(1, |product, t| product * (n - t) as i64);
    choices / (1..=i as i64).product::<i64>()
}

/// A direction's factor of the scale: the least common multiple of C(n,0)..C(n,n).
pub fn scale(degree: usize) -> i64 {
    [1, 1, 2, 3, 12, 10, 60][degree]
}

/// (k+y)/2^s put for x, times 2^(n·s).
fn substitution(n: usize, s: i64, k: i64) -> Factors {
    let mut factors = [[0; 7]; 7];
    for (t, row) in factors.iter_mut().enumerate().take(n + 1) {
        for (i, factor) in row.iter_mut().enumerate().take(n + 1).skip(t) {
            *factor = binomial(i, t) * k.pow((i - t) as u32) * (1 << (s * (n - i) as i64));
        }
    }
    factors
}

/// Formula (2), times the scale: C(j,t) / C(n,t).
fn formula(n: usize) -> Factors {
    let mut factors = [[0; 7]; 7];
    for (j, row) in factors.iter_mut().enumerate().take(n + 1) {
        for (t, factor) in row.iter_mut().enumerate().take(j + 1) {
            *factor = binomial(j, t) * (scale(n) / binomial(n, t));
        }
    }
    factors
}

/// The sum along direction r at every place.
fn summed(head: &Head, r: usize, factors: &Factors, values: &[Wide]) -> Vec<Wide> {
    let sum = |to: [usize; 3]| {
        (0..=head.degrees[r]).fold(Wide::ZERO, |sum, from| {
            let mut term = to;
            term[r] = from;
            let factor = factors[to[r]][from];
            match factor {
                0 => sum,
                _ => sum.plus(values[head.place(term)].times(factor)),
            }
        })
    };
    head.terms().into_iter().map(sum).collect()
}

/// One polynomial's numbers on a box, of any size.
pub fn wide_numbers(head: &Head, polynomial: &[i64], sub_box: &SubBox) -> Vec<Wide> {
    let mut values: Vec<Wide> = polynomial.iter().map(|a| Wide::of(*a)).collect();
    for r in 0..3 {
        let (s, k) = (sub_box.cuts[r], sub_box.positions[r]);
        let n = head.degrees[r];
        values = summed(head, r, &substitution(n, s, k), &values);
        values = summed(head, r, &formula(n), &values);
    }
    values
}

/// All polynomials' numbers on a box that a fresh start reaches. There they
/// never exceed M; a number that did would be a fault of 01's rules.
pub fn numbers(head: &Head, coefficients: &[i64], sub_box: &SubBox) -> Vec<i64> {
    let polynomials = coefficients[..head.all_terms()].chunks(head.size());
    polynomials
        .flat_map(|polynomial| wide_numbers(head, polynomial, sub_box))
        .map(|wide| {
            let number = wide.narrow().expect("a number beyond 64 bits");
            assert!((-LARGEST..=LARGEST).contains(&number), "beyond M");
            number
        })
        .collect()
}
