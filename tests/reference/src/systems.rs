//! Seeded systems of all shapes, every one of them valid.

use crate::head::{Head, COEFFICIENT_LIMIT};
use crate::random::Random;

#[derive(Clone, Debug)]
pub struct System {
    pub head: Head,
    pub coefficients: Vec<i64>,
}

/// A head with any counts and degrees, no depth above `deepest`.
pub fn any_head(random: &mut Random, deepest: usize) -> Head {
    loop {
        let mut head = Head {
            variables: 1 + random.below(3),
            polynomials: 1 + random.below(3),
            degrees: [0; 3],
            depths: [0; 3],
        };
        for r in 0..head.variables {
            head.degrees[r] = random.below(7);
            head.depths[r] = random.below(deepest + 1);
        }
        if head.check().is_ok() {
            return head;
        }
    }
}

/// Coefficients of size up to `limit`; about one in `sparse` is not zero.
pub fn any_coefficients(random: &mut Random, head: &Head, limit: i64, sparse: usize) -> Vec<i64> {
    let mut coefficient = || match random.once_in(sparse) {
        true => random.between(-limit, limit),
        false => 0,
    };
    (0..head.all_terms()).map(|_| coefficient()).collect()
}

/// Every coefficient at an end of the range, or zero.
pub fn extreme(random: &mut Random, head: Head) -> System {
    let ends = [-COEFFICIENT_LIMIT, 0, COEFFICIENT_LIMIT];
    System {
        head,
        coefficients: (0..head.all_terms()).map(|_| random.pick(&ends)).collect(),
    }
}

/// A rational point: a numerator and a denominator per direction.
pub type Point = [(i64, i64); 3];

/// All polynomials are zero at one rational point of the unit box: each is a sum
/// of (q x_r - X) times something, over the directions r that have a degree.
pub fn planted_at(random: &mut Random, head: Head) -> (System, Point) {
    let mut coefficients = vec![0; head.all_terms()];
    let mut point = [(0, 1); 3];
    for r in (0..3).filter(|r| head.degrees[*r] > 0) {
        let q = random.between(1, 9);
        let x = random.between(0, q);
        point[r] = (x, q);
        for polynomial in 0..head.polynomials {
            for term in head.terms() {
                if term[r] == head.degrees[r] || random.once_in(2) {
                    continue;
                }
                let mut raised = term;
                raised[r] += 1;
                let base = polynomial * head.size();
                let factor = random.between(-5, 5);
                coefficients[base + head.place(term)] -= factor * x;
                coefficients[base + head.place(raised)] += factor * q;
            }
        }
    }
    (System { head, coefficients }, point)
}

pub fn planted(random: &mut Random, head: Head) -> System {
    planted_at(random, head).0
}

/// Each polynomial multiplied until its largest coefficient is near the limit.
pub fn enlarged(random: &mut Random, mut system: System) -> System {
    for polynomial in system.coefficients.chunks_mut(system.head.size()) {
        let largest = polynomial.iter().map(|a| a.abs()).max().unwrap_or(0).max(1);
        let factor = COEFFICIENT_LIMIT / largest - random.between(0, 3);
        polynomial.iter_mut().for_each(|a| *a *= factor);
    }
    system
}

/// Some of the polynomials made zero.
pub fn some_zero(random: &mut Random, mut system: System) -> System {
    for polynomial in system.coefficients.chunks_mut(system.head.size()) {
        if random.once_in(2) {
            polynomial.fill(0);
        }
    }
    system
}

/// High degree, deep and large, with a zero: its numbers outgrow what can be cut.
pub fn outgrown(random: &mut Random) -> System {
    loop {
        let mut head = any_head(random, 10);
        for r in 0..head.variables {
            head.depths[r] = 5 + random.below(6);
        }
        head.degrees[0] = 4 + random.below(3);
        if head.check().is_ok() {
            let system = planted(random, head);
            return enlarged(random, system);
        }
    }
}

/// As many polynomials as variables, planted and deep: many visits, few kept.
pub fn deep(random: &mut Random) -> System {
    loop {
        let mut head = any_head(random, 10);
        head.variables = 2 + random.below(2);
        head.polynomials = head.variables;
        for r in 0..head.variables {
            head.degrees[r] = 1 + random.below(4);
            head.depths[r] = 6 + random.below(5);
        }
        if head.check().is_ok() {
            return planted(random, head);
        }
    }
}

/// Zero polynomials that fill a list of 1,024 exactly (D = 10) or overfill it.
pub fn filling(random: &mut Random) -> System {
    let exact = random.once_in(2);
    loop {
        let head = any_head(random, 10);
        let depth = head.total_depth();
        if (exact && depth == 10) || (!exact && depth > 10) {
            let coefficients = vec![0; head.all_terms()];
            return System { head, coefficients };
        }
    }
}

/// c (3x - 1)² + 1 in three variables: no zero, but a box around x = 1/3 of width
/// h has the number 1 - 2 c h² inside, so it is dropped only where h = 1/1,024.
/// There are more than a million visits before that.
pub fn tireless(random: &mut Random) -> System {
    let head = Head {
        variables: 3,
        polynomials: 1 + random.below(2),
        degrees: [2, random.below(2), random.below(2)],
        depths: [10; 3],
    };
    let mut coefficients = vec![0; head.all_terms()];
    let c = random.between(140_000, 520_000);
    for (i, value) in [c + 1, -6 * c, 9 * c].into_iter().enumerate() {
        coefficients[head.place([i, 0, 0])] = value;
    }
    System { head, coefficients }
}
