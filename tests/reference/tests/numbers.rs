//! The numbers of a box: the formula taken literally, the formula direction by
//! direction, and the cutting rule agree.

mod common;

use common::head;
use reference::boxes::{Half, SubBox};
use reference::cut::{can_be_cut, cut_numbers};
use reference::exact::{binomial, numbers, scale, wide_numbers};
use reference::head::Head;
use reference::random::Random;
use reference::systems::{any_coefficients, any_head};
use reference::wide::Wide;

/// Formula (2) of document 004 in one sum over I ≤ J, on the unit box.
fn literal(head: &Head, a: &[i64]) -> Vec<i64> {
    let n = head.degrees;
    let whole: i64 = n.iter().map(|degree| scale(*degree)).product();
    let sum = |j: [usize; 3]| {
        let below = |i: &[usize; 3]| (0..3).all(|r| i[r] <= j[r]);
        let terms = head.terms().into_iter().filter(below);
        terms.fold(0i64, |sum, i| {
            let of = |top: [usize; 3]| (0..3).map(|r| binomial(top[r], i[r])).product::<i64>();
            sum + of(j) * (whole / of(n)) * a[head.place(i)]
        })
    };
    head.terms().into_iter().map(sum).collect()
}

#[test]
fn the_scale_is_the_least_common_multiple() {
    for n in 0..=6 {
        let all = |z: i64| (0..=n).all(|i| z % binomial(n, i) == 0);
        assert_eq!((1..).find(|z| all(*z)), Some(scale(n)));
    }
}

#[test]
fn the_literal_formula_on_the_unit_box() {
    let mut random = Random::new(1);
    for _ in 0..300 {
        let mut head = any_head(&mut random, 0);
        head.polynomials = 1;
        let a = any_coefficients(&mut random, &head, 1_000_000_000, 1);
        assert_eq!(numbers(&head, &a, &SubBox::UNIT), literal(&head, &a));
    }
}

/// Powers of (k+y)/2^s multiplied out term by term in one direction, then the
/// literal formula: 2^(n·s) times it is the number on the box.
#[test]
fn the_literal_formula_on_smaller_boxes() {
    let mut random = Random::new(2);
    for _ in 0..300 {
        let n = random.below(7);
        let head = common::one(n as u8, 10);
        let (s, a) = (
            random.between(0, 3),
            any_coefficients(&mut random, &head, 99, 1),
        );
        let k = random.between(0, (1 << s) - 1);
        let mut substituted = vec![0; n + 1];
        for (i, a_i) in a.iter().enumerate() {
            // (k+y)^i by repeated multiplication.
            let mut power = vec![1];
            for _ in 0..i {
                let mut next = vec![0; power.len() + 1];
                for (t, c) in power.iter().enumerate() {
                    next[t] += c * k;
                    next[t + 1] += c;
                }
                power = next;
            }
            for (t, c) in power.iter().enumerate() {
                substituted[t] += a_i * c * (1 << (s * (n - i) as i64));
            }
        }
        let sub_box = SubBox::from_numbers([s, k, 0, 0, 0, 0]);
        assert_eq!(numbers(&head, &a, &sub_box), literal(&head, &substituted));
    }
}

/// Down random paths: what the formula gives on a half is what the cut gives.
#[test]
fn the_cutting_rule_gives_the_formulas_numbers() {
    let mut random = Random::new(3);
    let mut cuts = 0;
    for _ in 0..400 {
        let head = any_head(&mut random, 10);
        let limit = random.pick(&[9, 1000, 1_000_000_000]);
        let a = any_coefficients(&mut random, &head, limit, 1);
        let mut sub_box = SubBox::UNIT;
        let mut values = numbers(&head, &a, &sub_box);
        while let Some(r) = reference::rules::direction(&head, &sub_box) {
            if !can_be_cut(&head, r, &values) {
                break;
            }
            let (lower, upper) = cut_numbers(&head, r, &values);
            let [below, above] = [Half::Lower, Half::Upper].map(|half| sub_box.halved(r, half));
            assert_eq!(numbers(&head, &a, &below), lower);
            assert_eq!(numbers(&head, &a, &above), upper);
            (sub_box, values) = match random.once_in(2) {
                true => (below, lower),
                false => (above, upper),
            };
            cuts += 1;
        }
    }
    assert!(cuts > 2000);
}

#[test]
fn wide_numbers_reach_far() {
    // x^6 y^6 on the last box of ten cuts each: the first number is 3600 times
    // 1023^12 times 10^9, beyond 128 bits.
    let head = head([2, 1, 6, 6, 0, 10, 10, 0]);
    let mut a = vec![0; 49];
    a[48] = 1_000_000_000;
    let last = SubBox::from_numbers([10, 1023, 10, 1023, 0, 0]);
    let expected = (0..12).fold(Wide::of(3_600_000_000_000), |z, _| z.times(1023));
    let values = wide_numbers(&head, &a, &last);
    assert_eq!(values[0], expected);
    assert_eq!(values[0].narrow(), None);
}

#[test]
fn wide_arithmetic() {
    let big = Wide::of(i64::MIN).times(i64::MIN).times(-3);
    let sum = big
        .plus(Wide::of(-5))
        .plus(Wide::of(i64::MAX).times(i64::MAX).times(3));
    // -3·2^126 - 5 + 3·(2^126 - 2^64 + 1).
    let expected = Wide::of(1 << 62).times(4).times(-3).plus(Wide::of(-2));
    assert_eq!(sum, expected);
    for z in [0, 1, -1, i64::MIN, i64::MAX] {
        assert_eq!(Wide::of(z).narrow(), Some(z));
        assert_eq!(Wide::of(z).times(-1).times(-1).narrow(), Some(z));
    }
    assert_eq!(Wide::of(i64::MIN).times(-1).narrow(), None);
}
