//! Halves, middles and half widths of a box, over every allowed s and k.

use reference::boxes::{Half, SubBox};
use reference::refusal::Refusal;

fn along(r: usize, s: i64, k: i64) -> SubBox {
    let mut sub_box = SubBox::UNIT;
    sub_box.cuts[r] = s;
    sub_box.positions[r] = k;
    sub_box
}

#[test]
fn halves_of_every_box() {
    for r in 0..3 {
        for s in 0..=10 {
            for k in 0..1 << s {
                let sub_box = along(r, s, k);
                let lower = sub_box.half(r as i64 + 1, Half::Lower);
                let upper = sub_box.half(r as i64 + 1, Half::Upper);
                if s == 10 {
                    assert_eq!((lower, upper), (Err(Refusal::of(10)), Err(Refusal::of(10))));
                } else {
                    assert_eq!(lower, Ok(along(r, s + 1, 2 * k)));
                    assert_eq!(upper, Ok(along(r, s + 1, 2 * k + 1)));
                }
            }
        }
    }
}

#[test]
fn ten_cuts_matter_in_the_asked_direction_only() {
    let sub_box = along(0, 10, 1023);
    assert!(sub_box.half(1, Half::Lower).is_err());
    assert_eq!(
        sub_box.half(3, Half::Upper).unwrap().numbers(),
        [10, 1023, 0, 0, 1, 1]
    );
}

#[test]
fn boxes_outside_the_rules() {
    for (s, k) in [
        (11, 0),
        (64, 0),
        (0, 1),
        (3, 8),
        (10, 1024),
        (-1, 0),
        (3, -1),
        (i64::MAX, 0),
    ] {
        for r in 0..3 {
            let sub_box = along(r, s, k);
            assert_eq!(sub_box.middles(), Err(Refusal::of(10)));
            assert_eq!(sub_box.half_widths(), Err(Refusal::of(10)));
            for direction in 1..=3 {
                assert_eq!(sub_box.half(direction, Half::Lower), Err(Refusal::of(10)));
            }
        }
    }
    for direction in [0, 4, -1, i64::MAX, i64::MIN] {
        assert_eq!(
            SubBox::UNIT.half(direction, Half::Lower),
            Err(Refusal::of(10))
        );
    }
}

/// A double is exact if it returns to its whole numerator.
#[test]
fn doubles_are_exact() {
    for s in 0..=10 {
        for k in 0..1 << s {
            let sub_box = along(1, s, k);
            let middle = sub_box.middles().unwrap()[1];
            let half_width = sub_box.half_widths().unwrap()[1];
            let whole = (2i64 << s) as f64;
            assert_eq!((middle.numerator, middle.shift), (2 * k + 1, s + 1));
            assert_eq!((middle.double() * whole) as i64, 2 * k + 1);
            assert_eq!((half_width.double() * whole) as i64, 1);
            // The middle less the half width is the box's lower end.
            let lower = middle.double() - half_width.double();
            assert_eq!(lower * (1i64 << s) as f64, k as f64);
        }
    }
}
