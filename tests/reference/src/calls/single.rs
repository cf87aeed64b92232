//! Makers of half and middle calls: good boxes, and boxes outside the rules.

use super::{Call, Kind};
use crate::boxes::SubBox;
use crate::random::Random;

pub fn good_box(random: &mut Random) -> SubBox {
    let mut sub_box = SubBox::UNIT;
    for r in 0..3 {
        let s = random.between(0, 10);
        sub_box.cuts[r] = s;
        let last = (1 << s) - 1;
        let any = random.between(0, last);
        sub_box.positions[r] = random.pick(&[0, last, any, any]);
    }
    sub_box
}

/// One direction outside the rules.
fn bad_box(random: &mut Random) -> SubBox {
    let mut sub_box = good_box(random);
    let r = random.below(3);
    if random.once_in(2) {
        let s = sub_box.cuts[r];
        sub_box.positions[r] = random.pick(&[1 << s, (1 << s) + 1, 2048, 32767]);
    } else {
        sub_box.cuts[r] = random.pick(&[11, 12, 31, 32, 63, 64, 65, 127]);
        sub_box.positions[r] = random.pick(&[0, 1, 2047]);
    }
    sub_box
}

fn half_of(random: &mut Random, sub_box: SubBox, direction: u64) -> Vec<Call> {
    let mut call = Call::new(Kind::Half);
    call.sub_box = sub_box;
    call.direction = direction;
    call.half = random.below(2) as u64;
    vec![call]
}

/// s = 10 in the asked direction comes up by itself; there the half is refused.
pub fn half(random: &mut Random) -> Vec<Call> {
    let sub_box = good_box(random);
    let direction = random.pick(&[1, 2, 3]);
    half_of(random, sub_box, direction)
}

pub fn half_refused(random: &mut Random) -> Vec<Call> {
    match random.below(3) {
        0 => {
            let sub_box = bad_box(random);
            let direction = random.pick(&[1, 2, 3]);
            half_of(random, sub_box, direction)
        }
        1 => {
            let sub_box = good_box(random);
            let direction = random.pick(&[0, 4, 5, 127]);
            half_of(random, sub_box, direction)
        }
        _ => {
            let mut sub_box = good_box(random);
            let r = random.below(3);
            sub_box.cuts[r] = 10;
            half_of(random, sub_box, r as u64 + 1)
        }
    }
}

fn middle_of(sub_box: SubBox) -> Vec<Call> {
    let mut call = Call::new(Kind::Middle);
    call.sub_box = sub_box;
    vec![call]
}

pub fn middle(random: &mut Random) -> Vec<Call> {
    middle_of(good_box(random))
}

pub fn middle_refused(random: &mut Random) -> Vec<Call> {
    middle_of(bad_box(random))
}
