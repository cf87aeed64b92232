//! The parts that seeded calls are put together from. Everything fits common
//! types of the product: counts below 2^62, budgets below 2^31, list values,
//! box values and directions below 2^15.

use super::{Call, Kind};
use crate::boxes::SubBox;
use crate::head::Head;
use crate::random::Random;
use crate::state::{Kept, State};
use crate::systems::{any_coefficients, any_head, enlarged, planted, some_zero, System};

/// Mostly small systems, so that a long sequence stays short in bytes.
pub fn some_head(random: &mut Random) -> Head {
    if random.once_in(40) {
        return Head::from_bytes([3, 3, 3, 3, 3, 10, 10, 10]);
    }
    let deepest = random.pick(&[1, 2, 3, 4, 10]);
    loop {
        let head = any_head(random, deepest);
        if head.store_length() < 700 || random.once_in(30) {
            return head;
        }
    }
}

pub fn some_system(random: &mut Random) -> System {
    let head = some_head(random);
    let system = planted(random, head);
    match random.below(4) {
        0 => system,
        1 => enlarged(random, system),
        2 => some_zero(random, system),
        _ => System {
            head,
            coefficients: any_coefficients(random, &head, 9, 1),
        },
    }
}

/// A head that is out of range in one value.
pub fn bad_head(random: &mut Random) -> [u8; 8] {
    loop {
        let mut bytes = some_head(random).bytes();
        bytes[random.below(8)] = random.pick(&[0, 1, 3, 4, 6, 7, 10, 11, 127, 128, 255]);
        if Head::from_bytes(bytes).check().is_err() {
            return bytes;
        }
    }
}

/// What may stand in a lent place that no call should look at.
pub fn litter(random: &mut Random) -> i64 {
    match random.below(6) {
        0 => i64::MIN,
        1 => i64::MAX,
        2 => 0,
        3 => random.between(-9, 9),
        _ => random.draw() as i64,
    }
}

pub fn litters(random: &mut Random, count: usize) -> Vec<i64> {
    (0..count).map(|_| litter(random)).collect()
}

pub fn litter_bytes(random: &mut Random, count: usize) -> Vec<u8> {
    (0..count).map(|_| random.draw() as u8).collect()
}

/// Values 0 to 100, which every type of the product can hold.
pub fn litter_list(random: &mut Random, count: usize) -> Vec<Kept> {
    let mut record = || {
        let numbers = [0; 6].map(|_| random.between(0, 100));
        Kept {
            sub_box: SubBox::from_numbers(numbers),
            mark: random.between(0, 100),
        }
    };
    (0..count).map(|_| record()).collect()
}

/// A call on a system with its coefficients, and litter in all other memory.
pub fn on_system(random: &mut Random, kind: Kind, system: &System) -> Call {
    let mut call = Call::new(kind);
    call.head = system.head.bytes();
    call.coefficients = system.coefficients.clone();
    let beyond = random.below(3);
    let after = litters(random, beyond);
    call.coefficients.extend(after);
    let beyond = random.below(5);
    call.store = litters(random, system.head.store_length() + beyond);
    let room = random.below(4);
    call.list = litter_list(random, room);
    call.state = State {
        waiting: random.draw() >> 40,
        kept: random.draw() >> 40,
        visits: random.draw() >> 40,
        dropped: random.draw() >> 40,
    };
    call
}
