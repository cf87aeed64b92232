//! Makers of checks, visits and runs that are refused: each clause of refusal 10
//! broken in a state that is sound but for it, and a bad head before it.

use super::basis::bad_head;
use super::made::{add_cuts, some_numbers, sound_waiting};
use super::{Call, Kind};
use crate::boxes::SubBox;
use crate::exact::LARGEST;
use crate::head::Head;
use crate::random::Random;
use crate::state::{put_slot, MOST_VISITS};

type Clause = fn(&mut Random, &mut Call);

/// Each breaks one clause of refusal 10 in a sound state with something waiting.
const CLAUSES: [Clause; 12] = [
    |random, call| {
        let most = Head::from_bytes(call.head).total_depth() as u64 + 1;
        call.state.waiting = most + random.pick(&[1, 2, 1 << 32, 1 << 61]);
    },
    |random, call| {
        let room = call.list.len() as u64;
        call.state.kept = room + random.pick(&[1, 2, 1 << 32, 1 << 61]);
    },
    |_, call| call.state.dropped = call.state.visits + 1,
    |random, call| {
        call.state.visits = MOST_VISITS + random.pick(&[1, 2, 1 << 32, 1 << 61]);
        call.state.dropped = 0;
    },
    |random, call| {
        let (slot, r) = some_direction(random, call);
        call.store[slot + 2 * r] = Head::from_bytes(call.head).depths[r] as i64 + 1;
        call.store[slot + 2 * r + 1] = 0;
    },
    |random, call| {
        let (slot, r) = some_direction(random, call);
        call.store[slot + 2 * r] = random.pick(&[-1, i64::MIN, i64::MAX, 64, 256]);
        call.store[slot + 2 * r + 1] = 0;
    },
    |random, call| {
        let (slot, r) = some_direction(random, call);
        call.store[slot + 2 * r + 1] = 1 << call.store[slot + 2 * r];
    },
    |random, call| {
        let (slot, r) = some_direction(random, call);
        call.store[slot + 2 * r + 1] = random.pick(&[-1, i64::MIN, i64::MAX, 1 << 32]);
    },
    |random, call| number_beyond(random, call, &[LARGEST + 1, i64::MAX]),
    |random, call| number_beyond(random, call, &[-LARGEST - 1, i64::MIN, i64::MIN + 1]),
    too_few_cuts,
    |_, call| {
        // Above 2^31 - 1 visits, all of them dropped.
        call.state.visits = MOST_VISITS + 1;
        call.state.dropped = call.state.visits;
    },
];

/// Where some waiting slot begins, and one of its directions.
fn some_direction(random: &mut Random, call: &Call) -> (usize, usize) {
    (some_slot(random, call), random.below(3))
}

fn some_slot(random: &mut Random, call: &Call) -> usize {
    random.below(call.state.waiting as usize) * Head::from_bytes(call.head).slot_length()
}

fn number_beyond(random: &mut Random, call: &mut Call, choices: &[i64]) {
    let slot = some_slot(random, call);
    let place = random.below(Head::from_bytes(call.head).all_terms());
    call.store[slot + 6 + place] = random.pick(choices);
}

/// Slot p with p - 1 cuts, where p is above 0.
fn too_few_cuts(random: &mut Random, call: &mut Call) {
    let head = Head::from_bytes(call.head);
    if call.state.waiting < 2 {
        call.state.dropped = call.state.visits + 1;
        return;
    }
    let p = 1 + random.below(call.state.waiting as usize - 1);
    let mut sub_box = SubBox::UNIT;
    add_cuts(random, &head, &mut sub_box, p - 1);
    let numbers = some_numbers(random, &head);
    put_slot(&head, &mut call.store, p, &sub_box, &numbers);
}

/// All clauses in turn, each in a check, a visit or a run.
pub fn clauses_of_ten(random: &mut Random) -> Vec<Call> {
    let broken = |clause: &Clause| {
        let mut call = sound_waiting(random);
        call.kind = random.pick(&[Kind::Check, Kind::Visit, Kind::Run]);
        clause(random, &mut call);
        call
    };
    CLAUSES.iter().map(broken).collect()
}

/// A made state under a head that is refused: 4 comes before 9 and 10.
pub fn head_bad_in_a_run(random: &mut Random) -> Vec<Call> {
    let mut call = sound_waiting(random);
    call.head = bad_head(random);
    if random.once_in(2) {
        call.state.kept = call.list.len() as u64 + 1;
    }
    vec![call]
}
