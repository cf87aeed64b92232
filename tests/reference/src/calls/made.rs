//! Makers of checks, visits and runs from made states: sound ones that no fresh
//! start reaches, and the exact bounds.

use super::basis::*;
use super::{Call, Kind};
use crate::boxes::SubBox;
use crate::exact::LARGEST;
use crate::head::Head;
use crate::random::Random;
use crate::state::{put_slot, State, MOST_VISITS};

/// A box within the depths with at least `cuts` cuts in all.
fn box_with_cuts(random: &mut Random, head: &Head, cuts: usize) -> SubBox {
    let mut sub_box = SubBox::UNIT;
    for r in 0..3 {
        sub_box.cuts[r] = random.between(0, head.depths[r] as i64);
    }
    add_cuts(random, head, &mut sub_box, cuts);
    for r in 0..3 {
        sub_box.positions[r] = random.between(0, (1 << sub_box.cuts[r]) - 1);
    }
    sub_box
}

/// Cuts added at random, within the depths, until there are `cuts` in all.
pub fn add_cuts(random: &mut Random, head: &Head, sub_box: &mut SubBox, cuts: usize) {
    while sub_box.cuts_in_all() < cuts as i64 {
        let r = random.below(3);
        if sub_box.cuts[r] < head.depths[r] as i64 {
            sub_box.cuts[r] += 1;
        }
    }
}

/// Numbers of one box in one of several styles: all allowed, few of them the
/// numbers of any polynomial that a start takes.
pub fn some_numbers(random: &mut Random, head: &Head) -> Vec<i64> {
    let n = random.pick(&head.degrees);
    let bound = 1i64 << (62 - n);
    let style = random.below(6);
    let mut number = || match style {
        0 => 0,
        1 => random.between(-3, 3),
        2 => random.between(1, 9),
        3 => random.pick(&[0, bound - 1, 1 - bound]),
        4 => random.pick(&[0, -1, bound.min(LARGEST), -bound.min(LARGEST), 1]),
        _ => random.between(-LARGEST, LARGEST),
    };
    (0..head.all_terms()).map(|_| number()).collect()
}

/// A sound state with `waiting` boxes; litter above them and beyond D + 1 slots.
fn sound_with(random: &mut Random, head: Head, waiting: usize) -> Call {
    let mut call = Call::new(random.pick(&[Kind::Run, Kind::Visit]));
    call.head = head.bytes();
    let beyond = random.pick(&[0, 0, 1, 30]);
    call.store = litters(random, head.store_length() + beyond);
    for p in 0..waiting {
        let sub_box = box_with_cuts(random, &head, p);
        let numbers = some_numbers(random, &head);
        put_slot(&head, &mut call.store, p, &sub_box, &numbers);
    }
    let room = random.below(20);
    call.list = litter_list(random, room);
    let visits = random.between(0, MOST_VISITS as i64 - 1);
    call.state = State {
        waiting: waiting as u64,
        kept: random.below(room + 1) as u64,
        visits: visits as u64,
        dropped: random.between(0, visits) as u64,
    };
    call.budget = random.pick(&[1, 2, 10, 1000]);
    call
}

fn sound(random: &mut Random) -> Call {
    let head = some_head(random);
    let waiting = random.below(head.total_depth() + 2);
    sound_with(random, head, waiting)
}

/// A sound state with something waiting.
pub fn sound_waiting(random: &mut Random) -> Call {
    let head = some_head(random);
    let waiting = 1 + random.below(head.total_depth() + 1);
    sound_with(random, head, waiting)
}

pub fn made_state(random: &mut Random) -> Vec<Call> {
    let mut call = sound(random);
    if random.once_in(4) {
        call.kind = Kind::Check;
    }
    vec![call]
}

pub fn all_slots_waiting(random: &mut Random) -> Vec<Call> {
    let head = some_head(random);
    vec![sound_with(random, head, head.total_depth() + 1)]
}

pub fn list_full(random: &mut Random) -> Vec<Call> {
    let mut call = sound_waiting(random);
    call.state.kept = call.list.len() as u64;
    vec![call]
}

/// The run goes on past 2^31 - 1 visits; the call after it is refused.
pub fn visits_at_the_end(random: &mut Random) -> Vec<Call> {
    let mut first = sound_waiting(random);
    first.state.visits = MOST_VISITS;
    first.state.dropped = random.pick(&[0, MOST_VISITS]);
    let mut second = first.clone();
    super::answer::make_call(&mut second);
    vec![first, second]
}

/// One polynomial's number at the bound of what can be cut, or one beyond, of
/// both signs; degree 6 (2^56 - 1 and 2^56) every time, and another degree.
pub fn bound_of_a_cut(random: &mut Random) -> Vec<Call> {
    let other = random.pick(&[1, 2, 3, 4, 5]);
    let mut calls = Vec::new();
    for n in [6, other] {
        let bound = 1i64 << (62 - n);
        for edge in [bound - 1, bound, 1 - bound, -bound] {
            calls.push(with_edge(random, n, edge));
        }
    }
    calls
}

/// A unit box of degree n in direction 1 with the number `edge` among zeros, so
/// that nothing is dropped.
fn with_edge(random: &mut Random, n: u8, edge: i64) -> Call {
    let mut head = Head::from_bytes([1, 1, n, 0, 0, 2, 0, 0]);
    head.polynomials = 1 + random.below(3);
    if random.once_in(2) {
        head.variables = 2;
        (head.degrees[1], head.depths[1]) = (2, random.below(3));
    }
    let mut call = sound_with(random, head, 0);
    let mut numbers = vec![0; head.all_terms()];
    numbers[random.below(head.all_terms())] = edge;
    put_slot(&head, &mut call.store, 0, &SubBox::UNIT, &numbers);
    call.state.waiting = 1;
    call.budget = 1;
    call
}
