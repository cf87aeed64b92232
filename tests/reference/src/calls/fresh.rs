//! Makers of visits and runs from fresh starts, also continued in pieces, each
//! piece with the memory that the one before left and perhaps a longer list.

use super::answer::make_call;
use super::basis::*;
use super::{Call, Kind};
use crate::head::Head;
use crate::random::Random;

/// A started state. The slots above the waiting ones may hold anything, and
/// often do here.
fn started(random: &mut Random, kind: Kind) -> Call {
    let system = some_system(random);
    let mut call = on_system(random, Kind::Start, &system);
    make_call(&mut call);
    call.kind = kind;
    if random.once_in(2) {
        let slot = system.head.slot_length();
        let above = litters(random, system.head.store_length() - slot);
        call.store[slot..][..above.len()].copy_from_slice(&above);
    }
    call
}

fn lengthen(random: &mut Random, call: &mut Call, most: usize) {
    let more = random
        .below(most + 1)
        .min(super::wire::MOST_LIST - call.list.len());
    let records = litter_list(random, more);
    call.list.extend(records);
}

/// The call repeated on the memory it leaves, up to `count` calls, the last of
/// them with nothing waiting.
fn repeated(
    random: &mut Random,
    mut call: Call,
    count: usize,
    between: fn(&mut Random, &mut Call),
) -> Vec<Call> {
    let mut calls = Vec::new();
    for _ in 0..count {
        let nothing_waits = call.state.waiting == 0;
        calls.push(call.clone());
        if nothing_waits {
            break;
        }
        make_call(&mut call);
        between(random, &mut call);
    }
    calls
}

fn next_piece(random: &mut Random, call: &mut Call) {
    call.budget = random.pick(&[0, 1, 2, 3, 7, 20, 200, 2000]);
    if random.once_in(2) {
        lengthen(random, call, 8);
    }
}

pub fn run_in_pieces(random: &mut Random) -> Vec<Call> {
    let mut call = started(random, Kind::Run);
    next_piece(random, &mut call);
    repeated(random, call, 6, next_piece)
}

pub fn run_whole(random: &mut Random) -> Vec<Call> {
    let mut call = started(random, Kind::Run);
    call.budget = random.pick(&[3000, 5000]);
    lengthen(random, &mut call, 64);
    vec![call]
}

pub fn run_without_budget(random: &mut Random) -> Vec<Call> {
    let mut call = started(random, Kind::Run);
    // Also with nothing waiting, which is finished, not spent.
    if random.once_in(2) {
        call.state.waiting = 0;
    }
    vec![call]
}

/// Visits one after another, with little room at first.
pub fn visits(random: &mut Random) -> Vec<Call> {
    let mut call = started(random, Kind::Visit);
    call.list.clear();
    repeated(random, call, 8, |random, call| {
        if random.once_in(4) {
            lengthen(random, call, 2)
        }
    })
}

/// Some steps down the tree first, then visits.
pub fn visits_deeper(random: &mut Random) -> Vec<Call> {
    let mut call = started(random, Kind::Run);
    lengthen(random, &mut call, 64);
    call.budget = random.below(60) as u64;
    make_call(&mut call);
    call.kind = Kind::Visit;
    repeated(random, call, 6, |_, _| ())
}

/// The list is full to the last place, or the very last keep fills it.
pub fn room_used_up(random: &mut Random) -> Vec<Call> {
    let mut call = started(random, Kind::Run);
    lengthen(random, &mut call, 64);
    call.budget = 3000;
    let mut trial = call.clone();
    make_call(&mut trial);
    let kept = trial.state.kept as usize;
    let short = kept.saturating_sub(random.below(2));
    call.list.truncate(short);
    repeated(random, call, 2, |_, call| call.kind = Kind::Visit)
}

/// The store one number short of D + 1 slots.
pub fn store_short(random: &mut Random) -> Vec<Call> {
    let kind = random.pick(&[Kind::Check, Kind::Visit, Kind::Run]);
    let mut call = started(random, kind);
    call.budget = 5;
    let length = Head::from_bytes(call.head).store_length();
    call.store.truncate(length - 1);
    // 9 comes before 10.
    if random.once_in(2) {
        call.state.dropped = 1;
    }
    // 4 comes before 9.
    if random.once_in(4) {
        call.head = bad_head(random);
    }
    vec![call]
}
