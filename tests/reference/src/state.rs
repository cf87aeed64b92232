//! The state and its stores: the start, and the check that every run and visit
//! makes first (01, Runs; 01, Refusal numbers).

use crate::boxes::SubBox;
use crate::exact::{numbers, LARGEST};
use crate::head::{check_coefficients, Head};
use crate::refusal::Refusal;

/// Visits above this are outside the rules when a call begins.
pub const MOST_VISITS: u64 = (1 << 31) - 1;

#[derive(Clone, Copy, Debug, PartialEq, Eq, Default)]
pub struct State {
    pub waiting: u64,
    pub kept: u64,
    pub visits: u64,
    pub dropped: u64,
}

/// A record of the kept list.
#[derive(Clone, Copy, Debug, PartialEq, Eq, Default)]
pub struct Kept {
    pub sub_box: SubBox,
    pub mark: i64,
}

/// The call: the unit box in slot 0, zeros in the other D slots, nothing beyond.
pub fn start(head: &Head, coefficients: &[i64], store: &mut [i64]) -> Result<State, Refusal> {
    head.check()?;
    check_coefficients(head, coefficients)?;
    if store.len() < head.store_length() {
        return Err(Refusal::of(9));
    }
    store[..head.store_length()].fill(0);
    let values = numbers(head, coefficients, &SubBox::UNIT);
    put_slot(head, store, 0, &SubBox::UNIT, &values);
    Ok(State {
        waiting: 1,
        ..State::default()
    })
}

/// What run and visit refuse, in the order 4, 9, 10. `room` is the list's length.
pub fn check(head: &Head, state: &State, store: &[i64], room: usize) -> Result<(), Refusal> {
    head.check()?;
    if store.len() < head.store_length() {
        return Err(Refusal::of(9));
    }
    let counts = state.waiting <= head.total_depth() as u64 + 1
        && state.kept <= room as u64
        && state.dropped <= state.visits
        && state.visits <= MOST_VISITS;
    // The counts come first: only then do the waiting slots stand in the store.
    if counts && (0..state.waiting as usize).all(|p| good_slot(head, store, p)) {
        Ok(())
    } else {
        Err(Refusal::of(10))
    }
}

fn good_slot(head: &Head, store: &[i64], p: usize) -> bool {
    let (sub_box, values) = slot(head, store, p);
    sub_box.within(head.depths)
        && sub_box.cuts_in_all() >= p as i64
        && values.iter().all(|z| (-LARGEST..=LARGEST).contains(z))
}

/// The box and the numbers in slot p.
pub fn slot<'a>(head: &Head, store: &'a [i64], p: usize) -> (SubBox, &'a [i64]) {
    let length = head.slot_length();
    let numbers = &store[p * length..(p + 1) * length];
    let sub_box = SubBox::from_numbers(numbers[..6].try_into().unwrap());
    (sub_box, &numbers[6..])
}

pub fn put_slot(head: &Head, store: &mut [i64], p: usize, sub_box: &SubBox, values: &[i64]) {
    let length = head.slot_length();
    let place = &mut store[p * length..(p + 1) * length];
    place[..6].copy_from_slice(&sub_box.numbers());
    place[6..].copy_from_slice(values);
}

pub fn clear_slot(head: &Head, store: &mut [i64], p: usize) {
    let length = head.slot_length();
    store[p * length..(p + 1) * length].fill(0);
}
