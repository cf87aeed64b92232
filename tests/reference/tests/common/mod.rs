//! What several tests share: systems by their values, and a started state.

#![allow(dead_code)]

use reference::head::Head;
use reference::rules::Answer;
use reference::run::run;
use reference::state::{start, Kept, State};

pub const LITTER: i64 = -77;

pub fn head(values: [u8; 8]) -> Head {
    let head = Head::from_bytes(values);
    head.check().unwrap();
    head
}

/// One variable and one polynomial.
pub fn one(degree: u8, depth: u8) -> Head {
    head([1, 1, degree, 0, 0, depth, 0, 0])
}

pub fn started(head: &Head, coefficients: &[i64]) -> (State, Vec<i64>) {
    let mut store = vec![LITTER; head.store_length() + 3];
    let state = start(head, coefficients, &mut store).unwrap();
    (state, store)
}

pub struct Stop {
    pub answer: Answer,
    pub state: State,
    pub store: Vec<i64>,
    pub list: Vec<Kept>,
}

/// A run in lent stores from a fresh start.
pub fn ran(head: &Head, coefficients: &[i64], budget: u64, room: usize) -> Stop {
    let (mut state, mut store) = started(head, coefficients);
    let mut list = vec![Kept::default(); room];
    let answer = run(head, &mut state, budget, &mut store, &mut list).unwrap();
    Stop {
        answer,
        state,
        store,
        list,
    }
}

/// waiting, kept, visits, dropped.
pub fn counts(waiting: u64, kept: u64, visits: u64, dropped: u64) -> State {
    State {
        waiting,
        kept,
        visits,
        dropped,
    }
}

/// F of 01: the system 2x - 1, degree 1, depth 2, as a file.
pub const F: [u8; 35] = [
    0x08, 0x00, 0x01, 0x00, 0x01, 0x01, 0x01, 0x00, 0x00, 0x02, 0x00, 0x00, 0x0F, 0x00, 0x02, 0x00,
    0x01, 0x00, 0x00, 0x00, 0xFF, 0xFF, 0xFF, 0xFF, 0x01, 0x00, 0x00, 0x02, 0x00, 0x00, 0x00, 0x00,
    0x00, 0x03, 0x00,
];
