//! The check of a state: each clause of refusal 10, and the order 4, 9, 10.

mod common;

use common::*;
use reference::exact::LARGEST;
use reference::head::Head;
use reference::refusal::Refusal;
use reference::run::run;
use reference::state::{check, Kept, State, MOST_VISITS};
use reference::visit::visit;

/// 2x - 1 at depth 2 after three visits: two boxes wait.
fn two_waiting() -> (Head, State, Vec<i64>) {
    let head = one(1, 2);
    let stop = ran(&head, &[-1, 2], 3, 1);
    assert_eq!(stop.state.waiting, 2);
    (head, stop.state, stop.store)
}

/// Check, visit and run answer 10 alike and change nothing.
fn is_ten(head: &Head, state: State, store: &[i64], room: usize) {
    refuses(head, state, store, room, 10);
}

fn refuses(head: &Head, state: State, store: &[i64], room: usize, number: u8) {
    let refusal = Refusal::of(number);
    assert_eq!(check(head, &state, store, room), Err(refusal));
    let (mut after, mut memory) = (state, store.to_vec());
    let mut list = vec![Kept::default(); room];
    let made = visit(head, &mut after, &mut memory, &mut list);
    assert_eq!(made, Err(refusal));
    let answer = run(head, &mut after, 9, &mut memory, &mut list);
    assert_eq!(answer, Err(refusal));
    assert_eq!((after, &memory[..]), (state, store));
    assert_eq!(list, vec![Kept::default(); room]);
}

#[test]
fn ten_for_counts() {
    let (head, state, store) = two_waiting();
    assert_eq!(check(&head, &state, &store, 0), Ok(()));
    for waiting in [4, u64::MAX] {
        is_ten(&head, State { waiting, ..state }, &store, 1);
    }
    for kept in [2, u64::MAX] {
        is_ten(&head, State { kept, ..state }, &store, 1);
    }
    is_ten(
        &head,
        State {
            dropped: 4,
            ..state
        },
        &store,
        1,
    );
    let visits = MOST_VISITS + 1;
    is_ten(&head, State { visits, ..state }, &store, 1);
    let visits = MOST_VISITS;
    assert_eq!(check(&head, &State { visits, ..state }, &store, 1), Ok(()));
}

#[test]
fn ten_for_slots() {
    let (head, state, store) = two_waiting();
    let slot = head.slot_length();
    let first = [
        (0, 3),
        (0, -1),
        (0, i64::MIN),
        (0, i64::MAX),
        (1, 4),
        (1, -1),
        (1, i64::MIN),
    ];
    let beyond_l = [(2, 1), (3, 1), (4, 1), (5, 1)];
    let numbers = [
        (6, LARGEST + 1),
        (7, -LARGEST - 1),
        (6, i64::MIN),
        (7, i64::MAX),
    ];
    for (place, value) in first.into_iter().chain(beyond_l).chain(numbers) {
        for p in 0..2 {
            let mut spoilt = store.clone();
            spoilt[p * slot + place] = value;
            is_ten(&head, state, &spoilt, 1);
        }
    }
    // k is 2^s exactly.
    let mut spoilt = store.clone();
    spoilt[1] = 2;
    is_ten(&head, state, &spoilt, 1);
    // M itself is allowed, and slot 1 needs one cut.
    let mut made = store.clone();
    (made[6], made[7]) = (LARGEST, -LARGEST);
    assert_eq!(check(&head, &state, &made, 1), Ok(()));
    (made[slot], made[slot + 1]) = (0, 0);
    is_ten(&head, state, &made, 1);
}

#[test]
fn only_waiting_slots_are_looked_at() {
    let (head, state, mut store) = two_waiting();
    store[2 * head.slot_length()..].fill(i64::MIN);
    assert_eq!(check(&head, &state, &store, 1), Ok(()));
    let fewer = State {
        waiting: 0,
        ..state
    };
    store.fill(i64::MIN);
    assert_eq!(check(&head, &fewer, &store, 1), Ok(()));
}

#[test]
fn four_before_nine_before_ten() {
    let (head, state, store) = two_waiting();
    let short = &store[..head.store_length() - 1];
    let broken = State {
        waiting: 99,
        ..state
    };
    refuses(&head, broken, short, 0, 9);
    let bad_head = Head::from_bytes([1, 1, 7, 0, 0, 2, 0, 0]);
    refuses(&bad_head, broken, short, 0, 4);
}
