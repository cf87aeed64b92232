//! Visits and runs from any state: the bounds of a cut, the order of the answers,
//! and states that no start reaches.

mod common;

use common::*;
use reference::boxes::SubBox;
use reference::exact::LARGEST;
use reference::head::Head;
use reference::refusal::Refusal;
use reference::rules::{Answer, Fate};
use reference::run::run;
use reference::state::{check, put_slot, Kept, State, MOST_VISITS};
use reference::visit::{visit, Visit, VisitAnswer};

/// A unit box with zeros and one number, in a state of its own.
fn single(head: &Head, place: usize, number: i64) -> (State, Vec<i64>) {
    let mut store = vec![0; head.store_length()];
    let mut numbers = vec![0; head.all_terms()];
    numbers[place] = number;
    put_slot(head, &mut store, 0, &SubBox::UNIT, &numbers);
    (counts(1, 0, 0, 0), store)
}

#[test]
fn the_bound_of_a_cut_is_exact() {
    for n in 1..=6u8 {
        let head = head([1, 2, n, 0, 0, 1, 0, 0]);
        let bound = 1i64 << (62 - n);
        for (number, fate) in [
            (bound - 1, Fate::Cut { r: 0 }),
            (1 - bound, Fate::Cut { r: 0 }),
            (bound, Fate::Kept { mark: 2 }),
            (-bound, Fate::Kept { mark: 2 }),
        ] {
            let place = head.all_terms() - 1;
            let (mut state, mut store) = single(&head, place, number);
            let mut list = [Kept::default(); 1];
            let made = visit(&head, &mut state, &mut store, &mut list).unwrap();
            let sub_box = SubBox::UNIT;
            assert_eq!(made, VisitAnswer::Made(Visit { sub_box, fate }));
            assert_eq!(check(&head, &state, &store, 1), Ok(()));
        }
    }
}

#[test]
fn full_depth_comes_before_mark_two() {
    let head = one(6, 0);
    let (mut state, mut store) = single(&head, 3, LARGEST);
    let mut list = [Kept::default(); 1];
    run(&head, &mut state, 9, &mut store, &mut list).unwrap();
    assert_eq!(list[0].mark, 1);
}

#[test]
fn only_the_chosen_direction_is_asked() {
    // Direction 2 has fewer cuts and cannot be cut; direction 1 could be.
    let head = head([2, 1, 0, 6, 0, 2, 2, 0]);
    let (mut state, mut store) = single(&head, 0, 1 << 56);
    put_box(&mut store, [1, 0, 0, 0, 0, 0]);
    let mut list = [Kept::default(); 1];
    run(&head, &mut state, 9, &mut store, &mut list).unwrap();
    assert_eq!((state, list[0].mark), (counts(0, 1, 1, 0), 2));
}

fn put_box(store: &mut [i64], numbers: [i64; 6]) {
    store[..6].copy_from_slice(&numbers);
}

#[test]
fn degree_zero_is_cut_at_any_size() {
    let head = head([2, 1, 0, 1, 0, 1, 0, 0]);
    let (mut state, mut store) = single(&head, 1, -LARGEST);
    let mut list = [Kept::default(); 2];
    let answer = run(&head, &mut state, 9, &mut store, &mut list);
    assert_eq!((answer, state), (Ok(Answer::Finished), counts(0, 2, 3, 0)));
}

#[test]
fn a_cut_puts_upper_below_lower() {
    let head = one(1, 2);
    let stop = ran(&head, &[-1, 2], 1, 0);
    let slot = head.slot_length();
    assert_eq!(stop.store[..slot], [1, 1, 0, 0, 0, 0, 0, 2]);
    assert_eq!(stop.store[slot..2 * slot], [1, 0, 0, 0, 0, 0, -2, 0]);
}

#[test]
fn finished_before_spent_before_full() {
    let head = one(0, 0);
    let (mut state, mut store) = started(&head, &[0]);
    let answer = run(&head, &mut state, 0, &mut store, &mut []);
    assert_eq!(answer, Ok(Answer::Spent));
    let answer = run(&head, &mut state, 1, &mut store, &mut []);
    assert_eq!((answer, state), (Ok(Answer::Full), counts(1, 0, 0, 0)));
    let made = visit(&head, &mut state, &mut store, &mut []);
    assert_eq!((made, state), (Ok(VisitAnswer::Full), counts(1, 0, 0, 0)));
    state.waiting = 0;
    let answer = run(&head, &mut state, 0, &mut store, &mut []);
    assert_eq!(answer, Ok(Answer::Finished));
    let made = visit(&head, &mut state, &mut store, &mut []);
    assert_eq!(made, Ok(VisitAnswer::Finished));
}

#[test]
fn a_drop_needs_no_room() {
    let head = one(0, 3);
    let stop = ran(&head, &[5], 9, 0);
    assert_eq!(
        (stop.answer, stop.state),
        (Answer::Finished, counts(0, 0, 1, 1))
    );
}

#[test]
fn visits_may_pass_the_end_within_a_call() {
    let head = one(0, 1);
    let (mut state, mut store) = started(&head, &[0]);
    state.visits = MOST_VISITS;
    let mut list = [Kept::default(); 2];
    let answer = run(&head, &mut state, 2, &mut store, &mut list);
    assert_eq!((answer, state.visits), (Ok(Answer::Spent), MOST_VISITS + 2));
    let answer = run(&head, &mut state, 2, &mut store, &mut list);
    assert_eq!(answer, Err(Refusal::of(10)));
}

#[test]
fn odd_states_are_run_as_they_stand() {
    // Kept and dropped above visits together, two overlapping boxes, all slots waiting.
    let head = one(0, 1);
    let mut store = vec![0; head.store_length()];
    let whole = SubBox::from_numbers([1, 1, 0, 0, 0, 0]);
    put_slot(&head, &mut store, 0, &SubBox::UNIT, &[0]);
    put_slot(&head, &mut store, 1, &whole, &[0]);
    let mut state = counts(2, 3, 2, 2);
    let mut list = [Kept::default(); 6];
    let answer = run(&head, &mut state, 99, &mut store, &mut list);
    assert_eq!((answer, state), (Ok(Answer::Finished), counts(0, 6, 6, 2)));
}
