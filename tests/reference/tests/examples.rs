//! The examples of 01, "Examples to go by" and "Easy ways to get it wrong".

mod common;

use common::*;
use reference::boxes::{Half, SubBox};
use reference::cut::cut_line;
use reference::exact::numbers;
use reference::fresh::fresh_run;
use reference::program::{run_text, solve_text};
use reference::rules::{fate, Answer, Fate, Sign};
use reference::state::Kept;

/// The numbers on the unit box and on both its halves, both ways.
fn numbers_and_halves(degree: u8, coefficients: &[i64]) -> [Vec<i64>; 3] {
    let head = one(degree, 1);
    let unit = numbers(&head, coefficients, &SubBox::UNIT);
    let lower = numbers(&head, coefficients, &SubBox::UNIT.halved(0, Half::Lower));
    let upper = numbers(&head, coefficients, &SubBox::UNIT.halved(0, Half::Upper));
    assert_eq!(cut_line(&unit), (lower.clone(), upper.clone()));
    [unit, lower, upper]
}

#[test]
fn a_degree_two() {
    let [unit, lower, upper] = numbers_and_halves(2, &[0, 1, -1]);
    assert_eq!(unit, [0, 1, 0]);
    assert_eq!(lower, [0, 2, 2]);
    assert_eq!(upper, [2, 2, 0]);
}

#[test]
fn b_degree_four() {
    let [unit, lower, upper] = numbers_and_halves(4, &[0, 1, -1, 0, 0]);
    assert_eq!(unit, [0, 3, 4, 3, 0]);
    assert_eq!(lower, [0, 24, 40, 48, 48]);
    assert_eq!(upper, [48, 48, 40, 24, 0]);
}

#[test]
fn c_two_variables() {
    let head = head([2, 2, 2, 2, 0, 0, 0, 0]);
    let circle = [-1, 0, 1, 0, 0, 0, 1, 0, 0];
    let line = [0, -1, 0, 1, 0, 0, 0, 0, 0];
    let values = numbers(&head, &[circle, line].concat(), &SubBox::UNIT);
    assert_eq!(values[..9], [-4, -4, 0, -4, -4, 0, 0, 0, 4]);
    assert_eq!(values[9..], [0, -2, -4, 2, 0, -2, 4, 2, 0]);
}

#[test]
fn e_budget_and_room() {
    let (head, system) = (one(1, 2), [-1, 2]);
    let stop = ran(&head, &system, 3, 9);
    assert_eq!(
        (stop.answer, stop.state),
        (Answer::Spent, counts(2, 0, 3, 1))
    );
    let stop = ran(&head, &system, 1000, 1);
    assert_eq!(
        (stop.answer, stop.state),
        (Answer::Full, counts(2, 1, 5, 1))
    );
    let stop = ran(&head, &system, 5, 1);
    assert_eq!(
        (stop.answer, stop.state),
        (Answer::Spent, counts(2, 1, 5, 1))
    );
}

#[test]
fn f_the_program() {
    let text = "finished 7 2 2 0\n2 1 0 0 0 0 1\n2 2 0 0 0 0 1\n";
    assert_eq!(solve_text(&F), text);
}

#[test]
fn g_mark_two_and_mark_one() {
    let billion = 1_000_000_000;
    let system = [-billion, 0, 0, 0, 0, 0, billion];
    let fresh = fresh_run(&one(6, 5), &system, 1_000_000, 1024);
    assert_eq!(run_text(&fresh), "finished 9 4 1 0\n4 15 0 0 0 0 2\n");
    let fresh = fresh_run(&one(6, 4), &system, 1_000_000, 1024);
    assert_eq!(run_text(&fresh), "finished 9 4 1 0\n4 15 0 0 0 0 1\n");
}

#[test]
fn the_zero_polynomial() {
    let stop = ran(&one(0, 1), &[0], 1000, 8);
    assert_eq!(
        (stop.answer, stop.state),
        (Answer::Finished, counts(0, 2, 3, 0))
    );
    let stop = ran(&one(3, 1), &[0; 4], 1000, 8);
    assert_eq!(
        (stop.answer, stop.state),
        (Answer::Finished, counts(0, 2, 3, 0))
    );
}

#[test]
fn degrees_three_pass_and_six_six_one_does_not() {
    use reference::head::Head;
    assert!(Head::from_bytes([3, 1, 3, 3, 3, 0, 0, 0]).check().is_ok());
    let refusal = Head::from_bytes([3, 1, 6, 6, 1, 0, 0, 0])
        .check()
        .unwrap_err();
    assert_eq!((refusal.number, refusal.offset), (4, 0));
}

#[test]
fn an_empty_file() {
    assert_eq!(solve_text(&[]), "refused 1 at 0\n");
}

#[test]
fn middle_and_half_width() {
    let sub_box = SubBox::from_numbers([2, 1, 0, 0, 0, 0]);
    assert_eq!(
        sub_box.middles().unwrap().map(|f| f.double()),
        [0.375, 0.5, 0.5]
    );
    assert_eq!(
        sub_box.half_widths().unwrap().map(|f| f.double()),
        [0.125, 0.5, 0.5]
    );
}

#[test]
fn zero_is_neither_sign() {
    let head = one(1, 2);
    let left = SubBox::from_numbers([2, 1, 0, 0, 0, 0]);
    let right = SubBox::from_numbers([2, 2, 0, 0, 0, 0]);
    for sub_box in [left, right] {
        let values = numbers(&head, &[-1, 2], &sub_box);
        assert!(values.contains(&0));
        assert_eq!(fate(&head, &sub_box, &values), Fate::Kept { mark: 1 });
    }
}

#[test]
fn the_upper_half_is_in_its_own_order() {
    let (lower, upper) = cut_line(&[0, 0, 4]);
    assert_eq!(lower, [0, 0, 4]);
    assert_eq!(upper, [4, 8, 16]);
}

#[test]
fn corners_alone_do_not_drop() {
    let head = one(2, 1);
    let values = numbers(&head, &[1, -4, 4], &SubBox::UNIT);
    assert_eq!(values, [2, -2, 2]);
    assert_eq!(fate(&head, &SubBox::UNIT, &values), Fate::Cut { r: 0 });
    let stop = ran(&head, &[1, -4, 4], 1000, 8);
    assert_eq!(
        (stop.answer, stop.state),
        (Answer::Finished, counts(0, 2, 3, 0))
    );
}

#[test]
fn a_full_list_is_not_finished() {
    let stop = ran(&one(0, 1), &[0], 1000, 1);
    assert_eq!(
        (stop.answer, stop.state),
        (Answer::Full, counts(1, 1, 2, 0))
    );
    // Filled by the very last keep, it is.
    let stop = ran(&one(0, 1), &[0], 1000, 2);
    assert_eq!(stop.answer, Answer::Finished);
}

#[test]
fn the_lowest_deciding_polynomial_is_named() {
    let head = head([1, 3, 1, 0, 0, 1, 0, 0]);
    let drop = fate(&head, &SubBox::UNIT, &[0, 1, -3, -2, 5, 6]);
    let sign = Sign::Below;
    assert_eq!(
        drop,
        Fate::Dropped {
            polynomial: 2,
            sign
        }
    );
}

#[test]
fn kept_records_and_what_lies_past_them() {
    let stop = ran(&one(1, 2), &[-1, 2], 1000, 4);
    let first = SubBox::from_numbers([2, 1, 0, 0, 0, 0]);
    assert_eq!(
        stop.list[0],
        Kept {
            sub_box: first,
            mark: 1
        }
    );
    assert_eq!(stop.list[2..], [Kept::default(); 2]);
    // All slots are given up, and nothing beyond D + 1 slots is written.
    let end = one(1, 2).store_length();
    assert!(stop.store[..end].iter().all(|z| *z == 0));
    assert_eq!(stop.store[end..], [LITTER; 3]);
}
