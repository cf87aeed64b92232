//! The two ways agree on fresh starts: numbers by the formula on each box, and
//! numbers cut in the lent stores; in one call and in pieces.

mod common;

use common::*;
use reference::boxes::SubBox;
use reference::fresh::fresh_run;
use reference::generate::any_system;
use reference::random::Random;
use reference::run::run;
use reference::state::{check, Kept};
use reference::systems::{any_head, filling, outgrown, planted_at, Point, System};
use reference::visit::{visit, VisitAnswer};

fn ways_agree(system: &System, budget: u64, room: usize) {
    let (head, a) = (&system.head, &system.coefficients);
    let fresh = fresh_run(head, a, budget, room);
    let stop = ran(head, a, budget, room);
    assert_eq!((stop.answer, stop.state), (fresh.answer, fresh.state()));
    assert_eq!(stop.list[..fresh.kept.len()], fresh.kept);
    assert_eq!(stop.store[..head.store_length()], fresh.store(head, a));
    assert_eq!(stop.store[head.store_length()..], [LITTER; 3]);
    assert_eq!(check(head, &stop.state, &stop.store, room), Ok(()));
}

#[test]
fn formula_and_cutting_rule_agree() {
    let mut random = Random::new(5);
    for _ in 0..400 {
        let system = any_system(&mut random);
        let budget = random.pick(&[0, 1, 10, 100, 1000, 3000]);
        let room = random.pick(&[0, 1, 10, 1024]);
        ways_agree(&system, budget, room);
    }
}

#[test]
fn also_where_numbers_outgrow_the_cut_and_lists_fill() {
    let mut random = Random::new(6);
    let mut marks = 0;
    for _ in 0..40 {
        let system = outgrown(&mut random);
        ways_agree(&system, 2000, 1024);
        let fresh = fresh_run(&system.head, &system.coefficients, 2000, 1024);
        marks += fresh.kept.iter().filter(|kept| kept.mark == 2).count();
        ways_agree(&filling(&mut random), 4000, 1024);
    }
    assert!(marks > 0);
}

/// Pieces with growing lists end where one call does, slots and list alike.
#[test]
fn pieces_end_where_one_call_does() {
    let mut random = Random::new(7);
    for _ in 0..300 {
        let system = any_system(&mut random);
        let (head, a) = (&system.head, &system.coefficients);
        let (mut state, mut store) = started(head, a);
        let mut list = Vec::new();
        for _ in 0..6 {
            list.resize(list.len() + random.below(9), Kept::default());
            let budget = random.below(60) as u64;
            run(head, &mut state, budget, &mut store, &mut list).unwrap();
        }
        let whole = ran(head, a, state.visits, list.len());
        assert_eq!((state, &store), (whole.state, &whole.store));
        assert_eq!(list, whole.list);
    }
}

#[test]
fn visits_one_by_one_are_a_run() {
    let mut random = Random::new(8);
    for _ in 0..200 {
        let system = any_system(&mut random);
        let (head, a) = (&system.head, &system.coefficients);
        let (mut state, mut store) = started(head, a);
        let mut list = vec![Kept::default(); random.below(20)];
        let most = random.below(100) as u64;
        let made = |answer| matches!(answer, Ok(VisitAnswer::Made(_)));
        while state.visits < most && made(visit(head, &mut state, &mut store, &mut list)) {}
        let whole = ran(head, a, most, list.len());
        assert_eq!((state, store, list), (whole.state, whole.store, whole.list));
    }
}

/// Edges counted.
fn holds(sub_box: &SubBox, point: &Point) -> bool {
    (0..3).all(|r| {
        let (x, q) = point[r];
        let (s, k) = (sub_box.cuts[r], sub_box.positions[r]);
        k * q <= x << s && x << s <= (k + 1) * q
    })
}

/// Wherever a run stops, a planted zero lies in a kept or in a waiting box.
#[test]
fn no_planted_zero_is_lost() {
    let mut random = Random::new(9);
    for _ in 0..400 {
        let head = any_head(&mut random, 6);
        let (system, point) = planted_at(&mut random, head);
        let budget = random.pick(&[5, 50, 500, 5000]);
        let fresh = fresh_run(&head, &system.coefficients, budget, 64);
        let mut left = fresh
            .kept
            .iter()
            .map(|kept| kept.sub_box)
            .chain(fresh.waiting);
        assert!(left.any(|sub_box| holds(&sub_box, &point)));
    }
}

/// Of two fresh runs the one with more visits and room begins its list with the
/// other's whole list.
#[test]
fn longer_lists_begin_with_shorter_ones() {
    let mut random = Random::new(10);
    for _ in 0..100 {
        let system = any_system(&mut random);
        let (head, a) = (&system.head, &system.coefficients);
        let short = fresh_run(head, a, 200, 10);
        let long = fresh_run(head, a, 500, 20);
        assert!(long.kept.starts_with(&short.kept));
    }
}
