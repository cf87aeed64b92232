//! The table of makers, and the seeded sequence that `make-calls` writes: the
//! makers in turn, so that a few hundred calls hold every kind.

use super::{clauses, files, fresh, made, single, Call};
use crate::random::Random;

type Maker = fn(&mut Random) -> Vec<Call>;

const MAKERS: [(&str, Maker); 31] = [
    ("read-whole", files::read_whole),
    ("target-whole", files::target_whole),
    ("run-in-pieces", fresh::run_in_pieces),
    ("clauses-of-ten", clauses::clauses_of_ten),
    ("bound-of-a-cut", made::bound_of_a_cut),
    ("half", single::half),
    ("middle", single::middle),
    ("record-step", files::record_step),
    ("visits", fresh::visits),
    ("made-state", made::made_state),
    ("read-short", files::read_short),
    ("read-short-and-extended", files::read_short_and_extended),
    ("read-truncated", files::read_truncated),
    ("read-flipped", files::read_flipped),
    ("read-extended", files::read_extended),
    ("read-faulty", files::read_faulty),
    ("target-short", files::target_short),
    ("coefficient-beyond", files::coefficient_beyond),
    ("coefficients-short", files::coefficients_short),
    ("head-bad", files::head_bad),
    ("run-whole", fresh::run_whole),
    ("run-without-budget", fresh::run_without_budget),
    ("visits-deeper", fresh::visits_deeper),
    ("room-used-up", fresh::room_used_up),
    ("store-short", fresh::store_short),
    ("all-slots-waiting", made::all_slots_waiting),
    ("list-full", made::list_full),
    ("visits-at-the-end", made::visits_at_the_end),
    ("head-bad-in-a-run", clauses::head_bad_in_a_run),
    ("half-refused", single::half_refused),
    ("middle-refused", single::middle_refused),
];

/// COUNT calls, each with the name of its maker.
pub fn make_calls(seed: u64, count: usize) -> impl Iterator<Item = (&'static str, Call)> {
    let mut random = Random::new(seed);
    let rounds = MAKERS.iter().cycle();
    rounds
        .flat_map(move |(name, maker)| {
            maker(&mut random)
                .into_iter()
                .map(move |call| (*name, call))
        })
        .take(count)
}
