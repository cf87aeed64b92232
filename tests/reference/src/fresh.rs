//! A run from a fresh start in which every number of every box comes from the
//! formula on that very box. Waiting boxes are kept without numbers: nothing of
//! one box's numbers is used for another's.

use crate::boxes::{Half, SubBox};
use crate::exact::numbers;
use crate::head::Head;
use crate::rules::{fate, Answer, Fate};
use crate::state::{put_slot, Kept, State};

pub struct Fresh {
    pub answer: Answer,
    pub visits: u64,
    pub dropped: u64,
    pub kept: Vec<Kept>,
    /// The top is last.
    pub waiting: Vec<SubBox>,
}

/// The head and the coefficients are good.
pub fn fresh_run(head: &Head, coefficients: &[i64], budget: u64, room: usize) -> Fresh {
    let mut at = Fresh {
        answer: Answer::Finished,
        visits: 0,
        dropped: 0,
        kept: Vec::new(),
        waiting: vec![SubBox::UNIT],
    };
    while let Some(top) = at.waiting.last().copied() {
        if at.visits == budget {
            at.answer = Answer::Spent;
            break;
        }
        let fate = fate(head, &top, &numbers(head, coefficients, &top));
        if matches!(fate, Fate::Kept { .. }) && at.kept.len() == room {
            at.answer = Answer::Full;
            break;
        }
        at.visits += 1;
        at.waiting.pop();
        match fate {
            Fate::Dropped { .. } => at.dropped += 1,
            Fate::Kept { mark } => at.kept.push(Kept { sub_box: top, mark }),
            Fate::Cut { r } => {
                at.waiting.push(top.halved(r, Half::Upper));
                at.waiting.push(top.halved(r, Half::Lower));
            }
        }
    }
    at
}

impl Fresh {
    pub fn state(&self) -> State {
        State {
            waiting: self.waiting.len() as u64,
            kept: self.kept.len() as u64,
            visits: self.visits,
            dropped: self.dropped,
        }
    }

    /// What the D + 1 slots of the waiting store hold at this stop.
    pub fn store(&self, head: &Head, coefficients: &[i64]) -> Vec<i64> {
        let mut store = vec![0; head.store_length()];
        for (p, sub_box) in self.waiting.iter().enumerate() {
            let values = numbers(head, coefficients, sub_box);
            put_slot(head, &mut store, p, sub_box, &values);
        }
        store
    }
}
