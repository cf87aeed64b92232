//! One visit in the lent stores (01, One visit). The numbers stand in the slot,
//! so the halves' numbers come from the cutting rule.

use crate::boxes::{Half, SubBox};
use crate::cut::cut_numbers;
use crate::head::Head;
use crate::refusal::Refusal;
use crate::rules::{fate, Fate};
use crate::state::{check, clear_slot, put_slot, slot, Kept, State};

/// The small record that a visit answers with.
#[derive(Clone, Copy, Debug, PartialEq, Eq)]
pub struct Visit {
    pub sub_box: SubBox,
    pub fate: Fate,
}

#[derive(Clone, Copy, Debug, PartialEq, Eq)]
pub enum VisitAnswer {
    Finished,
    Full,
    Made(Visit),
}

/// The call: refusals as a run's, then finished, then full, then the visit.
pub fn visit(
    head: &Head,
    state: &mut State,
    store: &mut [i64],
    list: &mut [Kept],
) -> Result<VisitAnswer, Refusal> {
    check(head, state, store, list.len())?;
    if state.waiting == 0 {
        return Ok(VisitAnswer::Finished);
    }
    let visit = look(head, state, store);
    if no_room(&visit, state, list) {
        return Ok(VisitAnswer::Full);
    }
    make(head, &visit, state, store, list);
    Ok(VisitAnswer::Made(visit))
}

/// What the rules say of the top box. Something waits and the state is checked.
pub fn look(head: &Head, state: &State, store: &[i64]) -> Visit {
    let (sub_box, numbers) = slot(head, store, state.waiting as usize - 1);
    let fate = fate(head, &sub_box, numbers);
    Visit { sub_box, fate }
}

/// Whether the box would be kept and the list has no room.
pub fn no_room(visit: &Visit, state: &State, list: &[Kept]) -> bool {
    matches!(visit.fate, Fate::Kept { .. }) && state.kept >= list.len() as u64
}

/// The visit made: counts, slots and list.
pub fn make(head: &Head, visit: &Visit, state: &mut State, store: &mut [i64], list: &mut [Kept]) {
    let top = state.waiting as usize - 1;
    let sub_box = visit.sub_box;
    state.visits += 1;
    match visit.fate {
        Fate::Dropped { .. } => {
            clear_slot(head, store, top);
            state.waiting -= 1;
            state.dropped += 1;
        }
        Fate::Kept { mark } => {
            list[state.kept as usize] = Kept { sub_box, mark };
            clear_slot(head, store, top);
            state.waiting -= 1;
            state.kept += 1;
        }
        Fate::Cut { r } => {
            let (lower, upper) = cut_numbers(head, r, slot(head, store, top).1);
            put_slot(head, store, top, &sub_box.halved(r, Half::Upper), &upper);
            put_slot(
                head,
                store,
                top + 1,
                &sub_box.halved(r, Half::Lower),
                &lower,
            );
            state.waiting += 1;
        }
    }
}
