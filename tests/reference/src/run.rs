//! A run in the lent stores, from any state (01, Runs). The budget counts the
//! visits of this call.

use crate::head::Head;
use crate::refusal::Refusal;
use crate::rules::Answer;
use crate::state::{check, Kept, State};
use crate::visit::{look, make, no_room};

pub fn run(
    head: &Head,
    state: &mut State,
    budget: u64,
    store: &mut [i64],
    list: &mut [Kept],
) -> Result<Answer, Refusal> {
    check(head, state, store, list.len())?;
    let mut left = budget;
    loop {
        if state.waiting == 0 {
            return Ok(Answer::Finished);
        }
        if left == 0 {
            return Ok(Answer::Spent);
        }
        let visit = look(head, state, store);
        if no_room(&visit, state, list) {
            return Ok(Answer::Full);
        }
        make(head, &visit, state, store, list);
        left -= 1;
    }
}
