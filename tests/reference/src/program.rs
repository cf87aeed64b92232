//! What the desk program prints (01, The program), and the text of `read`.
//! Every line ends in one LF.

use crate::fresh::{fresh_run, Fresh};
use crate::read::read_system;

/// The program reads this much of its input; what follows is not seen.
pub const INPUT_LIMIT: usize = 4096;
pub const BUDGET: u64 = 1_000_000;
pub const ROOM: usize = 1024;

fn seen(input: &[u8]) -> &[u8] {
    &input[..input.len().min(INPUT_LIMIT)]
}

/// Numbers with single blanks between them.
pub fn joined<T: ToString>(numbers: impl IntoIterator<Item = T>) -> String {
    let words: Vec<String> = numbers.into_iter().map(|n| n.to_string()).collect();
    words.join(" ")
}

pub fn solve_text(input: &[u8]) -> String {
    match read_system(seen(input)) {
        Err(refusal) => format!("{refusal}\n"),
        Ok((head, coefficients)) => run_text(&fresh_run(&head, &coefficients, BUDGET, ROOM)),
    }
}

/// The answer word, visits, dropped, kept, waiting; then a line per kept box.
pub fn run_text(run: &Fresh) -> String {
    let state = run.state();
    let counts = [state.visits, state.dropped, state.kept, state.waiting];
    let mut text = format!("{} {}\n", run.answer.word(), joined(counts));
    for kept in &run.kept {
        let numbers = joined(kept.sub_box.numbers());
        text += &format!("{numbers} {}\n", kept.mark);
    }
    text
}

/// `head` and its eight values; per polynomial its number and its S coefficients.
pub fn read_text(input: &[u8]) -> String {
    match read_system(seen(input)) {
        Err(refusal) => format!("{refusal}\n"),
        Ok((head, coefficients)) => {
            let mut text = format!("head {}\n", joined(head.values()));
            for (p, values) in coefficients.chunks(head.size()).enumerate() {
                text += &format!("polynomial {} {}\n", p + 1, joined(values));
            }
            text
        }
    }
}
