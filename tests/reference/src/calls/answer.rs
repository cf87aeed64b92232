//! A call made on its lent memory, and the seven lines printed of it.

use super::wire::list_numbers;
use super::{Call, Kind};
use crate::boxes::{Fraction, Half};
use crate::hash;
use crate::head::Head;
use crate::program::joined;
use crate::read::read;
use crate::records::Reader;
use crate::refusal::Refusal;
use crate::rules::{Fate, Sign};
use crate::run::run;
use crate::state::{check, start};
use crate::visit::{visit, Visit, VisitAnswer};
use crate::write::write;

/// What is printed of a buffer: its hash, or all of it for a closer look.
#[derive(Clone, Copy, PartialEq, Eq)]
pub enum Memory {
    Hashed,
    Whole,
}

/// Makes the call; its state and buffers are afterwards as the call leaves them.
pub fn make_call(call: &mut Call) -> String {
    answer(call).unwrap_or_else(|refusal| refusal.to_string())
}

/// The seven lines of call number `index` of a sequence, counted from 0.
pub fn answer_text(index: usize, call: &mut Call, memory: Memory) -> String {
    let answer = make_call(call);
    let state = call.state;
    let counts = [state.waiting, state.kept, state.visits, state.dropped];
    let bytes: Vec<i64> = call.file.iter().map(|byte| *byte as i64).collect();
    let file = match memory {
        Memory::Hashed => format!("{:016x}", hash::of_bytes(call.file.iter().copied())),
        Memory::Whole => joined(bytes),
    };
    let numbers = |numbers: &[i64]| match memory {
        Memory::Hashed => format!("{:016x}", hash::of_numbers(numbers)),
        Memory::Whole => joined(numbers),
    };
    let lines = [
        format!("call {index} {}", call.kind.word()),
        answer,
        format!("state {}", joined(counts)),
        format!("file {} {file}", call.file.len()),
        format!(
            "coefficients {} {}",
            call.coefficients.len(),
            numbers(&call.coefficients)
        ),
        format!("waiting {} {}", call.store.len(), numbers(&call.store)),
        format!(
            "kept {} {}",
            call.list.len(),
            numbers(&list_numbers(&call.list))
        ),
    ];
    lines
        .map(|line| line.trim_end().to_string() + "\n")
        .concat()
}

fn answer(call: &mut Call) -> Result<String, Refusal> {
    let head = Head::from_bytes(call.head);
    match call.kind {
        Kind::Read => {
            let head = read(&call.file, &mut call.coefficients)?;
            Ok(format!("read {}", joined(head.values())))
        }
        Kind::Write => {
            let length = write(&head, &call.coefficients, &mut call.file)?;
            Ok(format!("written {length}"))
        }
        Kind::Start => {
            call.state = start(&head, &call.coefficients, &mut call.store)?;
            Ok("started".to_string())
        }
        Kind::Check => {
            check(&head, &call.state, &call.store, call.list.len())?;
            Ok("sound".to_string())
        }
        Kind::Visit => {
            let answer = visit(&head, &mut call.state, &mut call.store, &mut call.list)?;
            Ok(visit_words(answer))
        }
        Kind::Run => {
            let budget = call.budget;
            let (store, list) = (&mut call.store, &mut call.list);
            let answer = run(&head, &mut call.state, budget, store, list)?;
            Ok(answer.word().to_string())
        }
        Kind::Half | Kind::Middle => box_answer(call),
        Kind::Record => record_answer(call),
    }
}

fn box_answer(call: &Call) -> Result<String, Refusal> {
    if call.kind == Kind::Middle {
        let middles = call.sub_box.middles()?.map(shown);
        let half_widths = call.sub_box.half_widths()?.map(shown);
        return Ok(format!(
            "middle {} {}",
            joined(middles),
            joined(half_widths)
        ));
    }
    let half = match call.half {
        0 => Half::Lower,
        _ => Half::Upper,
    };
    // A direction too large for the type is as bad as any other.
    let direction = i64::try_from(call.direction).unwrap_or(0);
    let child = call.sub_box.half(direction, half)?;
    Ok(format!("box {}", joined(child.numbers())))
}

/// The double times 2^63: whole for every double from 2^-11 to 1, and different
/// for different ones, so no bit of it is hidden.
fn shown(fraction: Fraction) -> u64 {
    let double = fraction.double();
    let shown = (double * (1u64 << 63) as f64) as u64;
    let exact = (fraction.numerator as u64) << (63 - fraction.shift);
    assert_eq!(shown, exact, "a double that is not exact");
    shown
}

fn record_answer(call: &Call) -> Result<String, Refusal> {
    let offset = usize::try_from(call.offset).unwrap_or(usize::MAX);
    let mut reader = Reader {
        file: &call.file,
        offset,
    };
    let record = reader.step()?;
    let hash = hash::of_bytes(record.body.iter().copied());
    let (kind, length) = (record.kind, record.body.len());
    Ok(format!(
        "record {kind} {length} {hash:016x} {}",
        reader.offset
    ))
}

/// The outcome, then the box.
fn visit_words(answer: VisitAnswer) -> String {
    match answer {
        VisitAnswer::Finished => "finished".to_string(),
        VisitAnswer::Full => "full".to_string(),
        VisitAnswer::Made(Visit { sub_box, fate }) => {
            format!("{} {}", fate_words(fate), joined(sub_box.numbers()))
        }
    }
}

fn fate_words(fate: Fate) -> String {
    match fate {
        Fate::Dropped { polynomial, sign } => match sign {
            Sign::Above => format!("dropped {polynomial} above"),
            Sign::Below => format!("dropped {polynomial} below"),
        },
        Fate::Kept { mark } => format!("kept {mark}"),
        Fate::Cut { r } => format!("cut {}", r + 1),
    }
}
