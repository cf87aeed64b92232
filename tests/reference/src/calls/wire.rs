//! A call as bytes: twenty header fields of eight bytes, then the four buffers.

use super::{Call, Kind};
use crate::boxes::SubBox;
use crate::state::{Kept, State};

pub const FIELDS: usize = 20;
pub const MOST_FILE: usize = 4096;
pub const MOST_COEFFICIENTS: usize = 200;
/// 31 slots of 198 numbers and a few.
pub const MOST_STORE: usize = 6200;
pub const MOST_LIST: usize = 64;

pub fn encode(call: &Call) -> Vec<u8> {
    let state = call.state;
    let mut fields = vec![
        call.kind as u64,
        call.file.len() as u64,
        call.coefficients.len() as u64,
        call.store.len() as u64,
        call.list.len() as u64,
        u64::from_le_bytes(call.head),
        state.waiting,
        state.kept,
        state.visits,
        state.dropped,
        call.budget,
        call.direction,
        call.half,
    ];
    fields.extend(call.sub_box.numbers().map(|number| number as u64));
    fields.push(call.offset);
    let mut bytes: Vec<u8> = fields
        .iter()
        .flat_map(|field| field.to_le_bytes())
        .collect();
    bytes.extend(&call.file);
    bytes.extend(
        call.coefficients
            .iter()
            .flat_map(|number| number.to_le_bytes()),
    );
    bytes.extend(call.store.iter().flat_map(|number| number.to_le_bytes()));
    bytes.extend(
        list_numbers(&call.list)
            .iter()
            .flat_map(|number| number.to_le_bytes()),
    );
    bytes
}

/// Seven numbers per record: s1, k1, s2, k2, s3, k3, mark.
pub fn list_numbers(list: &[Kept]) -> Vec<i64> {
    let mut numbers = Vec::new();
    for kept in list {
        numbers.extend(kept.sub_box.numbers());
        numbers.push(kept.mark);
    }
    numbers
}

/// The next call and the bytes after it; None at the end of the input.
pub fn decode(input: &[u8]) -> Result<Option<(Call, &[u8])>, String> {
    if input.is_empty() {
        return Ok(None);
    }
    let mut rest = input;
    let field: Vec<u64> = take_numbers(&mut rest, FIELDS)?
        .iter()
        .map(|z| *z as u64)
        .collect();
    let kind = Kind::ALL.into_iter().find(|kind| *kind as u64 == field[0]);
    let mut call = Call::new(kind.ok_or_else(|| format!("no call has number {}", field[0]))?);
    let most = [MOST_FILE, MOST_COEFFICIENTS, MOST_STORE, MOST_LIST];
    if (0..4).any(|b| field[1 + b] > most[b] as u64) {
        return Err("a buffer beyond its limit".to_string());
    }
    call.head = field[5].to_le_bytes();
    call.state = State {
        waiting: field[6],
        kept: field[7],
        visits: field[8],
        dropped: field[9],
    };
    (call.budget, call.direction, call.half) = (field[10], field[11], field[12]);
    call.sub_box = box_of(&field[13..19]);
    call.offset = field[19];
    call.file = take(&mut rest, field[1] as usize)?.to_vec();
    call.coefficients = take_numbers(&mut rest, field[2] as usize)?;
    call.store = take_numbers(&mut rest, field[3] as usize)?;
    let records = take_numbers(&mut rest, 7 * field[4] as usize)?;
    call.list = records.chunks(7).map(kept_of).collect();
    Ok(Some((call, rest)))
}

fn box_of(fields: &[u64]) -> SubBox {
    SubBox::from_numbers([0, 1, 2, 3, 4, 5].map(|f| fields[f] as i64))
}

fn kept_of(numbers: &[i64]) -> Kept {
    Kept {
        sub_box: SubBox::from_numbers(numbers[..6].try_into().unwrap()),
        mark: numbers[6],
    }
}

fn take<'a>(rest: &mut &'a [u8], count: usize) -> Result<&'a [u8], String> {
    if rest.len() < count {
        return Err("the input ends inside a call".to_string());
    }
    let (taken, after) = rest.split_at(count);
    *rest = after;
    Ok(taken)
}

fn take_numbers(rest: &mut &[u8], count: usize) -> Result<Vec<i64>, String> {
    let bytes = take(rest, 8 * count)?;
    let number = |bytes: &[u8]| i64::from_le_bytes(bytes.try_into().unwrap());
    Ok(bytes.chunks(8).map(number).collect())
}
