//! A system file read from the front, with 01's exact order of refusals
//! (01, Refusal numbers, "Reading goes from the front").

use crate::head::{Head, COEFFICIENT_LIMIT};
use crate::records::{present, two_bytes};
use crate::refusal::Refusal;

/// The call: fills the first m × S places, or refuses and changes nothing.
pub fn read(file: &[u8], coefficients: &mut [i64]) -> Result<Head, Refusal> {
    let (head, values) = read_system(file)?;
    if coefficients.len() < values.len() {
        return Err(Refusal::of(9));
    }
    coefficients[..values.len()].copy_from_slice(&values);
    Ok(head)
}

/// The same with as much room as it takes: every refusal but 9.
pub fn read_system(file: &[u8]) -> Result<(Head, Vec<i64>), Refusal> {
    let mut at = 0;
    let body = due_record(file, at, 1, |length| length == 8)?;
    let head = Head::from_bytes(body.try_into().unwrap());
    head.check()
        .map_err(|refusal| Refusal::at(refusal.number, at))?;
    at += 4 + body.len();
    let mut coefficients = Vec::new();
    for number in 1..=head.polynomials {
        let whole_terms = |length| length % 7 == 1 && length / 7 <= head.size();
        let body = due_record(file, at, 2, whole_terms)?;
        if body[0] as usize != number {
            return Err(Refusal::at(2, at));
        }
        coefficients.extend(read_terms(&head, &body[1..], at + 5)?);
        at += 4 + body.len();
    }
    due_record(file, at, 3, |length| length == 0)?;
    at += 4;
    match at < file.len() {
        true => Err(Refusal::at(8, at)),
        false => Ok((head, coefficients)),
    }
}

/// The body of the record due at `at`. Kind and length come before "body present".
fn due_record(
    file: &[u8],
    at: usize,
    kind: u16,
    length_fits: impl Fn(usize) -> bool,
) -> Result<&[u8], Refusal> {
    if !present(file, at, 4) {
        return Err(Refusal::at(1, at));
    }
    if two_bytes(file, at + 2) != kind {
        return Err(Refusal::at(2, at));
    }
    let length = two_bytes(file, at) as usize;
    if !length_fits(length) {
        return Err(Refusal::at(3, at));
    }
    if !present(file, at + 4, length) {
        return Err(Refusal::at(1, at));
    }
    Ok(&file[at + 4..at + 4 + length])
}

/// One polynomial's coefficients; `at` is the offset of the first term.
fn read_terms(head: &Head, terms: &[u8], at: usize) -> Result<Vec<i64>, Refusal> {
    let mut values = vec![0; head.size()];
    let mut before = None;
    for (t, bytes) in terms.chunks(7).enumerate() {
        let offset = at + 7 * t;
        let term = [bytes[0] as usize, bytes[1] as usize, bytes[2] as usize];
        if (0..3).any(|r| term[r] > head.degrees[r]) {
            return Err(Refusal::at(5, offset));
        }
        let value = i32::from_le_bytes(bytes[3..].try_into().unwrap()) as i64;
        if value == 0 || !(-COEFFICIENT_LIMIT..=COEFFICIENT_LIMIT).contains(&value) {
            return Err(Refusal::at(6, offset));
        }
        let place = head.place(term);
        if matches!(before, Some(before) if place <= before) {
            return Err(Refusal::at(7, offset));
        }
        values[place] = value;
        before = Some(place);
    }
    Ok(values)
}
