//! A system file written (01, The system file; its order of refusals is
//! 4, 9 for short coefficients, 6, 9 for a short target).

use crate::head::{check_coefficients, Head};
use crate::refusal::Refusal;

/// The call: how many bytes at the front of the target are the file.
pub fn write(head: &Head, coefficients: &[i64], target: &mut [u8]) -> Result<usize, Refusal> {
    head.check()?;
    check_coefficients(head, coefficients)?;
    let file = file_of(head, coefficients);
    if target.len() < file.len() {
        return Err(Refusal::of(9));
    }
    target[..file.len()].copy_from_slice(&file);
    Ok(file.len())
}

/// The bytes of a system whose head and coefficients are good.
pub fn file_of(head: &Head, coefficients: &[i64]) -> Vec<u8> {
    let mut file = record(1, &head.bytes());
    for (p, values) in coefficients[..head.all_terms()]
        .chunks(head.size())
        .enumerate()
    {
        let mut body = vec![p as u8 + 1];
        for (term, value) in head.terms().iter().zip(values) {
            // A place without a term is 0, and a zero is not written.
            if *value != 0 {
                body.extend(term.map(|exponent| exponent as u8));
                body.extend((*value as i32).to_le_bytes());
            }
        }
        file.extend(record(2, &body));
    }
    file.extend(record(3, &[]));
    file
}

/// Length of the body, kind, body.
pub fn record(kind: u16, body: &[u8]) -> Vec<u8> {
    let mut bytes = (body.len() as u16).to_le_bytes().to_vec();
    bytes.extend(kind.to_le_bytes());
    bytes.extend(body);
    bytes
}
