//! Every truncation, every change of one byte and two extensions of one file,
//! each with the answer of `read`, as text (see FORMATS.md).

use crate::hash;
use crate::program::joined;
use crate::read::read_system;

/// The answer of `read` on one line.
pub fn answer(file: &[u8]) -> String {
    match read_system(file) {
        Err(refusal) => refusal.to_string(),
        Ok((head, coefficients)) => {
            let hash = hash::of_numbers(&coefficients);
            let values = joined(head.values());
            format!("read {values} {} {hash:016x}", coefficients.len())
        }
    }
}

/// The lengths that a file is extended by, with zero bytes.
pub const EXTENSIONS: [usize; 2] = [1, 7];

pub fn extended(file: &[u8], count: usize) -> Vec<u8> {
    let mut longer = file.to_vec();
    longer.resize(file.len() + count, 0);
    longer
}

pub fn changed(file: &[u8], position: usize, value: u8) -> Vec<u8> {
    let mut other = file.to_vec();
    other[position] = value;
    other
}

pub fn sweep_text(file: &[u8]) -> String {
    let mut text = String::new();
    for length in 0..=file.len() {
        text += &format!("length {length} {}\n", answer(&file[..length]));
    }
    for position in 0..file.len() {
        text += &changes_text(file, position);
    }
    for count in EXTENSIONS {
        text += &format!("longer {count} {}\n", answer(&extended(file, count)));
    }
    text
}

/// Values in a row with one answer share a line. The byte's own value is left
/// out and ends a row.
fn changes_text(file: &[u8], position: usize) -> String {
    let mut rows: Vec<(u8, u8, String)> = Vec::new();
    for value in (0..=255).filter(|value| *value != file[position]) {
        let answer = answer(&changed(file, position, value));
        match rows.last_mut() {
            Some((_, last, same)) if *same == answer && *last as u16 + 1 == value as u16 => {
                *last = value
            }
            _ => rows.push((value, value, answer)),
        }
    }
    let lines = rows
        .iter()
        .map(|(first, last, answer)| format!("byte {position} {first}-{last} {answer}\n"));
    lines.collect()
}

/// The same cases in the same order, each change for itself.
pub fn sweep_cases(file: &[u8]) -> impl Iterator<Item = Vec<u8>> + '_ {
    let lengths = (0..=file.len()).map(|length| file[..length].to_vec());
    let changes = (0..file.len()).flat_map(move |position| {
        let others = (0..=255).filter(move |value| *value != file[position]);
        others.map(move |value| changed(file, position, value))
    });
    let longer = EXTENSIONS.map(|count| extended(file, count));
    lengths.chain(changes).chain(longer)
}
