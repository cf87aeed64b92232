//! Seeded faults in system files: cut short, one byte changed, extended, or
//! faulty in the way one refusal speaks of.

use crate::random::Random;
use crate::records::Reader;
use crate::write::record;

pub fn truncated(random: &mut Random, file: &[u8]) -> Vec<u8> {
    file[..random.below(file.len())].to_vec()
}

/// One byte with one bit turned, or with any other value.
pub fn flipped(random: &mut Random, file: &[u8]) -> Vec<u8> {
    let mut other = file.to_vec();
    let position = random.below(file.len());
    other[position] ^= match random.once_in(2) {
        true => 1 << random.below(8),
        false => 1 + random.below(255) as u8,
    };
    other
}

pub fn extended(random: &mut Random, file: &[u8]) -> Vec<u8> {
    let mut longer = file.to_vec();
    // Now and then beyond the 4,096 bytes that the program sees.
    let count = match random.once_in(8) {
        true => 5000,
        false => 1 + random.below(8),
    };
    longer.extend((0..count).map(|_| random.draw() as u8));
    longer
}

type Records = Vec<(u16, Vec<u8>)>;

fn records_of(file: &[u8]) -> Records {
    let mut reader = Reader { file, offset: 0 };
    let mut records = Vec::new();
    while let Ok(record) = reader.step() {
        records.push((record.kind, record.body.to_vec()));
    }
    records
}

type Fault = fn(&mut Random, &mut Records);

const FAULTS: [Fault; 11] = [
    other_kind,
    other_length,
    other_number,
    other_head,
    exponent_above,
    coefficient_bad,
    terms_swapped,
    term_repeated,
    too_many_terms,
    record_removed,
    record_repeated,
];

/// One fault, or two at once so that their order shows; perhaps also cut short.
pub fn faulty(random: &mut Random, file: &[u8]) -> Vec<u8> {
    let mut records = records_of(file);
    for _ in 0..1 + random.below(2) {
        let fault = random.pick(&FAULTS);
        fault(random, &mut records);
    }
    let bytes = records.iter().flat_map(|(kind, body)| record(*kind, body));
    let mut bytes: Vec<u8> = bytes.collect();
    if random.once_in(4) {
        bytes.truncate(random.below(bytes.len() + 1));
    }
    bytes
}

fn other_kind(random: &mut Random, records: &mut Records) {
    let r = random.below(records.len());
    records[r].0 = random.pick(&[0, 1, 2, 3, 4, 0x0101, 0x0201, 0x0302, 0xffff]);
}

fn other_length(random: &mut Random, records: &mut Records) {
    let r = random.below(records.len());
    let length = records[r].1.len();
    let longer = length + 1 + random.below(8);
    let to = random.pick(&[
        0,
        length.saturating_sub(1),
        length.saturating_sub(7),
        longer,
    ]);
    records[r].1.resize(to, random.draw() as u8);
}

/// A polynomial's record, where there is one with at least `terms` terms.
fn polynomial<'a>(
    random: &mut Random,
    records: &'a mut Records,
    terms: usize,
) -> Option<&'a mut Vec<u8>> {
    let fits = |record: &&mut (u16, Vec<u8>)| record.0 == 2 && record.1.len() > 7 * terms;
    let mut found: Vec<_> = records.iter_mut().filter(fits).collect();
    match found.len() {
        0 => None,
        count => Some(&mut found.swap_remove(random.below(count)).1),
    }
}

/// The first byte of some term.
fn some_term(random: &mut Random, body: &[u8]) -> usize {
    1 + 7 * random.below((body.len() - 1) / 7)
}

fn other_number(random: &mut Random, records: &mut Records) {
    let number = random.pick(&[0, 1, 2, 3, 4, 255]);
    if let Some(body) = polynomial(random, records, 0) {
        body[0] = number;
    }
}

fn other_head(random: &mut Random, records: &mut Records) {
    let value = random.pick(&[0, 1, 3, 4, 6, 7, 10, 11, 128, 255]);
    let position = random.below(8);
    if records[0].1.len() == 8 {
        records[0].1[position] = value;
    }
}

fn exponent_above(random: &mut Random, records: &mut Records) {
    let value = random.pick(&[1, 6, 7, 128, 255]);
    let exponent = random.below(3);
    if let Some(body) = polynomial(random, records, 1) {
        body[1 + exponent] = value;
    }
}

fn coefficient_bad(random: &mut Random, records: &mut Records) {
    let limit = 1_000_000_000;
    let bad = [0, limit + 1, -limit - 1, i32::MIN, i32::MAX, limit, -limit];
    let value = random.pick(&bad);
    let draw = random.draw();
    if let Some(body) = polynomial(random, records, 1) {
        let at = some_term(&mut Random::new(draw), body);
        body[at + 3..at + 7].copy_from_slice(&value.to_le_bytes());
    }
}

fn terms_swapped(random: &mut Random, records: &mut Records) {
    if let Some(body) = polynomial(random, records, 2) {
        let (first, second) = body[1..15].split_at_mut(7);
        first.swap_with_slice(second);
    }
}

fn term_repeated(random: &mut Random, records: &mut Records) {
    let draw = random.draw();
    if let Some(body) = polynomial(random, records, 1) {
        let at = some_term(&mut Random::new(draw), body);
        let term = body[at..at + 7].to_vec();
        body.splice(at..at, term);
    }
}

fn too_many_terms(random: &mut Random, records: &mut Records) {
    if let Some(body) = polynomial(random, records, 1) {
        let term = body[1..8].to_vec();
        while body.len() <= 1 + 7 * 64 {
            body.extend(&term);
        }
    }
}

fn record_removed(random: &mut Random, records: &mut Records) {
    if records.len() > 1 {
        records.remove(random.below(records.len()));
    }
}

fn record_repeated(random: &mut Random, records: &mut Records) {
    let r = random.below(records.len());
    records.insert(r, records[r].clone());
}
