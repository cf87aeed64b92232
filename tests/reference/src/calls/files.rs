//! Makers of read, write, start and record calls: good ones, buffers one short,
//! damaged files, and faults in pairs so that their order shows.

use super::basis::*;
use super::{Call, Kind};
use crate::damage;
use crate::head::Head;
use crate::random::Random;
use crate::write::file_of;

fn read_of(random: &mut Random, file: Vec<u8>, places: usize) -> Vec<Call> {
    let mut call = Call::new(Kind::Read);
    call.file = file;
    call.file.truncate(super::wire::MOST_FILE);
    call.coefficients = litters(random, places);
    vec![call]
}

fn some_file(random: &mut Random) -> (Vec<u8>, usize) {
    let system = some_system(random);
    let file = file_of(&system.head, &system.coefficients);
    (file, system.head.all_terms())
}

pub fn read_whole(random: &mut Random) -> Vec<Call> {
    let (file, places) = some_file(random);
    let beyond = random.below(4);
    read_of(random, file, places + beyond)
}

pub fn read_short(random: &mut Random) -> Vec<Call> {
    let (file, places) = some_file(random);
    read_of(random, file, places - 1)
}

/// 8 comes before 9.
pub fn read_short_and_extended(random: &mut Random) -> Vec<Call> {
    let (mut file, places) = some_file(random);
    file.push(0);
    read_of(random, file, places - 1)
}

fn read_damaged(random: &mut Random, damage: fn(&mut Random, &[u8]) -> Vec<u8>) -> Vec<Call> {
    let one = |_| {
        let (file, places) = some_file(random);
        let damaged = damage(random, &file);
        read_of(random, damaged, places)
    };
    (0..3).flat_map(one).collect()
}

pub fn read_truncated(random: &mut Random) -> Vec<Call> {
    read_damaged(random, damage::truncated)
}

pub fn read_flipped(random: &mut Random) -> Vec<Call> {
    read_damaged(random, damage::flipped)
}

pub fn read_extended(random: &mut Random) -> Vec<Call> {
    read_damaged(random, damage::extended)
}

pub fn read_faulty(random: &mut Random) -> Vec<Call> {
    read_damaged(random, damage::faulty)
}

/// The reader at a record's place, anywhere in the file, and beyond it.
pub fn record_step(random: &mut Random) -> Vec<Call> {
    let (file, _) = some_file(random);
    let mut call = Call::new(Kind::Record);
    let anywhere = random.below(file.len() + 1);
    let beyond = file.len() + 1 + random.below(9);
    let offset = random.pick(&[0, 12, anywhere, file.len() - 4, file.len(), beyond]);
    call.offset = offset as u64;
    call.file = match random.once_in(3) {
        true => damage::truncated(random, &file),
        false => file,
    };
    vec![call]
}

/// Write or start on a good system; the target is as long as it takes or longer.
fn on_target(random: &mut Random, kind: Kind) -> Call {
    let system = some_system(random);
    let mut call = on_system(random, kind, &system);
    let length = file_of(&system.head, &system.coefficients).len();
    let beyond = random.below(9);
    call.file = litter_bytes(random, length + beyond);
    call
}

/// Write or start; both have one order of refusals.
fn target_kind(random: &mut Random) -> Kind {
    random.pick(&[Kind::Write, Kind::Start])
}

pub fn target_whole(random: &mut Random) -> Vec<Call> {
    let kind = target_kind(random);
    vec![on_target(random, kind)]
}

/// The file or the store one place shorter than this call needs.
fn shorten_target(call: &mut Call) {
    let head = Head::from_bytes(call.head);
    let length = match head.check().is_ok() && call.coefficients.len() >= head.all_terms() {
        true => file_of(&head, &call.coefficients).len(),
        false => 1,
    };
    call.file.truncate(length - 1);
    let length = match head.check() {
        Ok(()) => head.store_length(),
        Err(_) => 1,
    };
    call.store.truncate(length - 1);
}

pub fn target_short(random: &mut Random) -> Vec<Call> {
    let kind = target_kind(random);
    let mut call = on_target(random, kind);
    shorten_target(&mut call);
    vec![call]
}

fn spoil_coefficient(random: &mut Random, call: &mut Call) {
    let limit = 1_000_000_000;
    let bad = [limit + 1, -limit - 1, i32::MIN as i64, i32::MAX as i64];
    let worse = [i64::MIN, i64::MAX, 1 << 32, -(1 << 62)];
    let place = random.below(Head::from_bytes(call.head).all_terms());
    call.coefficients[place] = match random.once_in(2) {
        true => random.pick(&bad),
        false => random.pick(&worse),
    };
}

pub fn coefficient_beyond(random: &mut Random) -> Vec<Call> {
    let kind = target_kind(random);
    let mut call = on_target(random, kind);
    spoil_coefficient(random, &mut call);
    // 6 comes before 9 for the target.
    if random.once_in(2) {
        shorten_target(&mut call);
    }
    vec![call]
}

pub fn coefficients_short(random: &mut Random) -> Vec<Call> {
    let kind = target_kind(random);
    let mut call = on_target(random, kind);
    // 9 for the coefficients comes before 6.
    if random.once_in(2) {
        spoil_coefficient(random, &mut call);
    }
    let places = Head::from_bytes(call.head).all_terms();
    call.coefficients.truncate(places - 1);
    vec![call]
}

/// 4 comes before everything.
pub fn head_bad(random: &mut Random) -> Vec<Call> {
    let kind = target_kind(random);
    let mut call = on_target(random, kind);
    call.head = bad_head(random);
    if random.once_in(2) {
        call.coefficients.clear();
        shorten_target(&mut call);
    }
    vec![call]
}
