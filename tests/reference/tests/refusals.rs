//! Reading and writing a file: each refusal with its offset, the order among
//! them, and both round trips.

mod common;

use common::*;
use reference::head::Head;
use reference::random::Random;
use reference::read::{read, read_system};
use reference::records::{Reader, Record};
use reference::refusal::Refusal;
use reference::state::start;
use reference::systems::{any_coefficients, any_head};
use reference::write::{file_of, record, write};

fn refused(file: &[u8], number: u8, offset: usize) {
    assert_eq!(read_system(file).unwrap_err(), Refusal::at(number, offset));
}

fn changed(changes: &[(usize, u8)]) -> Vec<u8> {
    let mut file = F.to_vec();
    for (position, value) in changes {
        file[*position] = *value;
    }
    file
}

/// F's head, one polynomial record with this body, and kind 3.
fn with_body(body: &[u8]) -> Vec<u8> {
    [F[..12].to_vec(), record(2, body), record(3, &[])].concat()
}

fn term(exponent: u8, coefficient: i32) -> Vec<u8> {
    let mut bytes = vec![exponent, 0, 0];
    bytes.extend(coefficient.to_le_bytes());
    bytes
}

fn with_terms(terms: &[(u8, i32)]) -> Vec<u8> {
    let mut body = vec![1];
    terms.iter().for_each(|(i, a)| body.extend(term(*i, *a)));
    with_body(&body)
}

#[test]
fn one_at_every_truncation() {
    for length in 0..F.len() {
        let record = if length < 12 {
            0
        } else if length < 31 {
            12
        } else {
            31
        };
        refused(&F[..length], 1, record);
    }
}

#[test]
fn two_for_kinds_and_numbers() {
    refused(&changed(&[(2, 2)]), 2, 0);
    refused(&changed(&[(3, 1)]), 2, 0);
    refused(&changed(&[(14, 3)]), 2, 12);
    refused(&changed(&[(33, 2)]), 2, 31);
    refused(&changed(&[(16, 2)]), 2, 12);
    // Kind 2 again where kind 3 is due, and kind 3 where kind 2 is due.
    refused(&[&F[..31], &F[12..]].concat(), 2, 31);
    refused(&[&F[..12], &F[31..]].concat(), 2, 12);
}

#[test]
fn three_for_lengths() {
    refused(&changed(&[(0, 7)]), 3, 0);
    refused(&with_body(&[]), 3, 12);
    refused(&with_body(&[1, 0]), 3, 12);
    refused(&changed(&[(31, 1)]), 3, 31);
    // Three terms where S is 2.
    refused(&with_terms(&[(0, 1), (1, 1), (1, 1)]), 3, 12);
}

#[test]
fn four_for_head_values() {
    let bad = [
        (4, 0),
        (4, 4),
        (5, 0),
        (5, 4),
        (6, 7),
        (7, 1),
        (8, 1),
        (9, 11),
        (10, 1),
        (11, 1),
    ];
    for (position, value) in bad.into_iter().chain((4..12).map(|p| (p, 255))) {
        refused(&changed(&[(position, value)]), 4, 0);
    }
    refused(&changed(&[(4, 3), (6, 255), (7, 255), (8, 255)]), 4, 0);
    refused(&changed(&[(4, 3), (6, 6), (7, 6), (8, 1)]), 4, 0);
}

#[test]
fn five_six_seven_at_the_term() {
    refused(&with_terms(&[(2, 1)]), 5, 17);
    refused(&with_terms(&[(0, 1), (255, 1)]), 5, 24);
    refused(&with_terms(&[(0, 0)]), 6, 17);
    for coefficient in [1_000_000_001, -1_000_000_001, i32::MIN, i32::MAX] {
        refused(&with_terms(&[(0, 1), (1, coefficient)]), 6, 24);
    }
    assert!(read_system(&with_terms(&[(0, 1_000_000_000), (1, -1_000_000_000)])).is_ok());
    refused(&with_terms(&[(1, 1), (0, 1)]), 7, 24);
    refused(&with_terms(&[(1, 1), (1, 1)]), 7, 24);
    // One term's tests in the order 5, 6, 7, and all of them before the next term's.
    refused(&with_terms(&[(2, 0)]), 5, 17);
    refused(&with_terms(&[(1, 1), (0, 0)]), 6, 24);
    refused(&with_terms(&[(0, 0), (2, 1)]), 6, 17);
}

#[test]
fn eight_then_nine() {
    for count in [1, 7, 5000] {
        refused(&[&F[..], &vec![3; count]].concat(), 8, 35);
    }
    let mut places = [LITTER; 1];
    let longer = [&F[..], &[0]].concat();
    assert_eq!(read(&longer, &mut places), Err(Refusal::at(8, 35)));
    assert_eq!(read(&F, &mut places), Err(Refusal::at(9, 0)));
    assert_eq!(places, [LITTER; 1]);
}

#[test]
fn the_order_within_a_record() {
    // A wrong kind with a cut body is 2, a wrong length with a cut body is 3.
    refused(&changed(&[(14, 9)])[..20], 2, 12);
    refused(&changed(&[(12, 9)])[..20], 3, 12);
    refused(&changed(&[(2, 9), (0, 7)]), 2, 0);
    // A wrong number: after "body present", before the terms.
    refused(&changed(&[(16, 9)])[..20], 1, 12);
    refused(&changed(&[(16, 9), (17, 9)]), 2, 12);
    // A head cut short is 1 even where its values are bad.
    refused(&changed(&[(4, 9)])[..11], 1, 0);
    // Bad terms come before what follows the record.
    refused(&changed(&[(17, 9)])[..31], 5, 17);
}

#[test]
fn reading_fills_exactly_its_places() {
    let mut places = [LITTER; 4];
    assert_eq!(read(&F, &mut places), Ok(one(1, 2)));
    assert_eq!(places, [-1, 2, LITTER, LITTER]);
    let mut places = [LITTER; 4];
    assert_eq!(read(&with_body(&[1]), &mut places), Ok(one(1, 2)));
    assert_eq!(places, [0, 0, LITTER, LITTER]);
    // A refusal late in the file has written nothing.
    let mut places = [LITTER; 4];
    assert!(read(&with_terms(&[(0, 5), (0, 5)]), &mut places).is_err());
    assert_eq!(places, [LITTER; 4]);
}

#[test]
fn a_reader_steps_from_record_to_record() {
    let mut reader = Reader {
        file: &F,
        offset: 0,
    };
    let (kind, body) = (1, &F[4..12]);
    assert_eq!(reader.step(), Ok(Record { kind, body }));
    let (kind, body) = (2, &F[16..31]);
    assert_eq!(reader.step(), Ok(Record { kind, body }));
    assert_eq!(reader.step(), Ok(Record { kind: 3, body: &[] }));
    assert_eq!(reader.step(), Err(Refusal::at(1, 35)));
    assert_eq!(reader.offset, 35);
    // Alone it refuses only with 1, also where the kind is wrong.
    let file = &changed(&[(14, 9)])[..20];
    let mut reader = Reader { file, offset: 12 };
    assert_eq!(reader.step(), Err(Refusal::at(1, 12)));
    for offset in [32, 34, 36, 1000, usize::MAX] {
        let mut reader = Reader { file: &F, offset };
        assert_eq!(reader.step(), Err(Refusal::at(1, offset)));
    }
}

#[test]
fn start_and_write_refuse_in_order() {
    let head = one(1, 2);
    let bad_head = Head::from_bytes([1, 1, 7, 0, 0, 0, 0, 0]);
    let beyond = 1_000_000_001;
    for (head, coefficients, room, number) in [
        (bad_head, &[][..], 0, 4),
        (head, &[beyond][..], 0, 9),
        (head, &[beyond, 0][..], 0, 6),
        (head, &[0, -beyond][..], 0, 6),
        (head, &[i64::MIN, 0][..], 99, 6),
        (head, &[0, 0][..], 0, 9),
    ] {
        let mut target = vec![7u8; room];
        assert_eq!(
            write(&head, coefficients, &mut target),
            Err(Refusal::of(number))
        );
        assert_eq!(target, vec![7u8; room]);
        let mut store = vec![LITTER; room];
        assert_eq!(
            start(&head, coefficients, &mut store),
            Err(Refusal::of(number))
        );
        assert_eq!(store, vec![LITTER; room]);
    }
    // Beyond the first m × S nothing is looked at; a target is short by this file.
    let mut target = [7u8; 36];
    assert_eq!(write(&head, &[-1, 2, beyond], &mut target), Ok(35));
    assert_eq!((&target[..35], target[35]), (&F[..], 7));
    assert_eq!(write(&head, &[0, 2], &mut target[..28]), Ok(28));
    assert_eq!(
        write(&head, &[0, 2], &mut target[..27]),
        Err(Refusal::of(9))
    );
    let mut store = vec![LITTER; head.store_length() - 1];
    assert_eq!(start(&head, &[-1, 2], &mut store), Err(Refusal::of(9)));
}

#[test]
fn written_and_read_back() {
    let mut random = Random::new(4);
    for _ in 0..500 {
        let head = any_head(&mut random, 10);
        let a = any_coefficients(&mut random, &head, 1_000_000_000, 2);
        let file = file_of(&head, &a);
        let (same_head, same) = read_system(&file).unwrap();
        assert_eq!((same_head, &same), (head, &a));
        assert_eq!(file_of(&same_head, &same), file);
    }
}
