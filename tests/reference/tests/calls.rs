//! The calls' bytes and answers, and the seeded files and sequences.

mod common;

use std::collections::BTreeMap;

use common::F;
use reference::calls::answer::{answer_text, make_call, Memory};
use reference::calls::make::make_calls;
use reference::calls::wire::{decode, encode};
use reference::calls::{Call, Kind};
use reference::generate::generate;
use reference::hash;
use reference::program::solve_text;
use reference::sweep::{answer, sweep_cases, sweep_text};

#[test]
fn bytes_and_back() {
    let calls: Vec<Call> = make_calls(1, 400).map(|(_, call)| call).collect();
    let bytes: Vec<u8> = calls.iter().flat_map(encode).collect();
    let mut rest = &bytes[..];
    for call in &calls {
        let (same, after) = decode(rest).unwrap().unwrap();
        assert_eq!(&same, call);
        rest = after;
    }
    assert_eq!(decode(rest), Ok(None));
    assert!(decode(&bytes[..100]).is_err());
}

#[test]
fn a_refusal_changes_nothing() {
    for (_, call) in make_calls(2, 3000) {
        let mut after = call.clone();
        if make_call(&mut after).starts_with("refused") {
            assert_eq!(after, call);
        }
    }
}

/// Every call has good answers and each of its refusals in a sequence.
#[test]
fn a_sequence_holds_every_answer() {
    let mut seen: BTreeMap<String, usize> = BTreeMap::new();
    for (_, mut call) in make_calls(3, 4000) {
        let answer = make_call(&mut call);
        let words: Vec<&str> = answer.split(' ').collect();
        let count = match words[0] {
            "refused" | "dropped" | "kept" | "cut" => 2,
            _ => 1,
        };
        let key = format!("{} {}", call.kind.word(), words[..count].join(" "));
        *seen.entry(key).or_default() += 1;
    }
    for key in "read read,read refused 1,read refused 2,read refused 3,read refused 4,\
        read refused 5,read refused 6,read refused 7,read refused 8,read refused 9,\
        write written,write refused 4,write refused 6,write refused 9,\
        start started,start refused 4,start refused 6,start refused 9,\
        check sound,check refused 4,check refused 9,check refused 10,\
        visit finished,visit full,visit dropped 1,visit dropped 2,visit dropped 3,\
        visit kept 1,visit kept 2,visit cut 1,visit cut 2,visit cut 3,\
        visit refused 4,visit refused 9,visit refused 10,\
        run finished,run spent,run full,run refused 4,run refused 9,run refused 10,\
        half box,half refused 10,middle middle,middle refused 10,\
        record record,record refused 1"
        .split(',')
    {
        assert!(seen.contains_key(key), "never seen: {key} among {seen:?}");
    }
}

#[test]
fn the_text_of_an_answer() {
    let mut call = Call::new(Kind::Read);
    call.file = F.to_vec();
    call.coefficients = vec![9; 3];
    let text = answer_text(0, &mut call, Memory::Whole);
    let lines: Vec<&str> = text.lines().collect();
    assert_eq!(lines[0], "call 0 read");
    assert_eq!(lines[1], "read 1 1 1 0 0 2 0 0");
    assert_eq!(lines[2], "state 0 0 0 0");
    assert_eq!(lines[4], "coefficients 3 -1 2 9");
    assert_eq!(lines[5..], ["waiting 0", "kept 0"]);
    let text = answer_text(5, &mut call, Memory::Hashed);
    assert!(text.ends_with("\nwaiting 0 cbf29ce484222325\nkept 0 cbf29ce484222325\n"));
}

#[test]
fn hashes_are_fnv() {
    assert_eq!(hash::of_bytes(*b""), 0xcbf2_9ce4_8422_2325);
    assert_eq!(hash::of_bytes(*b"a"), 0xaf63_dc4c_8601_ec8c);
    assert_eq!(hash::of_bytes(*b"foobar"), 0x8594_4171_f739_67e8);
}

/// The same seed gives the same bytes, on every machine and in every version:
/// a change of these two numbers is a change of all recorded tests.
#[test]
fn seeds_are_reproducible() {
    let calls = make_calls(1, 1000).flat_map(|(_, call)| encode(&call));
    let files = generate(1, 200).flat_map(|(name, bytes)| [name.into_bytes(), bytes].concat());
    let found = (hash::of_bytes(calls), hash::of_bytes(files));
    assert_eq!(
        found,
        (CALLS_HASH, FILES_HASH),
        "{:x} {:x}",
        found.0,
        found.1
    );
}

const CALLS_HASH: u64 = 0xcf2f_4d75_d5aa_2b73;
const FILES_HASH: u64 = 0xc85e_252a_e350_7ddf;

#[test]
fn files_of_every_kind() {
    let mut refusals = [0; 11];
    let mut words: BTreeMap<String, usize> = BTreeMap::new();
    let mut marks = 0;
    for (name, file) in generate(1, 400) {
        if name.contains("tireless") {
            continue;
        }
        let text = solve_text(&file);
        let first: Vec<&str> = text.lines().next().unwrap().split(' ').collect();
        match first[0] {
            "refused" => refusals[first[1].parse::<usize>().unwrap()] += 1,
            word => *words.entry(word.to_string()).or_default() += 1,
        }
        marks += text
            .lines()
            .skip(1)
            .filter(|line| line.ends_with(" 2"))
            .count();
    }
    assert!(
        refusals[1..=8].iter().all(|count| *count > 0),
        "{refusals:?}"
    );
    assert!(words["finished"] > 50 && words["full"] > 10, "{words:?}");
    assert!(marks > 0);
}

#[test]
fn a_tireless_file_spends_a_million_visits() {
    let (name, file) = generate(1, 50).last().unwrap();
    assert_eq!(name, "000049-tireless.system");
    assert!(solve_text(&file).starts_with("spent 1000000 "));
}

#[test]
fn the_sweep_says_each_case_once() {
    let text = sweep_text(&F);
    let mut cases = sweep_cases(&F);
    for line in text.lines() {
        let words: Vec<&str> = line.split(' ').collect();
        let (count, rest) = match words[0] {
            "byte" => {
                let (first, last) = words[2].split_once('-').unwrap();
                let span = last.parse::<usize>().unwrap() - first.parse::<usize>().unwrap();
                (span + 1, words[3..].join(" "))
            }
            _ => (1, words[2..].join(" ")),
        };
        for _ in 0..count {
            assert_eq!(answer(&cases.next().unwrap()), rest);
        }
    }
    assert_eq!(cases.next(), None);
    assert!(text.starts_with("length 0 refused 1 at 0\n"));
    assert!(text.ends_with("longer 1 refused 8 at 35\nlonger 7 refused 8 at 35\n"));
}
