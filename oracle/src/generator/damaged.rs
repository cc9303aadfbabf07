//! Input that is no trace. First, one by one, every damage that one entry can have; then such damage
//! in the middle of traces of the other kinds.

use super::dice::Dice;
use super::random::{boundary, uniform};
use super::sessions::session;
use crate::trace::{put_entry, put_number, put_packet, Next, Reader, LONGEST};
use std::sync::OnceLock;

/// An entry's code and the largest value of each of its arguments.
const FORMS: [(u32, &[u32]); 17] = [
    (1, &[1, 256, 3, 65_535]),
    (2, &[]),
    (3, &[]),
    (4, &[255]),
    (5, &[255, 65_535]),
    (6, &[255, 512]),
    (7, &[255, 1, 1]),
    (8, &[255, 1]),
    (9, &[]),
    (10, &[]),
    (11, &[]),
    (12, &[255, 65_535]),
    (13, &[255]),
    (14, &[2]),
    (15, &[]),
    (16, &[255]),
    (17, &[255]),
];

pub fn damaged(dice: &mut Dice, number: u64, count: usize) -> Vec<u8> {
    static ONE_BY_ONE: OnceLock<Vec<Vec<u8>>> = OnceLock::new();
    let list = ONE_BY_ONE.get_or_init(|| one_by_one().collect());
    match list.get(number as usize) {
        Some(trace) => trace.clone(),
        None => at_random(dice, count),
    }
}

/// A few good entries, so that an offset other than 0 is seen, then the damaged one, then a good one
/// that must not be run.
fn in_company(entry: &[u8]) -> Vec<u8> {
    let mut trace = Vec::new();
    put_entry(&mut trace, 1, &[0, 0, 2, 64]);
    put_packet(&mut trace, 12, 1, &[7, 9]);
    trace.extend_from_slice(entry);
    put_entry(&mut trace, 9, &[]);
    trace
}

/// The longest come last, since a report of theirs takes a slow program its time.
fn one_by_one() -> impl Iterator<Item = Vec<u8>> {
    std::iter::once(Vec::new())
        .chain(codes())
        .chain(FORMS.into_iter().flat_map(|(code, most)| cuts(code, most)))
        .chain(FORMS.into_iter().flat_map(|(code, most)| past_range(code, most)))
        .chain(FORMS.into_iter().flat_map(|(code, most)| wrong_forms(code, most)))
        .chain(limits_of_length())
}

/// Input as long as is run, and longer.
fn limits_of_length() -> impl Iterator<Item = Vec<u8>> {
    let longest_packet = |endpoint| {
        let mut trace = Vec::new();
        put_packet(&mut trace, 12, endpoint, &vec![5; LONGEST - 5]);
        trace
    };
    let mut cut_at_the_end = vec![9; LONGEST - 1];
    cut_at_the_end.push(4);
    [
        vec![9; LONGEST],
        vec![9; LONGEST + 1],
        cut_at_the_end,
        longest_packet(1),
        longest_packet(6),
        vec![0; LONGEST + 1],
        vec![9; 3 * LONGEST],
    ]
    .into_iter()
}

/// Codes that are none.
fn codes() -> impl Iterator<Item = Vec<u8>> {
    [
        0,
        18,
        19,
        127,
        128,
        129,
        137,
        255,
        256,
        16_383,
        16_384,
        65_535,
        65_536,
        1 << 21,
    ]
    .into_iter()
    .map(|code| {
        let mut entry = Vec::new();
        put_number(&mut entry, code);
        in_company(&entry)
    })
}

fn good(code: u32, most: &[u32]) -> Vec<u8> {
    let mut entry = Vec::new();
    match code {
        5 | 12 => put_packet(&mut entry, code, 1, &[1, 2, 3]),
        _ => put_entry(&mut entry, code, most),
    }
    entry
}

/// The entry cut at every byte, from its first on, at the end of the input.
fn cuts(code: u32, most: &[u32]) -> Vec<Vec<u8>> {
    let entry = good(code, most);
    let company = in_company(&[]);
    let before = &company[..company.len() - 1];
    (0..=entry.len())
        .map(|cut| [before, &entry[..cut]].concat())
        .collect()
}

/// Each argument at its largest, and one past it.
fn past_range(code: u32, most: &[u32]) -> Vec<Vec<u8>> {
    let mut traces = Vec::new();
    for place in 0..most.len() {
        for past in [0, 1] {
            let mut arguments = vec![0; most.len()];
            arguments[place] = most[place] + past;
            let mut entry = Vec::new();
            put_entry(&mut entry, code, &arguments);
            traces.push(in_company(&entry));
        }
    }
    traces
}

/// The code and each argument in a form that is not the shortest, and past 65,535.
fn wrong_forms(code: u32, most: &[u32]) -> Vec<Vec<u8>> {
    let mut traces = Vec::new();
    for place in 0..=most.len() {
        let numbers: Vec<u32> = std::iter::once(code).chain(most.iter().map(|_| 1)).collect();
        for form in WRONG {
            let mut entry = Vec::new();
            for (n, &number) in numbers.iter().enumerate() {
                if n == place {
                    entry.extend(form(number as u8));
                } else {
                    put_number(&mut entry, number);
                }
            }
            traces.push(in_company(&entry));
        }
    }
    traces
}

/// Forms that a number below 128 must not have: with one empty group more, with two, with three, as
/// 65,536, with a fourth group, and without end.
const WRONG: [fn(u8) -> Vec<u8>; 6] = [
    |n| vec![n | 0x80, 0],
    |n| vec![n | 0x80, 0x80, 0],
    |n| vec![n | 0x80, 0x80, 0x80, 0],
    |_| vec![0x80, 0x80, 0x04],
    |n| vec![n | 0x80, 0x80, 0x80, 1],
    |n| vec![n | 0x80, 0x80, 0x80, 0x80, 0x80, 0x80],
];

fn at_random(dice: &mut Dice, count: usize) -> Vec<u8> {
    let mut trace = match dice.below(3) {
        0 => session(dice, count),
        1 => boundary(dice, count),
        _ => uniform(dice, count),
    };
    match dice.below(6) {
        0 => {
            let cut = dice.below(trace.len() as u64) as usize;
            trace.truncate(cut)
        }
        1 => {
            let place = dice.below(trace.len() as u64) as usize;
            trace[place] = dice.next() as u8
        }
        2 => {
            let place = dice.below(trace.len() as u64) as usize;
            trace[place] ^= 1 << dice.below(8)
        }
        3 => {
            let place = dice.below(trace.len() as u64) as usize;
            trace.remove(place);
        }
        4 => {
            let length = dice.below(40) as usize;
            trace.extend(dice.bytes(length))
        }
        _ => damage_entry(dice, &mut trace),
    }
    trace
}

/// One of the damages above, in place of an entry in the middle.
fn damage_entry(dice: &mut Dice, trace: &mut Vec<u8>) {
    let starts = starts_of(trace);
    let place = dice.pick(&starts);
    let (code, most) = dice.pick(&FORMS);
    let entries = match dice.below(2) {
        0 => past_range(code, most),
        _ => wrong_forms(code, most),
    };
    if entries.is_empty() {
        return trace.truncate(place);
    }
    let chosen = dice.below(entries.len() as u64) as usize;
    trace.splice(place..place, entries[chosen].iter().copied());
}

/// Where the entries of a good trace begin.
fn starts_of(trace: &[u8]) -> Vec<usize> {
    let mut reader = Reader::new(trace);
    let mut starts = vec![0];
    while let Next::Entry(_) = reader.next_entry() {
        starts.push(reader.place());
    }
    starts
}
