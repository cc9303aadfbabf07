//! Document 02, T-11, on the original: interrupts that are joined change no answer, no store and not the last
//! record. An interrupt may be left out where another still comes before any poll.

use musb_oracle::generator::{generate, Kind};
use musb_oracle::record::HEAD_BYTES;
use musb_oracle::report::{report, Form};
use musb_oracle::trace::{Entry, Next, Reader};

const SEED: u64 = 2041;
const TRACES: u64 = 400;
const ENTRIES: usize = 60;

/// What an entry is to an interrupt before it.
#[derive(Clone, Copy, PartialEq, Eq)]
enum Step {
    Interrupt,
    Poll,
    Other,
}

/// A trace's entries as bytes, up to the first that is none.
fn entries(trace: &[u8]) -> Vec<(Step, &[u8])> {
    let mut reader = Reader::new(trace);
    let mut begin = 0;
    let mut all = Vec::new();
    while let Next::Entry(entry) = reader.next_entry() {
        let step = match entry {
            Entry::Interrupt => Step::Interrupt,
            Entry::Poll => Step::Poll,
            _ => Step::Other,
        };
        all.push((step, &trace[begin..reader.place()]));
        begin = reader.place();
    }
    all
}

/// Whether another interrupt comes; `past` says whether a poll may come before it.
fn soon(rest: &[(Step, &[u8])], past: bool) -> bool {
    for (step, _) in rest {
        match step {
            Step::Interrupt => return true,
            Step::Poll if !past => return false,
            _ => {}
        }
    }
    false
}

/// The entries without every `every`-th interrupt that may be left out, and how many were.
fn joined<'a>(all: &[(Step, &'a [u8])], every: usize, past: bool) -> (Vec<(Step, &'a [u8])>, usize) {
    let mut met = 0;
    let mut left = 0;
    let mut kept = Vec::new();
    for (place, entry) in all.iter().enumerate() {
        if entry.0 == Step::Interrupt && soon(&all[place + 1..], past) {
            met += 1;
            if met % every == 0 {
                left += 1;
                continue;
            }
        }
        kept.push(*entry);
    }
    (kept, left)
}

/// What is to stay the same: the line and the stores of every entry but the interrupts, and the last record.
fn seen(head: &[u8], all: &[(Step, &[u8])]) -> (Vec<String>, Option<String>) {
    let mut input = head.to_vec();
    for (_, bytes) in all {
        input.extend_from_slice(bytes);
    }
    let form = Form {
        detail: true,
        from_record: !head.is_empty(),
        published: false,
    };
    let mut out = Vec::new();
    report(&input, form, &mut out).expect("a record");
    let text = String::from_utf8(out).expect("text");
    let lines: Vec<&str> = text.lines().collect();
    let mut same = Vec::new();
    let mut last = None;
    for (place, (step, _)) in all.iter().enumerate() {
        let at = 1 + 3 * place;
        if *step != Step::Interrupt {
            same.push(format!("{}{}", lines[at], lines[at + 1]));
        }
        last = Some(lines[at + 2].to_string());
    }
    (same, last)
}

/// How many interrupts were left out over all generated traces, and in how many traces something changed.
fn tried(every: usize, past: bool) -> (usize, usize) {
    let mut left = 0;
    let mut changed = 0;
    for kind in Kind::ALL.into_iter().filter(|kind| *kind != Kind::Damaged) {
        for number in 0..TRACES {
            let input = generate(kind, SEED, number, ENTRIES);
            let (head, trace) = input.split_at(if kind.from_record() { HEAD_BYTES } else { 0 });
            let all = entries(trace);
            let (fewer, out) = joined(&all, every, past);
            left += out;
            if out > 0 && seen(head, &all) != seen(head, &fewer) {
                changed += 1;
            }
        }
    }
    (left, changed)
}

#[test]
fn joined_interrupts_change_nothing() {
    for every in [1, 2] {
        let (left, changed) = tried(every, false);
        assert!(left > 400, "{left} interrupts left out");
        assert_eq!(changed, 0, "of {left} interrupts left out, every {every}");
    }
}

/// Across a poll something is lost, so that the test above can fail.
#[test]
fn a_poll_is_not_passed() {
    let (left, changed) = tried(1, true);
    assert!(left > 400, "{left} interrupts left out");
    assert!(changed > 100, "{changed} traces changed");
}
