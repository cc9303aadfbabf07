//! Traces from a seed. The same kind, seed, number and length give the same bytes on every machine.

mod damaged;
mod dice;
mod guided;
mod random;
mod records;
mod sessions;

use crate::trace::{Next, Reader, LONGEST};
use dice::Dice;

#[derive(Debug, Clone, Copy, PartialEq, Eq)]
pub enum Kind {
    /// Entries and arguments drawn evenly, most of them in range.
    Uniform,
    /// What a host and a device do: enumeration, control transfers, bulk data, halts, resets, sleep.
    Session,
    /// Each entry drawn with a look at where the driver stands, so that rare states are met.
    Guided,
    /// Arguments at and beside each limit of document 01.
    Boundary,
    /// Input that is no trace: every cut, every number in a wrong form, every argument out of range.
    Damaged,
    /// A few calls behind an arbitrary record, one that breaks reply 16's row among them.
    Record,
}

impl Kind {
    pub const ALL: [Kind; 6] = [
        Kind::Uniform,
        Kind::Session,
        Kind::Guided,
        Kind::Boundary,
        Kind::Damaged,
        Kind::Record,
    ];

    pub fn name(self) -> &'static str {
        match self {
            Kind::Uniform => "uniform",
            Kind::Session => "session",
            Kind::Guided => "guided",
            Kind::Boundary => "boundary",
            Kind::Damaged => "damaged",
            Kind::Record => "record",
        }
    }

    pub fn named(name: &str) -> Option<Kind> {
        Kind::ALL.into_iter().find(|kind| kind.name() == name)
    }

    /// Whether the trace stands behind a record.
    pub fn from_record(self) -> bool {
        self == Kind::Record
    }
}

/// The kinds that a list names: `all` is every kind of trace from a fresh record, in turn.
pub fn kinds_named(list: &str) -> Option<Vec<Kind>> {
    if list == "all" {
        return Some(Kind::ALL.into_iter().filter(|kind| !kind.from_record()).collect());
    }
    list.split(',').map(Kind::named).collect()
}

/// How many entries a trace has on average, where nothing else is asked.
pub const ENTRIES: usize = 100;

/// The trace of this kind and number, of 1 to about 2 × `entries` entries. Only damaged input is longer
/// than document 01 lets a trace be.
pub fn generate(kind: Kind, seed: u64, number: u64, entries: usize) -> Vec<u8> {
    let mut dice = Dice::new(seed, kind as u64, number);
    let count = 1 + dice.below(2 * entries as u64) as usize;
    match kind {
        Kind::Uniform => to_longest(random::uniform(&mut dice, count)),
        Kind::Session => to_longest(sessions::session(&mut dice, count)),
        Kind::Guided => to_longest(guided::guided(&mut dice, count)),
        Kind::Boundary => to_longest(random::boundary(&mut dice, count)),
        Kind::Damaged => damaged::damaged(&mut dice, number, count),
        Kind::Record => records::behind_record(&mut dice),
    }
}

/// As many of the entries as a trace may hold.
fn to_longest(mut trace: Vec<u8>) -> Vec<u8> {
    let mut reader = Reader::new(&trace);
    let mut end = 0;
    while let Next::Entry(_) = reader.next_entry() {
        if reader.place() > LONGEST {
            break;
        }
        end = reader.place();
    }
    trace.truncate(end);
    trace
}
