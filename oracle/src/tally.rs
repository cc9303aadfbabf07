//! Counts of what a run of traces has shown: replies by code, poll answers, control states.

use crate::machine::{Answer, Machine, Outcome};
use crate::trace::Entry;
use std::fmt;
use usb_device::bus::PollResult;

const CODES: usize = 18;
const REPLIES: usize = 19;

#[derive(Debug, Clone, Default)]
pub struct Tally {
    pub entries: u64,
    pub bad: u64,
    replies: [[u64; REPLIES]; CODES],
    polls: [u64; 5],
    states: [u64; 6],
    most_stores: usize,
}

impl Tally {
    pub fn count(&mut self, entry: &Entry, outcome: &Outcome, machine: &Machine) {
        let reply = match outcome {
            Ok(_) => 0,
            Err(refusal) => *refusal as usize,
        };
        self.entries += 1;
        self.replies[usize::from(entry.code())][reply] += 1;
        if let Ok(Answer::Polled(polled)) = outcome {
            self.polls[poll_kind(polled)] += 1;
        }
        self.states[machine.private().state as usize] += 1;
        self.most_stores = self.most_stores.max(machine.model(|m| m.stores.len()));
    }
}

/// The report's number of a poll answer.
fn poll_kind(polled: &PollResult) -> usize {
    match polled {
        PollResult::None => 0,
        PollResult::Data { .. } => 1,
        PollResult::Reset => 2,
        PollResult::Resume => 3,
        PollResult::Suspend => 4,
    }
}

impl fmt::Display for Tally {
    fn fmt(&self, f: &mut fmt::Formatter) -> fmt::Result {
        writeln!(
            f,
            "{} entries, {} bad endings, at most {} stores in a call",
            self.entries, self.bad, self.most_stores
        )?;
        for (code, replies) in self.replies.iter().enumerate().skip(1) {
            write!(f, "code {code}:")?;
            for (reply, count) in replies.iter().enumerate().filter(|(_, count)| **count > 0) {
                write!(f, " reply {reply} {count} times,")?;
            }
            writeln!(f)?;
        }
        let [none, data, reset, resume, suspend] = self.polls;
        writeln!(
            f,
            "polls: None {none}, Data {data}, Reset {reset}, Resume {resume}, Suspend {suspend}"
        )?;
        let [idle, setup, data_in, data_out, accepted, nodata] = self.states;
        writeln!(f, "states after an entry: Idle {idle}, Setup {setup}, DataIn {data_in}, DataOut {data_out}, Accepted {accepted}, NodataPhase {nodata}")
    }
}
