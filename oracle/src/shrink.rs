//! Makes an input smaller while a test of it still holds: entries are dropped, then packets shortened,
//! then single bytes dropped or lowered, until nothing more can go.

use crate::info::FIFO_BYTES;
use crate::machine::Machine;
use crate::record::{head_of, record_of, HEAD_BYTES};
use crate::trace::{put_packet, Entry, Next, Reader};

/// The smallest input found, in at most `tries` tries, for which `holds` still holds. It must hold of
/// the input itself. With `from_record` the input begins with a record, whose numbers are put back to
/// the fresh ones where that can be.
pub fn shrink(input: &[u8], from_record: bool, tries: usize, holds: impl FnMut(&[u8]) -> bool) -> Vec<u8> {
    let head = if from_record { HEAD_BYTES } else { 0 };
    let mut work = Shrinking {
        head: input[..head].to_vec(),
        trace: input[head..].to_vec(),
        tries_left: tries,
        holds,
    };
    loop {
        let before = work.whole();
        work.drop_entries();
        work.shorten_packets();
        work.simplify_head();
        work.lower_bytes();
        if work.whole() == before || work.tries_left == 0 {
            return work.whole();
        }
    }
}

struct Shrinking<F> {
    head: Vec<u8>,
    trace: Vec<u8>,
    tries_left: usize,
    holds: F,
}

impl<F: FnMut(&[u8]) -> bool> Shrinking<F> {
    fn whole(&self) -> Vec<u8> {
        [&self.head[..], &self.trace[..]].concat()
    }

    /// Takes another head and trace if the test holds of them.
    fn take(&mut self, head: &[u8], trace: &[u8]) -> bool {
        if self.tries_left == 0 {
            return false;
        }
        self.tries_left -= 1;
        let taken = (self.holds)(&[head, trace].concat());
        if taken {
            self.head = head.to_vec();
            self.trace = trace.to_vec();
        }
        taken
    }

    fn take_trace(&mut self, trace: &[u8]) -> bool {
        let head = self.head.clone();
        self.take(&head, trace)
    }

    /// Drops runs of entries, long runs first.
    fn drop_entries(&mut self) {
        let mut run = pieces(&self.trace).len();
        while run > 0 {
            let mut at = 0;
            loop {
                let pieces = pieces(&self.trace);
                if at >= pieces.len() || self.tries_left == 0 {
                    break;
                }
                let end = pieces.len().min(at + run);
                let without = [&pieces[..at], &pieces[end..]].concat().concat();
                if !self.take_trace(&without) {
                    at += run;
                }
            }
            run /= 2;
        }
    }

    /// Halves packets, then takes single bytes off their ends.
    fn shorten_packets(&mut self) {
        for at in 0..pieces(&self.trace).len() {
            while self.shorten(at, |length| length / 2) || self.shorten(at, |length| length - 1) {}
        }
    }

    fn shorten(&mut self, at: usize, to: impl Fn(usize) -> usize) -> bool {
        let mut pieces = pieces(&self.trace);
        let (code, endpoint, bytes) = match Reader::new(&pieces[at]).next_entry() {
            Next::Entry(Entry::Write(endpoint, bytes)) => (5, endpoint, bytes.to_vec()),
            Next::Entry(Entry::Arrival(endpoint, bytes)) => (12, endpoint, bytes.to_vec()),
            _ => return false,
        };
        if bytes.is_empty() {
            return false;
        }
        let mut shorter = Vec::new();
        put_packet(&mut shorter, code, endpoint.into(), &bytes[..to(bytes.len())]);
        pieces[at] = shorter;
        self.take_trace(&pieces.concat())
    }

    /// Puts the numbers of the record back to the fresh ones, and the FIFO bytes to 0.
    fn simplify_head(&mut self) {
        if self.head.is_empty() {
            return;
        }
        let fresh = head_of(&record_of(&Machine::fresh()), &[0; FIFO_BYTES]);
        let trace = self.trace.clone();
        let numbers = HEAD_BYTES - FIFO_BYTES;
        let fifo_cleared = [&self.head[..numbers], &fresh[numbers..]].concat();
        if self.head != fifo_cleared {
            self.take(&fifo_cleared, &trace);
        }
        for place in (0..numbers).step_by(4) {
            let mut head = self.head.clone();
            head[place..place + 4].copy_from_slice(&fresh[place..place + 4]);
            if head != self.head {
                self.take(&head, &trace);
            }
        }
    }

    /// Drops each byte, or else lowers it.
    fn lower_bytes(&mut self) {
        let mut at = 0;
        while at < self.trace.len() && self.tries_left > 0 {
            let mut dropped = self.trace.clone();
            dropped.remove(at);
            if self.take_trace(&dropped) {
                continue;
            }
            for lower in [0, self.trace[at] / 2, self.trace[at].saturating_sub(1)] {
                let mut lowered = self.trace.clone();
                lowered[at] = lower;
                if lower < self.trace[at] && self.take_trace(&lowered) {
                    break;
                }
            }
            at += 1;
        }
    }
}

/// The trace's entries, and what follows the last good one as a piece of its own.
fn pieces(trace: &[u8]) -> Vec<Vec<u8>> {
    let mut reader = Reader::new(trace);
    let mut pieces = Vec::new();
    loop {
        let start = reader.place();
        match reader.next_entry() {
            Next::Entry(_) => pieces.push(trace[start..reader.place()].to_vec()),
            Next::End => return pieces,
            Next::Bad(offset) => {
                pieces.push(trace[offset..].to_vec());
                return pieces;
            }
        }
    }
}
