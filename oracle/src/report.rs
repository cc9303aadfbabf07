//! Document 01's report of a trace, and the detail report: the same with each entry's stores and the
//! record under its line.

use crate::machine::{Answer, Machine, Outcome};
use crate::record::{put_head, record_of, HEAD_BYTES};
use crate::tally::Tally;
use crate::trace::{Entry, Next, Reader, LONGEST};
use usb_device::bus::PollResult;

/// How a trace is to be run.
#[derive(Debug, Clone, Copy, PartialEq, Eq, Default)]
pub struct Form {
    /// Stores and record under each entry's line.
    pub detail: bool,
    /// The input begins with a record and its FIFO bytes; the trace follows.
    pub from_record: bool,
    /// The original with nothing of document 02.
    pub published: bool,
}

/// Appends the report of an input. None where it should begin with a record and does not.
pub fn report(input: &[u8], form: Form, out: &mut Vec<u8>) -> Option<()> {
    report_tallied(input, form, out, &mut Tally::default())
}

/// The same, and counts what was seen.
pub fn report_tallied(input: &[u8], form: Form, out: &mut Vec<u8>, tally: &mut Tally) -> Option<()> {
    let mut machine = Machine::fresh();
    machine.published = form.published;
    let mut trace = input;
    if form.from_record {
        let (head, rest) = input.split_at_checked(HEAD_BYTES)?;
        put_head(&mut machine, head)?;
        trace = rest;
    }
    out.extend_from_slice(b"musb-trace 1\n");
    if trace.len() > LONGEST {
        last_line(b"bad", LONGEST, out);
        return Some(());
    }
    let mut reader = Reader::new(trace);
    let mut entries = 0;
    loop {
        match reader.next_entry() {
            Next::Entry(entry) => {
                let outcome = entry.act(&mut machine);
                entry_line(&entry, &outcome, out);
                if form.detail {
                    detail_lines(&machine, out);
                }
                tally.count(&entry, &outcome, &machine);
                entries += 1;
            }
            Next::End => {
                last_line(b"end", entries, out);
                return Some(());
            }
            Next::Bad(offset) => {
                tally.bad += 1;
                last_line(b"bad", offset, out);
                return Some(());
            }
        }
    }
}

/// `end` and the entry count, or `bad` and an offset.
fn last_line(word: &[u8], number: usize, out: &mut Vec<u8>) {
    out.extend_from_slice(word);
    field(number as u32, out);
    out.push(b'\n');
}

/// An entry's code, reply and values. A refused entry's code and reply only.
fn entry_line(entry: &Entry, outcome: &Outcome, out: &mut Vec<u8>) {
    decimal(entry.code().into(), out);
    match outcome {
        Ok(answer) => {
            field(0, out);
            values(answer, out);
        }
        Err(refusal) => field(*refusal as u32, out),
    }
    out.push(b'\n');
}

fn values(answer: &Answer, out: &mut Vec<u8>) {
    match answer {
        Answer::Nothing => {}
        Answer::Endpoint(endpoint) => field((*endpoint).into(), out),
        Answer::Written(length) => field(*length as u32, out),
        Answer::Stalled(stalled) => field((*stalled).into(), out),
        Answer::Read(count, stored) => {
            field(*count as u32, out);
            bytes(stored, out);
        }
        Answer::Collected(packet) => bytes(packet, out),
        Answer::Polled(polled) => poll_values(polled, out),
    }
}

fn poll_values(polled: &PollResult, out: &mut Vec<u8>) {
    match *polled {
        PollResult::None => field(0, out),
        PollResult::Data {
            ep_out,
            ep_in_complete,
            ep_setup,
        } => {
            field(1, out);
            for mask in [ep_out, ep_in_complete, ep_setup] {
                field(mask.into(), out);
            }
        }
        PollResult::Reset => field(2, out),
        PollResult::Resume => field(3, out),
        PollResult::Suspend => field(4, out),
    }
}

/// The two lines more of the detail report.
pub fn detail_lines(machine: &Machine, out: &mut Vec<u8>) {
    out.extend_from_slice(b"  stores");
    machine.model(|m| {
        for store in &m.stores {
            field(store.register as u32, out);
            out.push(b',');
            decimal(store.endpoint.into(), out);
            out.push(b',');
            decimal(store.value.into(), out);
        }
    });
    out.extend_from_slice(b"\n  record");
    for number in record_of(machine) {
        field(number, out);
    }
    out.push(b'\n');
}

fn bytes(packet: &[u8], out: &mut Vec<u8>) {
    for &byte in packet {
        field(byte.into(), out);
    }
}

/// A blank and a number.
fn field(number: u32, out: &mut Vec<u8>) {
    out.push(b' ');
    decimal(number, out);
}

fn decimal(number: u32, out: &mut Vec<u8>) {
    if number >= 10 {
        decimal(number / 10, out);
    }
    out.push(b'0' + (number % 10) as u8);
}
