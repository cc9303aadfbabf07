//! Document 02, T-12, on the original: every download ends once. Each control read of a trace is followed, entry
//! by entry, from the poll that reports its Setup to the read of the next Setup.

use musb_oracle::generator::{generate, Kind};
use musb_oracle::machine::{Answer, Machine, Outcome};
use musb_oracle::model::{Listed, Number};
use musb_oracle::record::{put_head, HEAD_BYTES};
use musb_oracle::trace::{put_entry, Entry, Next, Reader};
use musb_oracle::window::State;
use std::cell::Cell;
use usb_device::bus::PollResult;

const SEED: u64 = 2042;
const TRACES: u64 = 400;
const ENTRIES: usize = 60;

/// A write at endpoint 0 inside a download, with the running total that it makes.
struct Write {
    asked: u32,
    total: u32,
    length: u32,
    refused: bool,
    /// The recorded transmit size at the write, and what it was at the read of the Setup.
    size: u32,
    size_at_read: u32,
}

/// Whether a write ends its download.
type Rule = fn(&Write) -> bool;

const AS_SAID: Rule = |w| !w.refused && (w.total >= w.asked || w.length < w.size);

enum Phase {
    /// No transfer is followed.
    None,
    /// A poll has reported a Setup that is not read yet.
    Reported { disturbed: bool },
    /// The Setup was read, with this transmit size recorded.
    Sending { asked: u32, total: u32, size: u32 },
}

/// How often each thing was met.
#[derive(Debug, Default)]
struct Met {
    begun: u32,
    refused: u32,
    disturbed: u32,
    /// A Setup was read after a setup end.
    cut: u32,
    by_total: u32,
    /// Of these: with more bytes than were asked.
    by_more: u32,
    by_short: u32,
    /// Of these: with an empty packet after full ones.
    by_empty: u32,
    /// Entries after an end, until a Setup is read, but for those between an undisturbed report and its read.
    after: u32,
}

struct Follower {
    rule: Rule,
    /// Disturbances count from the poll. (From the read alone the sentence is false.)
    from_poll: bool,
    phase: Phase,
    /// A download has ended, and no Setup was read since.
    over: bool,
    met: Met,
}

fn has_data_end(store: &Listed) -> bool {
    store.register == Number::Csr0l && store.value & 8 != 0
}

impl Follower {
    /// Goes on by an entry that was just carried out. False where it breaks the sentence.
    fn keeps(&mut self, entry: &Entry, outcome: &Outcome, machine: &Machine) -> bool {
        let now = machine.private();
        let recorded = now.endpoints[0].ep_conf.tx_max_packet_size.into();
        let (first, stores) = machine.model(|m| (m.stores.iter().position(has_data_end), m.stores.len()));
        let quiet = first.is_none();
        let stays = |left| quiet && now.state == State::DataIn && now.tx_len == left;
        if outcome.is_ok() && matches!(entry, Entry::Stall(0, _, true) | Entry::Reset | Entry::SetupEnd) {
            self.met.disturbed += u32::from(matches!(self.phase, Phase::Sending { .. }));
            self.phase = match self.phase {
                // After a setup end the Setup can still be read, and nothing is promised of that transfer.
                Phase::Reported { .. } => Phase::Reported { disturbed: true },
                _ => Phase::None,
            };
        }
        match (&self.phase, entry, outcome) {
            (&Phase::Sending { asked, total, size }, Entry::Write(0, bytes), _) => {
                let write = Write {
                    asked,
                    total: total + bytes.len() as u32,
                    length: bytes.len() as u32,
                    refused: outcome.is_err(),
                    size: recorded,
                    size_at_read: size,
                };
                if (self.rule)(&write) {
                    self.met.by_total += u32::from(write.total >= asked);
                    self.met.by_more += u32::from(write.total > asked);
                    self.met.by_short += u32::from(write.total < asked);
                    self.met.by_empty += u32::from(write.total < asked && total > 0 && bytes.is_empty());
                    self.phase = Phase::None;
                    self.over = true;
                    // Where the first store with DataEnd is the last of all, it is the only one.
                    let once = first.is_some_and(|place| place + 1 == stores);
                    return once && now.state == State::Idle && now.tx_len == 0;
                }
                self.met.refused += u32::from(write.refused);
                let total = if write.refused { total } else { write.total };
                self.phase = Phase::Sending { asked, total, size };
                stays(asked - total)
            }
            // Nothing else moves it: no poll, no bus event, no allocation, no further packet.
            (Phase::Sending { asked, total, .. }, ..) => stays(asked - total),
            (&Phase::Reported { disturbed }, Entry::Read(0, _), Ok(Answer::Read(8, setup))) => {
                self.over = false;
                self.phase = Phase::None;
                let asked = u16::from_le_bytes([setup[6], setup[7]]).into();
                self.met.cut += u32::from(disturbed);
                if disturbed && self.from_poll || setup[0] < 128 || asked == 0 {
                    return true;
                }
                self.met.begun += 1;
                let (total, size) = (0, recorded);
                self.phase = Phase::Sending { asked, total, size };
                stays(asked)
            }
            (_, _, Ok(Answer::Polled(PollResult::Data { ep_setup: 1, .. }))) => {
                self.phase = Phase::Reported { disturbed: false };
                quiet && now.state == State::Setup
            }
            (Phase::Reported { disturbed: false }, ..) => quiet && now.state == State::Setup,
            _ => {
                self.met.after += u32::from(self.over);
                !self.over || quiet && now.state != State::DataIn
            }
        }
    }

    /// The first entry that breaks the sentence, of a trace from a fresh record or from the head's.
    fn broken_at(&mut self, head: &[u8], trace: &[u8]) -> Option<usize> {
        (self.phase, self.over) = (Phase::None, false);
        let mut machine = Machine::fresh();
        if !head.is_empty() {
            put_head(&mut machine, head).expect("a record");
        }
        let mut reader = Reader::new(trace);
        let mut place = 0;
        while let Next::Entry(entry) = reader.next_entry() {
            let outcome = entry.act(&mut machine);
            if !self.keeps(&entry, &outcome, &machine) {
                return Some(place);
            }
            place += 1;
        }
        None
    }
}

/// Four downloads with entries of another trace among their own: generated traces seldom have a whole download
/// of several packets.
fn mixed(other: &[u8], number: u64) -> Vec<u8> {
    let dice = Cell::new(SEED + number);
    let below = |n: u32| {
        dice.set(dice.get().wrapping_mul(6_364_136_223_846_793_005).wrapping_add(1));
        (dice.get() >> 33) as u32 % n
    };
    let mut reader = Reader::new(other);
    let mut all = Vec::new();
    let mut put = |code, arguments: &[u32], bytes: &[u8]| {
        let begin = reader.place();
        if below(4) == 0 && matches!(reader.next_entry(), Next::Entry(_)) {
            all.extend_from_slice(&other[begin..reader.place()]);
        }
        put_entry(&mut all, code, arguments);
        all.extend_from_slice(bytes);
    };
    for _ in 0..4 {
        let mut size = [64, 64, 8, 8, 1, 63, 0, 65][below(8) as usize];
        let packet = size.max(1);
        let asked = [packet, packet + 1, 2 * packet, 3 * packet, 1 + below(300), 65_535][below(6) as usize];
        let [low, high] = (asked as u16).to_le_bytes();
        put(1, &[1, 1, 0, size], &[]);
        put(12, &[0, 8], &[128, 6, 0, 1, 0, 0, low, high]);
        put(10, &[], &[]);
        put(9, &[], &[]);
        put(6, &[0, 64], &[]);
        for _ in 0..1 + below(8) {
            let length = [size, size, size, size, 0, below(67), asked % 64, 64][below(8) as usize];
            put(5, &[0, length], &vec![7; length as usize]);
            if below(12) == 0 {
                size = [64, 8, 0, 65][below(4) as usize];
                put(1, &[1, 1, 0, size], &[]);
            }
            if below(6) > 0 {
                put(13, &[0], &[]);
            }
            put(10, &[], &[]);
            put(9, &[], &[]);
        }
    }
    all
}

/// What was met over all generated traces, as they are and mixed with downloads, and where the sentence broke.
fn tried(rule: Rule, from_poll: bool, traces: u64) -> (Met, Vec<String>) {
    let mut follower = Follower {
        rule,
        from_poll,
        phase: Phase::None,
        over: false,
        met: Met::default(),
    };
    let mut broken = Vec::new();
    for kind in Kind::ALL {
        for number in 0..traces {
            let input = generate(kind, SEED, number, ENTRIES);
            let (head, trace) = input.split_at(if kind.from_record() { HEAD_BYTES } else { 0 });
            let mixed = mixed(trace, 8 * number + kind as u64);
            for (form, trace) in [("as it is", trace), ("mixed", &mixed)] {
                if let Some(place) = follower.broken_at(head, trace) {
                    broken.push(format!("{} {number} {form}, entry {place}", kind.name()));
                }
            }
        }
    }
    (follower.met, broken)
}

#[test]
fn every_download_ends_once() {
    let (met, broken) = tried(AS_SAID, true, TRACES);
    assert!(broken.is_empty(), "{broken:?}");
    let ended = met.by_total > 2_000 && met.by_more > 800 && met.by_short > 2_000 && met.by_empty > 400;
    let rest = met.begun > 5_000
        && met.refused > 1_500
        && met.disturbed > 400
        && met.cut > 100
        && met.after > 50_000;
    assert!(ended && rest, "{met:?}");
}

/// Four other rules are broken, and so is the sentence where disturbances count from the read, so that the test
/// above can fail.
#[test]
fn other_rules_are_broken() {
    let others: [Rule; 4] = [
        |w| !w.refused && (w.total > w.asked || w.length < w.size),
        |w| !w.refused && (w.total >= w.asked || w.length <= w.size),
        |w| !w.refused && (w.total >= w.asked || w.length < w.size_at_read),
        |w| w.total >= w.asked || w.length < w.size,
    ];
    for (place, rule) in others.into_iter().enumerate() {
        let (_, broken) = tried(rule, true, TRACES / 8);
        assert!(broken.len() > 40, "rule {place}: {broken:?}");
    }
    let (_, broken) = tried(AS_SAID, false, TRACES);
    assert!(!broken.is_empty(), "from the read");
}
