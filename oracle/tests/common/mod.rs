//! A script of entries, as the tests write it, and what the oracle says of it.
#![allow(dead_code)] // each test file uses a part of this

use musb_oracle::report::{report, Form};
use musb_oracle::trace::{put_entry, put_packet};

pub const OUT: u32 = 0;
pub const IN: u32 = 1;

pub const CONTROL: u32 = 0;
pub const ISOCHRONOUS: u32 = 1;
pub const BULK: u32 = 2;
pub const INTERRUPT: u32 = 3;

#[derive(Clone, Default)]
pub struct Script {
    /// A record and FIFO bytes to begin with, or nothing for a fresh start.
    head: Vec<u8>,
    trace: Vec<u8>,
    published: bool,
}

/// Document 01's entries, one method each.
impl Script {
    pub fn new() -> Script {
        Script::default()
    }

    pub fn behind(head: Vec<u8>) -> Script {
        Script {
            head,
            ..Script::default()
        }
    }

    /// The original with nothing of document 02.
    pub fn published() -> Script {
        Script {
            published: true,
            ..Script::default()
        }
    }

    fn entry(mut self, code: u32, arguments: &[u32]) -> Script {
        put_entry(&mut self.trace, code, arguments);
        self
    }

    fn packet(mut self, code: u32, endpoint: u32, bytes: &[u8]) -> Script {
        put_packet(&mut self.trace, code, endpoint, bytes);
        self
    }

    pub fn raw(mut self, bytes: &[u8]) -> Script {
        self.trace.extend_from_slice(bytes);
        self
    }

    pub fn allocate(self, direction: u32, ep_type: u32, size: u32) -> Script {
        self.entry(1, &[direction, 0, ep_type, size])
    }

    pub fn allocate_at(self, wanted: u32, direction: u32, ep_type: u32, size: u32) -> Script {
        self.entry(1, &[direction, wanted + 1, ep_type, size])
    }

    pub fn init(self) -> Script {
        self.entry(2, &[])
    }

    pub fn reset(self) -> Script {
        self.entry(3, &[])
    }

    pub fn address(self, address: u32) -> Script {
        self.entry(4, &[address])
    }

    pub fn write(self, endpoint: u32, bytes: &[u8]) -> Script {
        self.packet(5, endpoint, bytes)
    }

    pub fn read(self, endpoint: u32, buffer: u32) -> Script {
        self.entry(6, &[endpoint, buffer])
    }

    pub fn stall(self, endpoint: u32, direction: u32, stalled: u32) -> Script {
        self.entry(7, &[endpoint, direction, stalled])
    }

    pub fn ask_stalled(self, endpoint: u32, direction: u32) -> Script {
        self.entry(8, &[endpoint, direction])
    }

    pub fn poll(self) -> Script {
        self.entry(9, &[])
    }

    pub fn interrupt(self) -> Script {
        self.entry(10, &[])
    }

    pub fn enable(self) -> Script {
        self.entry(11, &[])
    }

    pub fn arrival(self, endpoint: u32, bytes: &[u8]) -> Script {
        self.packet(12, endpoint, bytes)
    }

    pub fn collect(self, endpoint: u32) -> Script {
        self.entry(13, &[endpoint])
    }

    pub fn bus_reset(self) -> Script {
        self.entry(14, &[0])
    }

    pub fn suspend(self) -> Script {
        self.entry(14, &[1])
    }

    pub fn resume(self) -> Script {
        self.entry(14, &[2])
    }

    pub fn setup_end(self) -> Script {
        self.entry(15, &[])
    }

    pub fn underrun(self, endpoint: u32) -> Script {
        self.entry(16, &[endpoint])
    }

    pub fn overrun(self, endpoint: u32) -> Script {
        self.entry(17, &[endpoint])
    }
}

/// Ways into the control states.
impl Script {
    /// A Setup packet is reported: state Setup.
    pub fn setup(self, direction: u32, length: u16) -> Script {
        let [low, high] = length.to_le_bytes();
        let packet = [(direction as u8) << 7, 1, 2, 3, 4, 5, low, high];
        self.arrival(0, &packet).interrupt().poll()
    }

    /// The Setup packet is read: DataIn, DataOut or NodataPhase.
    pub fn request(self, direction: u32, length: u16) -> Script {
        self.setup(direction, length).read(0, 64)
    }

    /// Endpoint 0 as a device allocates it.
    pub fn control(self) -> Script {
        self.allocate_at(0, OUT, CONTROL, 64)
            .allocate_at(0, IN, CONTROL, 64)
    }
}

/// What is said of a script.
impl Script {
    fn lines(&self, detail: bool) -> Vec<String> {
        let form = Form {
            detail,
            from_record: !self.head.is_empty(),
            published: self.published,
        };
        let mut out = Vec::new();
        let input = [&self.head[..], &self.trace[..]].concat();
        report(&input, form, &mut out).expect("no record");
        let text = String::from_utf8(out).unwrap();
        assert!(text.ends_with('\n'));
        text.lines().map(str::to_string).collect()
    }

    pub fn report(&self) -> Vec<String> {
        self.lines(false)
    }

    /// The line of the last entry.
    pub fn last(&self) -> String {
        let report = self.report();
        assert!(report.last().unwrap().starts_with("end "), "{report:?}");
        report[report.len() - 2].clone()
    }

    /// The lines of the last `n` entries.
    pub fn lasts(&self, n: usize) -> Vec<String> {
        let report = self.report();
        report[report.len() - 1 - n..report.len() - 1].to_vec()
    }

    /// The stores of the last entry, as the detail report writes them.
    pub fn stores(&self) -> String {
        let detail = self.lines(true);
        let line = &detail[detail.len() - 3];
        line.strip_prefix("  stores").unwrap().trim_start().to_string()
    }

    /// The record after the last entry.
    pub fn record(&self) -> Vec<u32> {
        let detail = self.lines(true);
        let line = &detail[detail.len() - 2];
        let numbers = line.strip_prefix("  record ").unwrap();
        numbers.split(' ').map(|number| number.parse().unwrap()).collect()
    }

    pub fn state(&self) -> u32 {
        self.record()[STATE]
    }

    pub fn remaining(&self) -> u32 {
        self.record()[REMAINING]
    }
}

// Places in the record.
pub const FADDR: usize = 0;
pub const INDEX: usize = 2;
pub const CSR0L: usize = 9;
pub const STATE: usize = 88;
pub const REMAINING: usize = 89;
pub const RESET_FLAG: usize = 90;
pub const SUSPEND_FLAG: usize = 91;
pub const EP0_FLAG: usize = 93;
pub const EP_TX: usize = 94;
pub const EP_RX: usize = 95;

pub const TXCSRL: usize = 0;
pub const RXCSRL: usize = 1;
pub const TX_LENGTH: usize = 6;
pub const RX_LENGTH: usize = 7;

/// The place of an endpoint's number in the record.
pub fn of(endpoint: usize, number: usize) -> usize {
    10 + 13 * endpoint + number
}

// Control states.
pub const IDLE: u32 = 0;
pub const SETUP: u32 = 1;
pub const DATA_IN: u32 = 2;
pub const DATA_OUT: u32 = 3;
pub const ACCEPTED: u32 = 4;
pub const NODATA_PHASE: u32 = 5;
