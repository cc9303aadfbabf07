//! Document 01's register model for the original, as lean as a chip's registers can be kept in memory: one
//! struct, an array for the store list, no lock, and one test of room for each store. `oracle/src/model.rs`
//! is the same with its checks; bench/ compares the store lists of every case.

use crate::info::{area_start, COUNT, FIFO_BYTES};
use crate::regs::regs::*;
use crate::regs::{Load, Store, Usb};
use crate::MusbInstance;
use core::cell::UnsafeCell;
use embassy_usb_driver::Direction;

pub struct Chip;

impl MusbInstance for Chip {
    fn regs() -> Usb {
        Usb
    }
}

struct Cell(UnsafeCell<Model>);

// SAFETY: the program has one thread.
unsafe impl Sync for Cell {}

static MODEL: Cell = Cell(UnsafeCell::new(Model::FRESH));

#[inline(always)]
pub fn with<R>(f: impl FnOnce(&mut Model) -> R) -> R {
    // SAFETY: one thread, and no `f` calls `with`.
    f(unsafe { &mut *MODEL.0.get() })
}

#[derive(Clone, Copy)]
struct Side {
    ready: bool,
    length: u16,
    send_stall: bool,
    sent_stall: bool,
    fault: bool,
    iso: bool,
    max_packet: u16,
}

impl Side {
    const FRESH: Side = Side {
        ready: false,
        length: 0,
        send_stall: false,
        sent_stall: false,
        fault: false,
        iso: false,
        max_packet: 0,
    };

    fn drop_packet(&mut self) {
        self.ready = false;
        self.length = 0;
    }
}

const STORES: usize = 128;

const fn starts(direction: Direction) -> [usize; COUNT] {
    let mut starts = [0; COUNT];
    let mut endpoint = 0;
    while endpoint < COUNT {
        starts[endpoint] = area_start(endpoint, direction);
        endpoint += 1;
    }
    starts
}

const TX_STARTS: [usize; COUNT] = starts(Direction::In);
const RX_STARTS: [usize; COUNT] = starts(Direction::Out);

#[derive(Clone, Copy)]
pub struct Model {
    faddr: u8,
    power: u8,
    index: u8,
    intrtxe: u16,
    intrrxe: u16,
    intrusbe: u8,
    intrusb: u8,
    intrtx: u16,
    intrrx: u16,
    setup_end: bool,
    tx: [Side; COUNT],
    rx: [Side; COUNT],
    fifo: [u8; FIFO_BYTES],
    list: [[u16; 3]; STORES],
    listed: usize,
    /// How many bytes the call under way has taken of the packet that it reads.
    taken: usize,
}

impl Model {
    const FRESH: Model = Model {
        faddr: 0,
        power: 0,
        index: 0,
        intrtxe: 0,
        intrrxe: 0,
        intrusbe: 0,
        intrusb: 0,
        intrtx: 0,
        intrrx: 0,
        setup_end: false,
        tx: [Side::FRESH; COUNT],
        rx: [Side::FRESH; COUNT],
        fifo: [0; FIFO_BYTES],
        list: [[0; 3]; STORES],
        listed: 0,
        taken: 0,
    };

    /// A call begins: its list is empty.
    pub fn begin(&mut self) {
        self.listed = 0;
        self.taken = 0;
    }

    pub fn stores(&self) -> &[[u16; 3]] {
        &self.list[..self.listed]
    }

    fn list(&mut self, register: u16, value: u16) {
        self.list[self.listed] = [register, self.index.into(), value];
        self.listed += 1;
    }

    fn selected_tx(&mut self) -> &mut Side {
        &mut self.tx[usize::from(self.index)]
    }

    fn selected_rx(&mut self) -> &mut Side {
        &mut self.rx[usize::from(self.index)]
    }

    pub fn take_byte(&mut self, endpoint: usize) -> u8 {
        let place = RX_STARTS[endpoint] + self.taken;
        self.taken += 1;
        self.fifo[place]
    }

    /// "A packet written is one store whose value is its length", at the place of its first byte.
    pub fn put_byte(&mut self, endpoint: usize, byte: u8) {
        let before = usize::from(self.tx[endpoint].length);
        if before == 0 {
            self.list(15, 0);
        }
        self.fifo[TX_STARTS[endpoint] + before] = byte;
        self.tx[endpoint].length += 1;
        self.list[self.listed - 1][2] += 1;
    }

    pub fn arrival(&mut self, endpoint: usize, bytes: &[u8]) {
        let start = RX_STARTS[endpoint];
        self.fifo[start..start + bytes.len()].copy_from_slice(bytes);
        self.rx[endpoint].ready = true;
        self.rx[endpoint].length = bytes.len() as u16;
        self.intrrx |= 1 << endpoint;
    }
}

impl Load for Csr0l {
    fn load(m: &mut Model) -> Csr0l {
        let mut v = Csr0l::default();
        v.set_rx_pkt_rdy(m.rx[0].ready);
        v.set_tx_pkt_rdy(m.tx[0].ready);
        v.set_sent_stall(m.tx[0].sent_stall);
        v.set_setup_end(m.setup_end);
        v.set_send_stall(m.tx[0].send_stall);
        v
    }
}

impl Store for Csr0l {
    fn store(self, m: &mut Model) {
        m.list(4, self.0.into());
        m.tx[0].send_stall = self.send_stall();
        m.tx[0].sent_stall &= self.sent_stall();
        m.tx[0].ready |= self.tx_pkt_rdy();
        if self.serviced_rx_pkt_rdy() {
            m.rx[0].drop_packet();
        }
        if self.serviced_setup_end() {
            m.setup_end = false;
        }
    }
}

impl Load for Csr0h {
    fn load(_: &mut Model) -> Csr0h {
        Csr0h::default()
    }
}

impl Store for Csr0h {
    fn store(self, m: &mut Model) {
        m.list(5, self.0.into());
        if self.flush_fifo() {
            m.tx[0].drop_packet();
            m.rx[0].drop_packet();
        }
    }
}

impl Load for Txcsrl {
    fn load(m: &mut Model) -> Txcsrl {
        let side = m.selected_tx();
        let mut v = Txcsrl::default();
        v.set_tx_pkt_rdy(side.ready);
        v.set_fifo_not_empty(side.ready);
        v.set_under_run(side.fault);
        v.set_send_stall(side.send_stall);
        v.set_sent_stall(side.sent_stall);
        v
    }
}

impl Store for Txcsrl {
    fn store(self, m: &mut Model) {
        m.list(6, self.0.into());
        let side = m.selected_tx();
        side.send_stall = self.send_stall();
        side.sent_stall &= self.sent_stall();
        side.fault &= self.under_run();
        side.ready |= self.tx_pkt_rdy();
        if self.flush_fifo() {
            side.drop_packet();
        }
    }
}

impl Load for Rxcsrl {
    fn load(m: &mut Model) -> Rxcsrl {
        let side = m.selected_rx();
        let mut v = Rxcsrl::default();
        v.set_rx_pkt_rdy(side.ready);
        v.set_over_run(side.fault);
        v.set_send_stall(side.send_stall);
        v.set_sent_stall(side.sent_stall);
        v
    }
}

impl Store for Rxcsrl {
    fn store(self, m: &mut Model) {
        m.list(7, self.0.into());
        let side = m.selected_rx();
        side.send_stall = self.send_stall();
        side.sent_stall &= self.sent_stall();
        side.fault &= self.over_run();
        if !self.rx_pkt_rdy() || self.flush_fifo() {
            side.drop_packet();
        }
    }
}

impl Load for Txcsrh {
    fn load(m: &mut Model) -> Txcsrh {
        let mut v = Txcsrh::default();
        v.set_iso(m.selected_tx().iso);
        v
    }
}

impl Store for Txcsrh {
    fn store(self, m: &mut Model) {
        m.list(8, self.0.into());
        m.selected_tx().iso = self.iso();
    }
}

impl Load for Rxcsrh {
    fn load(m: &mut Model) -> Rxcsrh {
        let mut v = Rxcsrh::default();
        v.set_iso(m.selected_rx().iso);
        v
    }
}

impl Store for Rxcsrh {
    fn store(self, m: &mut Model) {
        m.list(9, self.0.into());
        m.selected_rx().iso = self.iso();
    }
}

impl Store for Index {
    fn store(self, m: &mut Model) {
        m.index = self.0;
        m.list(3, self.0.into());
    }
}

/// Registers that hold what was written, and their numbers.
macro_rules! held {
    ($($name:ident $field:ident $number:literal)*) => {
        $(
            impl Store for $name {
                fn store(self, m: &mut Model) {
                    m.list($number, self.0.into());
                    m.$field = self.0;
                }
            }
        )*
    };
}

held! {
    Faddr faddr 1
    Power power 2
    Intrtxe intrtxe 12
    Intrrxe intrrxe 13
    Intrusbe intrusbe 14
}

impl Store for Txmaxp {
    fn store(self, m: &mut Model) {
        m.list(10, self.0);
        m.selected_tx().max_packet = self.0;
    }
}

impl Store for Rxmaxp {
    fn store(self, m: &mut Model) {
        m.list(11, self.0);
        m.selected_rx().max_packet = self.0;
    }
}

impl Load for Intrtxe {
    fn load(m: &mut Model) -> Intrtxe {
        Intrtxe(m.intrtxe)
    }
}

impl Load for Intrrxe {
    fn load(m: &mut Model) -> Intrrxe {
        Intrrxe(m.intrrxe)
    }
}

/// "Interrupt registers clear when read."
macro_rules! cleared {
    ($($name:ident $field:ident)*) => {
        $(
            impl Load for $name {
                fn load(m: &mut Model) -> $name {
                    $name(std::mem::take(&mut m.$field))
                }
            }
        )*
    };
}

cleared! {
    Intrusb intrusb
    Intrtx intrtx
    Intrrx intrrx
}

impl Load for Count0 {
    fn load(m: &mut Model) -> Count0 {
        Count0(m.rx[0].length as u8)
    }
}

impl Load for Rxcount {
    fn load(m: &mut Model) -> Rxcount {
        Rxcount(m.selected_rx().length)
    }
}

impl Load for Dpktbufdis {
    fn load(_: &mut Model) -> Dpktbufdis {
        unreachable!("the dual-packet functions are not carried over")
    }
}

impl Store for Dpktbufdis {
    fn store(self, _: &mut Model) {
        unreachable!("the dual-packet functions are not carried over")
    }
}
