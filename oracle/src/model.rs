//! Document 01's register model: what each load and store does, and what each host event does.
//! "Reading n" is the n-th of the readings of document 01.

use crate::info::{area_size, area_start, COUNT, FIFO_BYTES};
use crate::regs::regs::*;
use crate::regs::{Load, Store, Usb};
use crate::MusbInstance;
use embassy_usb_driver::Direction;
use std::cell::RefCell;

/// The chip that the original is run over.
pub struct Chip;

impl MusbInstance for Chip {
    fn regs() -> Usb {
        Usb
    }
}

thread_local! {
    // The original asks for its registers through a function without arguments, so they stand here.
    static MODEL: RefCell<Model> = RefCell::new(Model::fresh());
}

/// The chip's registers, for as long as `f` runs.
pub fn with<R>(f: impl FnOnce(&mut Model) -> R) -> R {
    MODEL.with(|model| f(&mut model.borrow_mut()))
}

/// Register numbers of the store list.
#[derive(Debug, Clone, Copy, PartialEq, Eq)]
pub enum Number {
    Faddr = 1,
    Power = 2,
    Index = 3,
    Csr0l = 4,
    Csr0h = 5,
    Txcsrl = 6,
    Rxcsrl = 7,
    Txcsrh = 8,
    Rxcsrh = 9,
    Txmaxp = 10,
    Rxmaxp = 11,
    Intrtxe = 12,
    Intrrxe = 13,
    Intrusbe = 14,
    Fifo = 15,
}

/// One store of the list: register, selected endpoint, value.
#[derive(Debug, Clone, Copy, PartialEq, Eq)]
pub struct Listed {
    pub register: Number,
    pub endpoint: u8,
    pub value: u16,
}

/// "The list must hold 128 stores."
pub const LIST_STORES: usize = 128;

/// One direction of one endpoint. For endpoint 0 only `ready` and `length` are used: the rest of its
/// bits stand in one register for both directions.
#[derive(Debug, Clone, Copy, PartialEq, Eq, Default)]
pub struct Side {
    /// TxPktRdy or RxPktRdy.
    pub ready: bool,
    /// The waiting packet's length, 0 if none.
    pub length: u16,
    pub send_stall: bool,
    pub sent_stall: bool,
    /// UnderRun or OverRun.
    pub fault: bool,
    pub iso: bool,
    pub max_packet: u16,
}

impl Side {
    /// "A drop makes its length 0 and leaves the bytes."
    fn drop_packet(&mut self) {
        self.ready = false;
        self.length = 0;
    }
}

/// The bits of CSR0L that are not a side's.
#[derive(Debug, Clone, Copy, PartialEq, Eq, Default)]
pub struct Control {
    pub sent_stall: bool,
    pub setup_end: bool,
    pub send_stall: bool,
}

#[derive(Debug, Clone)]
pub struct Model {
    pub faddr: u8,
    pub power: u8,
    pub index: u8,
    pub intrtxe: u16,
    pub intrrxe: u16,
    pub intrusbe: u8,
    /// The interrupts raised and not yet read.
    pub intrusb: u8,
    pub intrtx: u16,
    pub intrrx: u16,
    pub control: Control,
    pub tx: [Side; COUNT],
    pub rx: [Side; COUNT],
    /// The one lent FIFO buffer.
    pub fifo: [u8; FIFO_BYTES],
    /// The stores of the call under way.
    pub stores: Vec<Listed>,
    /// How many bytes the call under way has taken of the packet that it reads.
    taken: usize,
}

impl Model {
    /// "Registers 0, nothing waiting."
    pub fn fresh() -> Model {
        Model {
            faddr: 0,
            power: 0,
            index: 0,
            intrtxe: 0,
            intrrxe: 0,
            intrusbe: 0,
            intrusb: 0,
            intrtx: 0,
            intrrx: 0,
            control: Control::default(),
            tx: [Side::default(); COUNT],
            rx: [Side::default(); COUNT],
            fifo: [0; FIFO_BYTES],
            stores: Vec::with_capacity(LIST_STORES),
            taken: 0,
        }
    }

    /// A call begins: its list is empty.
    pub fn begin(&mut self) {
        self.stores.clear();
        self.taken = 0;
    }

    fn list(&mut self, register: Number, value: u16) {
        assert!(
            self.stores.len() < LIST_STORES,
            "more stores than the list must hold"
        );
        self.stores.push(Listed {
            register,
            endpoint: self.index,
            value,
        });
    }

    /// The selected endpoint, for the registers that endpoints 1 to 5 have each for itself. Endpoint 0
    /// has CSR0L and CSR0H in their place, and the original never mixes the two up.
    fn selected(&self) -> usize {
        let endpoint = usize::from(self.index);
        assert!(
            (1..COUNT).contains(&endpoint),
            "no such register at endpoint {endpoint}"
        );
        endpoint
    }

    fn selected_tx(&mut self) -> &mut Side {
        &mut self.tx[self.selected()]
    }

    fn selected_rx(&mut self) -> &mut Side {
        &mut self.rx[self.selected()]
    }

    /// The same for a store, which changes nothing while endpoint 0 is selected.
    fn stored_tx(&mut self) -> Option<&mut Side> {
        (self.index != 0).then(|| self.selected_tx())
    }

    fn stored_rx(&mut self) -> Option<&mut Side> {
        (self.index != 0).then(|| self.selected_rx())
    }

    /// The original reads the FIFO register: the next byte of the packet received.
    pub fn take_byte(&mut self, endpoint: usize) -> u8 {
        assert!(
            self.taken < usize::from(self.rx[endpoint].length),
            "read past the packet"
        );
        let place = area_start(endpoint, Direction::Out) + self.taken;
        self.taken += 1;
        self.fifo[place]
    }

    /// The original writes the FIFO register: the next byte of the packet to send. "A packet written
    /// is one store whose value is its length", at the place of its first byte.
    pub fn put_byte(&mut self, endpoint: usize, byte: u8) {
        let before = usize::from(self.tx[endpoint].length);
        assert!(!self.tx[endpoint].ready, "written over a waiting packet");
        assert!(
            before < area_size(endpoint, Direction::In),
            "written past the area"
        );
        self.fifo[area_start(endpoint, Direction::In) + before] = byte;
        self.tx[endpoint].length += 1;
        match self.stores.last_mut() {
            Some(last) if last.register == Number::Fifo => last.value += 1,
            _ => self.list(Number::Fifo, 1),
        }
    }
}

// ---- Control registers.

impl Load for Csr0l {
    fn load(m: &mut Model) -> Csr0l {
        // DataEnd and the two Serviced bits read 0.
        let mut v = Csr0l::default();
        v.set_rx_pkt_rdy(m.rx[0].ready);
        v.set_tx_pkt_rdy(m.tx[0].ready);
        v.set_sent_stall(m.control.sent_stall);
        v.set_setup_end(m.control.setup_end);
        v.set_send_stall(m.control.send_stall);
        v
    }
}

impl Store for Csr0l {
    fn store(self, m: &mut Model) {
        m.list(Number::Csr0l, self.0.into());
        m.control.send_stall = self.send_stall();
        m.control.sent_stall &= self.sent_stall(); // cleared by a written 0 (reading 3)
        m.tx[0].ready |= self.tx_pkt_rdy();
        if self.serviced_rx_pkt_rdy() {
            m.rx[0].drop_packet(); // reading 7
        }
        if self.serviced_setup_end() {
            m.control.setup_end = false;
        }
    }
}

impl Load for Csr0h {
    fn load(_: &mut Model) -> Csr0h {
        Csr0h::default()
    }
}

impl Store for Csr0h {
    fn store(self, m: &mut Model) {
        m.list(Number::Csr0h, self.0.into());
        if self.flush_fifo() {
            m.tx[0].drop_packet();
            m.rx[0].drop_packet();
        }
    }
}

impl Load for Txcsrl {
    fn load(m: &mut Model) -> Txcsrl {
        txcsrl_of(m.selected_tx())
    }
}

/// What TXCSRL reads for a transmit side. FIFONotEmpty reads as TxPktRdy; FlushFIFO and ClrDataTog read 0.
pub fn txcsrl_of(side: &Side) -> Txcsrl {
    let mut v = Txcsrl::default();
    v.set_tx_pkt_rdy(side.ready);
    v.set_fifo_not_empty(side.ready);
    v.set_under_run(side.fault);
    v.set_send_stall(side.send_stall);
    v.set_sent_stall(side.sent_stall);
    v
}

impl Store for Txcsrl {
    fn store(self, m: &mut Model) {
        m.list(Number::Txcsrl, self.0.into());
        let Some(side) = m.stored_tx() else { return };
        side.send_stall = self.send_stall();
        side.sent_stall &= self.sent_stall();
        side.fault &= self.under_run();
        side.ready |= self.tx_pkt_rdy();
        // Last, because it wins over a TxPktRdy of the same store (reading 2).
        if self.flush_fifo() {
            side.drop_packet();
        }
    }
}

impl Load for Rxcsrl {
    fn load(m: &mut Model) -> Rxcsrl {
        rxcsrl_of(m.selected_rx())
    }
}

/// What RXCSRL reads for a receive side. FIFOFull, DataError, FlushFIFO and ClrDataTog read 0.
pub fn rxcsrl_of(side: &Side) -> Rxcsrl {
    let mut v = Rxcsrl::default();
    v.set_rx_pkt_rdy(side.ready);
    v.set_over_run(side.fault);
    v.set_send_stall(side.send_stall);
    v.set_sent_stall(side.sent_stall);
    v
}

impl Store for Rxcsrl {
    fn store(self, m: &mut Model) {
        m.list(Number::Rxcsrl, self.0.into());
        let Some(side) = m.stored_rx() else { return };
        side.send_stall = self.send_stall();
        side.sent_stall &= self.sent_stall();
        side.fault &= self.over_run();
        // "Clearing RxPktRdy drops the packet"; a written 1 changes nothing, so a flush wins over it.
        if !self.rx_pkt_rdy() || self.flush_fifo() {
            side.drop_packet();
        }
    }
}

impl Load for Txcsrh {
    fn load(m: &mut Model) -> Txcsrh {
        txcsrh_of(m.selected_tx())
    }
}

pub fn txcsrh_of(side: &Side) -> Txcsrh {
    let mut v = Txcsrh::default();
    v.set_iso(side.iso);
    v
}

impl Store for Txcsrh {
    fn store(self, m: &mut Model) {
        m.list(Number::Txcsrh, self.0.into());
        if let Some(side) = m.stored_tx() {
            side.iso = self.iso();
        }
    }
}

impl Load for Rxcsrh {
    fn load(m: &mut Model) -> Rxcsrh {
        rxcsrh_of(m.selected_rx())
    }
}

pub fn rxcsrh_of(side: &Side) -> Rxcsrh {
    let mut v = Rxcsrh::default();
    v.set_iso(side.iso);
    v
}

impl Store for Rxcsrh {
    fn store(self, m: &mut Model) {
        m.list(Number::Rxcsrh, self.0.into());
        if let Some(side) = m.stored_rx() {
            side.iso = self.iso();
        }
    }
}

// ---- "Other registers hold what was written."

impl Store for Index {
    fn store(self, m: &mut Model) {
        m.index = self.0;
        // After the change: "An index store has the new number in both places."
        m.list(Number::Index, self.0.into());
    }
}

impl Store for Faddr {
    fn store(self, m: &mut Model) {
        m.list(Number::Faddr, self.0.into());
        m.faddr = self.0;
    }
}

impl Store for Power {
    fn store(self, m: &mut Model) {
        m.list(Number::Power, self.0.into());
        m.power = self.0;
    }
}

impl Store for Txmaxp {
    fn store(self, m: &mut Model) {
        m.list(Number::Txmaxp, self.0);
        if let Some(side) = m.stored_tx() {
            side.max_packet = self.0;
        }
    }
}

impl Store for Rxmaxp {
    fn store(self, m: &mut Model) {
        m.list(Number::Rxmaxp, self.0);
        if let Some(side) = m.stored_rx() {
            side.max_packet = self.0;
        }
    }
}

impl Load for Intrtxe {
    fn load(m: &mut Model) -> Intrtxe {
        Intrtxe(m.intrtxe)
    }
}

impl Store for Intrtxe {
    fn store(self, m: &mut Model) {
        m.list(Number::Intrtxe, self.0);
        m.intrtxe = self.0;
    }
}

impl Load for Intrrxe {
    fn load(m: &mut Model) -> Intrrxe {
        Intrrxe(m.intrrxe)
    }
}

impl Store for Intrrxe {
    fn store(self, m: &mut Model) {
        m.list(Number::Intrrxe, self.0);
        m.intrrxe = self.0;
    }
}

impl Store for Intrusbe {
    fn store(self, m: &mut Model) {
        m.list(Number::Intrusbe, self.0.into());
        m.intrusbe = self.0;
    }
}

// ---- "Interrupt registers clear when read." "Counts are the waiting packet's length."

impl Load for Intrusb {
    fn load(m: &mut Model) -> Intrusb {
        Intrusb(std::mem::take(&mut m.intrusb))
    }
}

impl Load for Intrtx {
    fn load(m: &mut Model) -> Intrtx {
        Intrtx(std::mem::take(&mut m.intrtx))
    }
}

impl Load for Intrrx {
    fn load(m: &mut Model) -> Intrrx {
        Intrrx(std::mem::take(&mut m.intrrx))
    }
}

impl Load for Count0 {
    fn load(m: &mut Model) -> Count0 {
        Count0(m.rx[0].length as u8) // at most 64, its area's size
    }
}

impl Load for Rxcount {
    fn load(m: &mut Model) -> Rxcount {
        Rxcount(m.selected_rx().length)
    }
}

// ---- Only the dual-packet functions touch this one, and they stay out of document 01.

impl Load for Dpktbufdis {
    fn load(_: &mut Model) -> Dpktbufdis {
        unreachable!("the dual-packet functions are not carried over")
    }
}

impl Store for Dpktbufdis {
    fn store(self, _: &mut Model) {
        unreachable!("the dual-packet functions are not carried over")
    }
}

/// The bus events of document 01.
#[derive(Debug, Clone, Copy, PartialEq, Eq)]
pub enum BusEvent {
    Reset,
    Suspend,
    Resume,
}

/// Host events. Their refusals are decided in `machine.rs`.
impl Model {
    /// A packet from the host.
    pub fn arrival(&mut self, endpoint: usize, bytes: &[u8]) {
        let start = area_start(endpoint, Direction::Out);
        self.fifo[start..start + bytes.len()].copy_from_slice(bytes);
        self.rx[endpoint].ready = true;
        self.rx[endpoint].length = bytes.len() as u16;
        if endpoint == 0 {
            self.intrtx |= 1;
            self.control.send_stall = false; // endpoint 0 only (reading 1)
        } else {
            self.intrrx |= 1 << endpoint;
        }
    }

    /// The host takes the waiting packet.
    pub fn collect(&mut self, endpoint: usize) -> Vec<u8> {
        let start = area_start(endpoint, Direction::In);
        let length = usize::from(self.tx[endpoint].length);
        self.tx[endpoint].drop_packet();
        self.intrtx |= 1 << endpoint;
        self.fifo[start..start + length].to_vec()
    }

    pub fn bus(&mut self, event: BusEvent) {
        let mut raised = Intrusb(self.intrusb);
        match event {
            BusEvent::Reset => raised.set_reset(true),
            BusEvent::Suspend => raised.set_suspend(true),
            BusEvent::Resume => raised.set_resume(true),
        }
        self.intrusb = raised.0;
    }

    pub fn setup_end(&mut self) {
        self.control.setup_end = true;
        self.intrtx |= 1;
    }

    pub fn underrun(&mut self, endpoint: usize) {
        self.tx[endpoint].fault = true;
    }

    pub fn overrun(&mut self, endpoint: usize) {
        self.rx[endpoint].fault = true;
    }
}
