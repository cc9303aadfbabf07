//! The record as 96 numbers, in the order of the detail report, and back.

use crate::info::{COUNT, FIFO_BYTES};
use crate::machine::Machine;
use crate::model::{rxcsrh_of, rxcsrl_of, txcsrh_of, txcsrl_of, Side};
use crate::regs::regs::{Csr0l, Rxcsrh, Rxcsrl, Txcsrh, Txcsrl};
use crate::regs::Load;
use crate::window::State;
use embassy_usb_driver::EndpointType;

/// Ten of the chip as a whole, thirteen for each endpoint, two of the control state, six flags.
pub const NUMBERS: usize = 10 + 13 * COUNT + 2 + 6;

pub type Record = [u32; NUMBERS];

/// A record and its FIFO bytes as they stand in front of a trace: each number as four bytes, low byte
/// first, then the FIFO buffer.
pub const HEAD_BYTES: usize = 4 * NUMBERS + FIFO_BYTES;

/// The machine's record. Registers as they read.
pub fn record_of(machine: &Machine) -> Record {
    let private = machine.private();
    let mut out = Numbers::new();
    machine.model(|m| {
        for number in [m.faddr, m.power, m.index] {
            out.push(number);
        }
        out.push(m.intrtxe);
        out.push(m.intrrxe);
        out.push(m.intrusbe);
        out.push(m.intrusb);
        out.push(m.intrtx);
        out.push(m.intrrx);
        out.push(Csr0l::load(m).0);
        for (n, ep) in private.endpoints.iter().enumerate() {
            let (tx, rx) = (&m.tx[n], &m.rx[n]);
            let registers = [
                u16::from(txcsrl_of(tx).0),
                u16::from(rxcsrl_of(rx).0),
                u16::from(txcsrh_of(tx).0),
                u16::from(rxcsrh_of(rx).0),
                tx.max_packet,
                rx.max_packet,
            ];
            for register in registers {
                // Endpoint 0 has none of these six: its ready bits are in CSR0L.
                out.push(if n == 0 { 0 } else { register });
            }
            out.push(tx.length);
            out.push(rx.length);
            out.push(type_number(ep.ep_conf.ep_type));
            out.push(ep.ep_conf.tx_max_packet_size);
            out.push(ep.ep_conf.rx_max_packet_size);
            out.push(ep.used_tx);
            out.push(ep.used_rx);
        }
    });
    out.push(private.state as u8);
    out.push(private.tx_len);
    let flags = private.flags;
    for flag in [flags.reset, flags.suspend, flags.resume, flags.ep0] {
        out.push(flag);
    }
    out.push(flags.ep_tx);
    out.push(flags.ep_rx);
    out.finished()
}

/// A record being put together, number by number.
struct Numbers {
    record: Record,
    filled: usize,
}

impl Numbers {
    fn new() -> Numbers {
        Numbers {
            record: [0; NUMBERS],
            filled: 0,
        }
    }

    fn push(&mut self, number: impl Into<u32>) {
        self.record[self.filled] = number.into();
        self.filled += 1;
    }

    fn finished(self) -> Record {
        assert_eq!(self.filled, NUMBERS);
        self.record
    }
}

fn type_number(ep_type: EndpointType) -> u8 {
    match ep_type {
        EndpointType::Control => 0,
        EndpointType::Isochronous => 1,
        EndpointType::Bulk => 2,
        EndpointType::Interrupt => 3,
    }
}

/// Puts a machine into a record. None where the numbers are no record: one over its field's range, or
/// a bit that reads 0 in this model.
pub fn put_record(machine: &mut Machine, record: &Record) -> Option<()> {
    let mut private = machine.private();
    let mut from = record.iter().copied();
    machine.model(|m| {
        m.faddr = small(&mut from)?;
        m.power = small(&mut from)?;
        m.index = small(&mut from)?;
        m.intrtxe = small(&mut from)?;
        m.intrrxe = small(&mut from)?;
        m.intrusbe = small(&mut from)?;
        m.intrusb = small(&mut from)?;
        m.intrtx = small(&mut from)?;
        m.intrrx = small(&mut from)?;
        let csr0l = Csr0l(small(&mut from)?);
        for (n, ep) in private.endpoints.iter_mut().enumerate() {
            (m.tx[n], m.rx[n]) = sides(&mut from)?;
            m.tx[n].length = small(&mut from)?;
            m.rx[n].length = small(&mut from)?;
            ep.ep_conf.ep_type = type_of(from.next()?)?;
            ep.ep_conf.tx_max_packet_size = small(&mut from)?;
            ep.ep_conf.rx_max_packet_size = small(&mut from)?;
            ep.used_tx = flag(from.next()?)?;
            ep.used_rx = flag(from.next()?)?;
        }
        m.rx[0].ready = csr0l.rx_pkt_rdy();
        m.tx[0].ready = csr0l.tx_pkt_rdy();
        m.control.sent_stall = csr0l.sent_stall();
        m.control.setup_end = csr0l.setup_end();
        m.control.send_stall = csr0l.send_stall();
        Some(())
    })?;
    let state = usize::try_from(from.next()?).ok()?;
    private.state = *State::ALL.get(state)?;
    private.tx_len = from.next()?;
    private.flags.reset = flag(from.next()?)?;
    private.flags.suspend = flag(from.next()?)?;
    private.flags.resume = flag(from.next()?)?;
    private.flags.ep0 = flag(from.next()?)?;
    private.flags.ep_tx = small(&mut from)?;
    private.flags.ep_rx = small(&mut from)?;
    machine.set_private(&private);
    // A bit that reads 0 would be lost: such numbers are no record.
    (record_of(machine) == *record).then_some(())
}

fn sides(from: &mut impl Iterator<Item = u32>) -> Option<(Side, Side)> {
    let (txl, rxl) = (Txcsrl(small(from)?), Rxcsrl(small(from)?));
    let (txh, rxh) = (Txcsrh(small(from)?), Rxcsrh(small(from)?));
    let tx = Side {
        ready: txl.tx_pkt_rdy(),
        send_stall: txl.send_stall(),
        sent_stall: txl.sent_stall(),
        fault: txl.under_run(),
        iso: txh.iso(),
        max_packet: small(from)?,
        length: 0,
    };
    let rx = Side {
        ready: rxl.rx_pkt_rdy(),
        send_stall: rxl.send_stall(),
        sent_stall: rxl.sent_stall(),
        fault: rxl.over_run(),
        iso: rxh.iso(),
        max_packet: small(from)?,
        length: 0,
    };
    Some((tx, rx))
}

fn small<N: TryFrom<u32>>(from: &mut impl Iterator<Item = u32>) -> Option<N> {
    N::try_from(from.next()?).ok()
}

fn flag(number: u32) -> Option<bool> {
    match number {
        0 => Some(false),
        1 => Some(true),
        _ => None,
    }
}

fn type_of(number: u32) -> Option<EndpointType> {
    match number {
        0 => Some(EndpointType::Control),
        1 => Some(EndpointType::Isochronous),
        2 => Some(EndpointType::Bulk),
        3 => Some(EndpointType::Interrupt),
        _ => None,
    }
}

/// The head's bytes for a record and its FIFO buffer.
pub fn head_of(record: &Record, fifo: &[u8; FIFO_BYTES]) -> Vec<u8> {
    let mut head: Vec<u8> = record.iter().flat_map(|number| number.to_le_bytes()).collect();
    head.extend_from_slice(fifo);
    head
}

/// Puts a machine into the record and FIFO bytes of a head.
pub fn put_head(machine: &mut Machine, head: &[u8]) -> Option<()> {
    let (numbers, fifo) = head.split_at_checked(4 * NUMBERS)?;
    let fifo: &[u8; FIFO_BYTES] = fifo.try_into().ok()?;
    let mut record = [0; NUMBERS];
    for (number, bytes) in record.iter_mut().zip(numbers.chunks_exact(4)) {
        *number = u32::from_le_bytes(bytes.try_into().ok()?);
    }
    machine.model(|m| m.fifo = *fifo);
    put_record(machine, &record)
}
