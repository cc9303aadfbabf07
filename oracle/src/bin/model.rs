//! Carries out a script of single stores, host events and reads on the register model alone, without the
//! original's calls, and prints after each what it read, what it listed and the record. The script and its
//! output stand in `crates/run_model`, whose program does the same with the port's model.
//!
//! The script begins with 768 bytes that count up, which packets are taken from. A step is five bytes: what is
//! done, an endpoint (or an address), a number (low byte first), and the place of a packet's first byte.
//! `crates/run_model/make` has the names of the steps.

use musb_oracle::machine::Machine;
use musb_oracle::model::{BusEvent, Chip, Model};
use musb_oracle::regs::regs::*;
use musb_oracle::report::detail_lines;
use musb_oracle::MusbInstance;
use std::io::{self, Read, Write};

struct Step {
    code: u8,
    endpoint: u8,
    number: u16,
    from: u8,
}

/// What a step read: a number, or the first bytes of a packet in a buffer of 255s.
enum Seen {
    Number(u16),
    Bytes([u8; 8]),
}

fn main() -> io::Result<()> {
    let mut script = Vec::new();
    io::stdin().read_to_end(&mut script)?;
    let machine = Machine::fresh();
    let mut out = Vec::new();
    let (source, steps) = script.split_at(768);
    for bytes in steps.chunks_exact(5) {
        let step = Step {
            code: bytes[0],
            endpoint: bytes[1],
            number: u16::from_le_bytes([bytes[2], bytes[3]]),
            from: bytes[4],
        };
        machine.model(Model::begin);
        let read = act(&step, source, &machine);
        let sum = match step.code {
            0 | 15 | 29..=31 => machine.model(|m| sum(&m.fifo)),
            _ => 0,
        };
        let number = match read {
            Seen::Number(n) => u32::from(n) + sum,
            Seen::Bytes(_) => sum,
        };
        write!(out, "{} {} {number}", step.code, step.endpoint)?;
        if let Seen::Bytes(bytes) = read {
            for byte in bytes {
                write!(out, " {byte}")?;
            }
        }
        out.push(b'\n');
        detail_lines(&machine, &mut out);
    }
    io::stdout().write_all(&out)
}

/// Where any byte changes, or moves, so does this.
fn sum(fifo: &[u8]) -> u32 {
    fifo.iter()
        .fold(0, |sum, &byte| (sum * 31 + u32::from(byte)) % 65_521)
}

/// One step. Gives what it reads.
fn act(step: &Step, source: &[u8], machine: &Machine) -> Seen {
    let Step {
        code,
        endpoint,
        number,
        from,
    } = *step;
    let place = usize::from(endpoint);
    let low = number as u8;
    let packet = || &source[usize::from(from)..][..usize::from(number)];
    let regs = Chip::regs();
    match code {
        0 => machine.model(afresh),
        // Stores, by document 01's register numbers.
        1 => regs.faddr().write(|w| w.set_func_addr(endpoint)),
        2 => regs.power().write(|w| w.set_suspend_mode(true)),
        3 => regs.index().write(|w| w.set_index(endpoint)),
        4 => regs.csr0l().write_value(Csr0l(low)),
        5 => regs.csr0h().modify(|w| w.set_flush_fifo(true)),
        6 => regs.txcsrl().write_value(Txcsrl(low)),
        7 => regs.rxcsrl().write_value(Rxcsrl(low)),
        8 => regs.txcsrh().write(|w| w.set_iso(true)),
        9 => regs.rxcsrh().write(|w| w.set_iso(true)),
        10 => regs.txmaxp().write(|w| w.set_maxp(number)),
        11 => regs.rxmaxp().write(|w| w.set_maxp(number)),
        12 => regs.intrtxe().write_value(Intrtxe(number)),
        13 => regs.intrrxe().write_value(Intrrxe(number)),
        14 => regs.intrusbe().write(|w| {
            w.set_reset_enable(true);
            w.set_suspend_enable(true);
            w.set_resume_enable(true);
        }),
        15 => machine.model(|m| packet().iter().for_each(|&byte| m.put_byte(m.index.into(), byte))),
        // Each `modify`.
        16 => regs.intrtxe().modify(|w| w.set_ep_txe(place, true)),
        17 => regs.intrrxe().modify(|w| w.set_ep_rxe(place, true)),
        18 => regs.csr0l().modify(|w| w.set_tx_pkt_rdy(true)),
        19 => regs.csr0l().modify(|w| w.set_data_end(true)),
        20 => regs.csr0l().modify(|w| w.set_serviced_rx_pkt_rdy(true)),
        21 => regs.csr0l().modify(|w| w.set_serviced_setup_end(true)),
        22 => regs.csr0l().modify(|w| {
            w.set_serviced_rx_pkt_rdy(true);
            w.set_serviced_setup_end(true);
        }),
        23 => regs.txcsrl().modify(|w| w.set_tx_pkt_rdy(true)),
        24 => regs.txcsrl().modify(|w| w.set_flush_fifo(true)),
        25 => regs.txcsrl().modify(|w| w.set_under_run(false)),
        26 => regs.rxcsrl().modify(|w| w.set_rx_pkt_rdy(false)),
        27 => regs.rxcsrl().modify(|w| w.set_flush_fifo(true)),
        28 => regs.rxcsrl().modify(|w| w.set_over_run(false)),
        // Host events.
        29 => machine.model(|m| m.arrival(place, packet())),
        30 => return Seen::Bytes(first(&machine.model(|m| m.collect(place)), number)),
        31 => return Seen::Bytes(first(&machine.model(|m| waiting(m, place)), number)),
        32 => machine.model(|m| m.bus(BusEvent::Reset)),
        33 => machine.model(|m| m.bus(BusEvent::Suspend)),
        34 => machine.model(|m| m.bus(BusEvent::Resume)),
        35 => machine.model(Model::setup_end),
        36 => machine.model(|m| m.underrun(place)),
        37 => machine.model(|m| m.overrun(place)),
        // No event sets SentStall, so it is put up by hand.
        38 if place == 0 => machine.model(|m| m.control.sent_stall = true),
        38 => machine.model(|m| m.tx[place].sent_stall = true),
        39 => machine.model(|m| m.rx[place].sent_stall = true),
        // The interrupt registers.
        40 => return Seen::Number(regs.intrtx().read().0),
        41 => return Seen::Number(regs.intrrx().read().0),
        42 => return Seen::Number(regs.intrusb().read().0.into()),
        _ => panic!("no step {code}"),
    }
    Seen::Number(0)
}

/// A fresh start. The FIFO's bytes go on, so that what a drop or a shorter packet leaves is seen.
fn afresh(m: &mut Model) {
    let fifo = m.fifo;
    *m = Model::fresh();
    m.fifo = fifo;
}

/// The bytes of the packet that waits at an endpoint.
fn waiting(m: &mut Model, endpoint: usize) -> Vec<u8> {
    (0..m.rx[endpoint].length)
        .map(|_| m.take_byte(endpoint))
        .collect()
}

/// The first bytes of a packet, as many as are asked for, at most eight.
fn first(packet: &[u8], lent: u16) -> [u8; 8] {
    let mut buffer = [255; 8];
    let n = packet.len().min(lent.into()).min(8);
    buffer[..n].copy_from_slice(&packet[..n]);
    buffer
}
