//! Entries drawn with a look at where the driver stands: what would move it on is drawn more often.

use super::dice::Dice;
use super::random::Source;
use crate::info::{area_size, COUNT};
use crate::machine::Machine;
use crate::trace::{put_entry, put_packet, Next, Reader};
use crate::window::State;
use embassy_usb_driver::Direction;

pub fn guided(dice: &mut Dice, count: usize) -> Vec<u8> {
    let mut machine = Machine::fresh();
    let mut trace = Vec::new();
    if !dice.one_in(4) {
        put_configuration(dice, &mut trace);
        run(&mut machine, &trace);
    }
    for _ in 0..count {
        let start = trace.len();
        match dice.below(10) {
            0 | 1 => Source::Even.put(dice, &mut trace),
            2 => Source::Limits.put(dice, &mut trace),
            3 | 4 => put_entry(&mut trace, dice.pick(&[9, 9, 10]), &[]),
            5..=7 => control_step(dice, &machine, &mut trace),
            _ => data_step(dice, &machine, &mut trace),
        }
        run(&mut machine, &trace[start..]);
    }
    trace
}

fn run(machine: &mut Machine, entries: &[u8]) {
    let mut reader = Reader::new(entries);
    while let Next::Entry(entry) = reader.next_entry() {
        let _ = entry.act(machine);
    }
}

/// Endpoint 0 with a size that its transfers then end by, and some of the others.
fn put_configuration(dice: &mut Dice, trace: &mut Vec<u8>) {
    for direction in [0, 1] {
        let size = dice.pick(&[64, 64, 64, 8, 0, 65, 65_535]);
        put_entry(trace, 1, &[direction, 1, 0, size]);
    }
    let ep_type = dice.pick(&[1, 2, 3]);
    for wanted in 1..COUNT as u32 {
        for direction in [0, 1] {
            if !dice.one_in(4) {
                put_entry(trace, 1, &[direction, wanted + 1, ep_type, 64]);
            }
        }
    }
}

/// Moves the control transfer on, or upsets it.
fn control_step(dice: &mut Dice, machine: &Machine, trace: &mut Vec<u8>) {
    let (received, sending) = machine.model(|m| (m.rx[0].ready, m.tx[0].ready));
    let (raised, ended) = machine.model(|m| (m.intrtx & 1 != 0, m.control.setup_end));
    let private = machine.private();
    if dice.one_in(15) {
        return put_entry(trace, 15, &[]);
    }
    if dice.one_in(15) {
        return put_entry(trace, 7, &[0, dice.under(2), dice.under(2)]);
    }
    if raised && dice.one_in(2) {
        return put_entry(trace, 10, &[]);
    }
    if private.flags.ep0 && dice.one_in(2) {
        return put_entry(trace, 9, &[]);
    }
    match private.state {
        State::Idle if received && dice.one_in(8) => put_entry(trace, dice.pick(&[3, 9]), &[]),
        State::Idle if received && dice.one_in(4) => put_entry(trace, 7, &[0, 0, 1]),
        State::Idle if !received && dice.one_in(6) => put_packet(trace, 5, 0, &[]),
        State::Idle if !received => put_setup(dice, trace),
        State::Setup => put_entry(trace, 6, &[0, dice.pick(&[8, 64, 64, 512, 7])]),
        State::DataIn if received => put_entry(trace, dice.pick(&[9, 10]), &[]),
        State::DataIn if ended || dice.one_in(10) => put_setup(dice, trace),
        State::DataIn if dice.one_in(8) => put_entry(trace, 15, &[]),
        State::DataIn if sending => put_entry(trace, 13, &[0]),
        State::DataIn => put_data_in(dice, private.tx_len, trace),
        State::DataOut if received => put_read(dice, machine, 0, trace),
        State::DataOut => put_data_out(dice, trace),
        State::Accepted if !received && dice.one_in(3) => put_setup(dice, trace),
        State::NodataPhase if !received && dice.one_in(3) => put_setup(dice, trace),
        State::NodataPhase => put_packet(trace, 5, 0, &[]),
        State::Idle | State::Accepted => put_entry(trace, 9, &[]),
    }
}

fn put_setup(dice: &mut Dice, trace: &mut Vec<u8>) {
    let packet = match dice.below(5) {
        0 => {
            let length = dice.pick(&[0, 7, 9, 64]);
            dice.bytes(length)
        }
        _ => dice.any_setup(),
    };
    put_packet(trace, 12, 0, &packet)
}

fn put_data_in(dice: &mut Dice, remaining: u32, trace: &mut Vec<u8>) {
    let rest = remaining.min(64) as usize;
    let length = match dice.below(8) {
        0 => dice.pick(&[0, 1, 63, 64, 65]),
        1 => dice.below(65) as usize,
        2 => rest.saturating_sub(1),
        3 => (rest + 1).min(64),
        4 | 5 => 64,
        _ => rest,
    };
    put_packet(trace, 5, 0, &dice.bytes(length))
}

fn put_data_out(dice: &mut Dice, trace: &mut Vec<u8>) {
    let length = match dice.below(5) {
        0 => dice.below(65) as usize,
        1 => dice.pick(&[0, 1, 8, 63]),
        _ => 64,
    };
    put_packet(trace, 12, 0, &dice.bytes(length))
}

/// Moves a data endpoint on.
fn data_step(dice: &mut Dice, machine: &Machine, trace: &mut Vec<u8>) {
    let endpoint = 1 + dice.below(COUNT as u64 - 1) as usize;
    let (received, sending) = machine.model(|m| (m.rx[endpoint].ready, m.tx[endpoint].ready));
    let number = endpoint as u32;
    match dice.below(12) {
        0 => put_entry(trace, 16, &[number]),
        1 => put_entry(trace, 17, &[number]),
        2 => put_entry(trace, 7, &[number, dice.under(2), dice.under(2)]),
        3..=7 if received => put_read(dice, machine, endpoint, trace),
        3..=7 => put_full(dice, 12, endpoint, Direction::Out, trace),
        _ if sending => put_entry(trace, 13, &[number]),
        _ => put_full(dice, 5, endpoint, Direction::In, trace),
    }
}

/// A read of the packet that waits, with room for it or without.
fn put_read(dice: &mut Dice, machine: &Machine, endpoint: usize, trace: &mut Vec<u8>) {
    let length = machine.model(|m| m.rx[endpoint].length);
    put_entry(trace, 6, &[endpoint as u32, dice.room(length.into())])
}

/// A packet that fills its area, or a shorter one.
fn put_full(dice: &mut Dice, code: u32, endpoint: usize, direction: Direction, trace: &mut Vec<u8>) {
    let area = area_size(endpoint, direction);
    let length = if dice.one_in(4) {
        area
    } else {
        dice.below(area as u64 + 1).min(20) as usize
    };
    put_packet(trace, code, endpoint as u32, &dice.bytes(length))
}
