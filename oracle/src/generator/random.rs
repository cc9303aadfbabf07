//! Entries drawn one by one, without a look at the driver: evenly, or at document 01's limits.

use super::dice::Dice;
use crate::info::{area_size, COUNT};
use crate::trace::{put_entry, put_packet};
use embassy_usb_driver::Direction;

/// Where the arguments of an entry come from.
#[derive(Clone, Copy, PartialEq, Eq)]
pub enum Source {
    Even,
    Limits,
}

pub fn uniform(dice: &mut Dice, count: usize) -> Vec<u8> {
    trace_of(dice, Source::Even, count)
}

pub fn boundary(dice: &mut Dice, count: usize) -> Vec<u8> {
    trace_of(dice, Source::Limits, count)
}

fn trace_of(dice: &mut Dice, source: Source, count: usize) -> Vec<u8> {
    let mut trace = Vec::new();
    for _ in 0..count {
        source.put(dice, &mut trace);
    }
    trace
}

impl Source {
    /// Appends an entry of any code.
    pub fn put(&self, dice: &mut Dice, trace: &mut Vec<u8>) {
        let code = 1 + dice.under(17);
        self.put_code(code, dice, trace)
    }

    pub fn put_code(&self, code: u32, dice: &mut Dice, trace: &mut Vec<u8>) {
        match code {
            1 => {
                let arguments = [dice.under(2), self.wanted(dice), dice.under(4), self.size(dice)];
                put_entry(trace, code, &arguments)
            }
            4 => put_entry(trace, code, &[self.address(dice)]),
            5 => self.put_packet(code, Direction::In, dice, trace),
            12 => self.put_packet(code, Direction::Out, dice, trace),
            6 => put_entry(trace, code, &[self.endpoint(dice), self.buffer(dice)]),
            7 => put_entry(trace, code, &[self.endpoint(dice), dice.under(2), dice.under(2)]),
            8 => put_entry(trace, code, &[self.endpoint(dice), dice.under(2)]),
            13 | 16 | 17 => put_entry(trace, code, &[self.endpoint(dice)]),
            14 => put_entry(trace, code, &[dice.under(3)]),
            _ => put_entry(trace, code, &[]),
        }
    }

    fn put_packet(&self, code: u32, direction: Direction, dice: &mut Dice, trace: &mut Vec<u8>) {
        let endpoint = self.endpoint(dice);
        let area = area_size(endpoint as usize % COUNT, direction) as u64;
        let length = match self {
            Source::Even if dice.one_in(3) => dice.below(10),
            Source::Even if dice.one_in(20) => dice.below(600),
            Source::Even => dice.below(area + 2),
            Source::Limits if dice.one_in(3) => dice.pick(&[area.saturating_sub(1), area, area + 1]),
            Source::Limits => dice.pick(&[0, 1, 7, 8, 9, 63, 64, 65, 127, 128, 129, 511, 512, 513]),
        } as usize;
        let bytes = match length {
            8 => dice.any_setup(),
            _ => dice.bytes(length),
        };
        put_packet(trace, code, endpoint, &bytes)
    }

    fn endpoint(&self, dice: &mut Dice) -> u32 {
        match self {
            Source::Even if dice.one_in(20) => dice.under(256),
            Source::Even => dice.under(COUNT as u32),
            Source::Limits if dice.one_in(6) => dice.pick(&[6, 7, 15, 16, 127, 128, 129, 133, 254, 255]),
            Source::Limits => dice.under(COUNT as u32),
        }
    }

    fn wanted(&self, dice: &mut Dice) -> u32 {
        match self {
            Source::Even if dice.one_in(20) => dice.under(257),
            Source::Even => dice.under(COUNT as u32 + 1),
            Source::Limits => dice.pick(&[0, 0, 0, 0, 1, 2, 3, 4, 5, 6, 7, 8, 128, 129, 130, 255, 256]),
        }
    }

    fn size(&self, dice: &mut Dice) -> u32 {
        match self {
            Source::Even if dice.one_in(4) => dice.under(600),
            Source::Even if dice.one_in(20) => dice.under(65_536),
            Source::Even => dice.under(66),
            Source::Limits => dice.pick(&[0, 1, 8, 63, 64, 64, 65, 127, 128, 129, 511, 512, 513, 65_535]),
        }
    }

    fn address(&self, dice: &mut Dice) -> u32 {
        match self {
            Source::Even => dice.under(256),
            Source::Limits => dice.pick(&[0, 1, 126, 127, 128, 129, 254, 255]),
        }
    }

    fn buffer(&self, dice: &mut Dice) -> u32 {
        match self {
            Source::Even if dice.one_in(2) => 64,
            Source::Even => dice.under(513),
            Source::Limits => dice.pick(&[0, 1, 7, 8, 9, 63, 64, 65, 127, 128, 129, 511, 512]),
        }
    }
}
