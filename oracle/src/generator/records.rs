//! A few calls behind an arbitrary record. Most records pass reply 16; the others break one part of
//! its row.

use super::dice::Dice;
use super::random::Source;
use crate::info::{area_size, COUNT, FIFO_BYTES};
use crate::record::{head_of, Record, NUMBERS};
use embassy_usb_driver::Direction;

const INDEX: usize = 2;
const CSR0L: usize = 9;
const ENDPOINTS: usize = 10;
const EACH: usize = 13;
const TX_LENGTH: usize = 6;
const RX_LENGTH: usize = 7;
const STATE: usize = ENDPOINTS + EACH * COUNT;
const EP_TX: usize = NUMBERS - 2;
const EP_RX: usize = NUMBERS - 1;

pub fn behind_record(dice: &mut Dice) -> Vec<u8> {
    let mut record = sound(dice);
    if dice.one_in(8) {
        spoil(dice, &mut record);
    }
    let fifo: [u8; FIFO_BYTES] = std::array::from_fn(|_| dice.next() as u8);
    let mut input = head_of(&record, &fifo);
    let source = dice.pick(&[Source::Even, Source::Limits]);
    for _ in 0..1 + dice.below(4) {
        // The calls with the most to decide are drawn more often.
        match dice.below(3) {
            0 => source.put(dice, &mut input),
            _ => {
                let code = dice.pick(&[1, 3, 5, 6, 9, 9]);
                source.put_code(code, dice, &mut input)
            }
        }
    }
    input
}

fn word(dice: &mut Dice) -> u32 {
    match dice.below(3) {
        0 => 0,
        1 => dice.under(64),
        _ => dice.under(65_536),
    }
}

fn size(dice: &mut Dice) -> u32 {
    match dice.below(3) {
        0 => dice.pick(&[0, 1, 8, 63, 64, 65, 128, 512]),
        1 => dice.under(66),
        _ => dice.under(65_536),
    }
}

/// A record that passes reply 16.
fn sound(dice: &mut Dice) -> Record {
    let mut r = [0; NUMBERS];
    r[0] = dice.under(128);
    r[1] = dice.under(256);
    r[INDEX] = dice.under(COUNT as u32);
    r[3] = word(dice);
    r[4] = word(dice);
    r[5] = dice.under(256);
    r[6] = dice.under(8);
    r[7] = word(dice);
    r[8] = word(dice);
    r[CSR0L] = dice.under(256) & 0b0011_0111;
    for n in 0..COUNT {
        let e = &mut r[ENDPOINTS + EACH * n..][..EACH];
        if n > 0 {
            let tx = dice.under(256) & 0b0011_0101;
            e[0] = tx | (tx & 1) << 1; // FIFONotEmpty reads as TxPktRdy
            e[1] = dice.under(256) & 0b0110_0101;
            e[2] = dice.pick(&[0, 64]);
            e[3] = dice.pick(&[0, 64]);
            e[4] = size(dice);
            e[5] = size(dice);
        }
        e[8] = dice.under(4);
        e[9] = size(dice);
        e[10] = size(dice);
        e[11] = dice.under(2);
        e[12] = dice.under(2);
        let (tx_ready, rx_ready) = ready(&r, n);
        let e = &mut r[ENDPOINTS + EACH * n..][..EACH];
        e[TX_LENGTH] = waiting(dice, tx_ready, area_size(n, Direction::In));
        e[RX_LENGTH] = waiting(dice, rx_ready, area_size(n, Direction::Out));
    }
    r[STATE] = dice.under(6);
    r[STATE + 1] = match dice.below(3) {
        0 => dice.pick(&[0, 1, 63, 64, 65, 128]),
        1 => dice.under(200),
        _ => dice.next() as u32,
    };
    for flag in &mut r[STATE + 2..STATE + 6] {
        *flag = u32::from(dice.one_in(3));
    }
    if !dice.one_in(4) {
        r[STATE + 2..STATE + 5].fill(0); // no Reset, Suspend or Resume: poll goes on
    }
    r[EP_TX] = dice.under(64);
    r[EP_RX] = dice.under(64);
    r
}

/// TxPktRdy and RxPktRdy of an endpoint.
fn ready(r: &Record, n: usize) -> (bool, bool) {
    let e = &r[ENDPOINTS + EACH * n..][..EACH];
    match n {
        0 => (r[CSR0L] & 2 != 0, r[CSR0L] & 1 != 0),
        _ => (e[0] & 1 != 0, e[1] & 1 != 0),
    }
}

fn waiting(dice: &mut Dice, ready: bool, area: usize) -> u32 {
    if !ready {
        return 0;
    }
    match dice.below(3) {
        0 => area as u32,
        1 => 8.min(area as u32),
        _ => dice.under(area as u32 + 1),
    }
}

/// Breaks one part of reply 16's row.
fn spoil(dice: &mut Dice, r: &mut Record) {
    let n = dice.below(COUNT as u64) as usize;
    let tx_length = ENDPOINTS + EACH * n + TX_LENGTH;
    let (tx_ready, rx_ready) = ready(r, n);
    match dice.below(6) {
        0 => r[0] = 128 + dice.under(128),
        1 => r[INDEX] = COUNT as u32 + dice.under(256 - COUNT as u32),
        2 => r[EP_TX] |= 64 << dice.below(10),
        3 => r[EP_RX] |= 64 << dice.below(10),
        4 => r[tx_length] = past(dice, tx_ready, area_size(n, Direction::In)),
        _ => r[tx_length + 1] = past(dice, rx_ready, area_size(n, Direction::Out)),
    }
}

/// A length over its area, or one that is not 0 beside a ready bit that is clear.
fn past(dice: &mut Dice, ready: bool, area: usize) -> u32 {
    match ready {
        true => area as u32 + dice.pick(&[1, 1, 2, 1_000]),
        false => 1 + dice.under(area as u32 + 1),
    }
}
