//! Document 01's endpoint table, under the names that the original expects of its generated table,
//! and the areas of FIFO memory that follow from it.

use embassy_usb_driver::Direction;

#[derive(Debug, Clone, Copy, PartialEq)]
pub enum EpDirection {
    TX,
    RX,
    RXTX,
}

pub struct EpInfo {
    pub ep_direction: EpDirection,
    pub max_packet_size: u16,
}

const fn row(ep_direction: EpDirection, max_packet_size: u16) -> EpInfo {
    EpInfo {
        ep_direction,
        max_packet_size,
    }
}

pub const ENDPOINTS: [EpInfo; 6] = [
    row(EpDirection::RXTX, 64),
    row(EpDirection::RXTX, 64),
    row(EpDirection::RXTX, 128),
    row(EpDirection::TX, 64),
    row(EpDirection::RX, 64),
    row(EpDirection::RXTX, 512),
];

/// How many endpoints the table has: 0 to 5.
pub const COUNT: usize = ENDPOINTS.len();

/// FIFO memory in bytes: document 01's number, which a test compares with the table.
pub const FIFO_BYTES: usize = 1_664;

/// The size of an endpoint's area. A missing direction has size 0.
pub const fn area_size(endpoint: usize, direction: Direction) -> usize {
    let row = &ENDPOINTS[endpoint];
    match (row.ep_direction, direction) {
        (EpDirection::RX, Direction::In) | (EpDirection::TX, Direction::Out) => 0,
        _ => row.max_packet_size as usize,
    }
}

/// Where an endpoint's area begins: each endpoint's transmit area, then its receive area, in number
/// order.
pub const fn area_start(endpoint: usize, direction: Direction) -> usize {
    let mut start = 0;
    let mut before = 0;
    while before < endpoint {
        start += area_size(before, Direction::In) + area_size(before, Direction::Out);
        before += 1;
    }
    match direction {
        Direction::In => start,
        Direction::Out => start + area_size(endpoint, Direction::In),
    }
}
