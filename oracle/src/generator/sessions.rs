//! What a host and a device do together, told in the order of a real bus, with the small disorders
//! of one: joined interrupts, polls too many and too few, buffers too short at first.

use super::dice::Dice;
use crate::trace::{put_entry, put_packet};

const IN: u32 = 1;
const OUT: u32 = 0;
const PACKET: u32 = 64;

struct Session<'a> {
    dice: &'a mut Dice,
    trace: Vec<u8>,
    entries: usize,
    /// The data endpoints that were asked for, with their direction and size.
    endpoints: Vec<(u32, u32, u32)>,
}

pub fn session(dice: &mut Dice, count: usize) -> Vec<u8> {
    let mut session = Session {
        dice,
        trace: Vec::new(),
        entries: 0,
        endpoints: Vec::new(),
    };
    session.configure();
    session.attach();
    while session.entries < count {
        session.something();
    }
    session.trace
}

/// Single entries.
impl Session<'_> {
    fn call(&mut self, code: u32, arguments: &[u32]) {
        put_entry(&mut self.trace, code, arguments);
        self.entries += 1;
    }

    fn packet(&mut self, code: u32, endpoint: u32, bytes: &[u8]) {
        put_packet(&mut self.trace, code, endpoint, bytes);
        self.entries += 1;
    }

    fn write(&mut self, endpoint: u32, length: u32) {
        let bytes = self.dice.bytes(length as usize);
        self.packet(5, endpoint, &bytes)
    }

    fn arrival(&mut self, endpoint: u32, length: u32) {
        let bytes = self.dice.bytes(length as usize);
        self.packet(12, endpoint, &bytes)
    }

    /// A packet of this length is read, now and then into too short a buffer first.
    fn read(&mut self, endpoint: u32, length: u32, size: u32) {
        if length > 0 && self.dice.one_in(6) {
            let short = self.dice.under(length);
            let room = self.dice.pick(&[length - 1, short]);
            self.call(6, &[endpoint, room]);
            if self.dice.one_in(3) {
                self.arrival(endpoint, length); // out of turn: the first still waits
            }
            self.serve();
        }
        let room = self.dice.pick(&[size, size, length]);
        self.call(6, &[endpoint, room]);
    }

    /// The interrupt is taken and the driver polled, now and then late or twice.
    fn serve(&mut self) {
        if !self.dice.one_in(12) {
            self.call(10, &[]);
        }
        if !self.dice.one_in(12) {
            self.call(9, &[]);
        }
        if self.dice.one_in(12) {
            self.call(9, &[]);
        }
    }
}

/// Setting up.
impl Session<'_> {
    /// A class asks for its endpoints, by number or not.
    fn configure(&mut self) {
        for direction in [OUT, IN] {
            self.call(1, &[direction, 1, 0, PACKET]);
        }
        for _ in 0..1 + self.dice.below(6) {
            let direction = self.dice.under(2);
            let ep_type = self.dice.pick(&[2, 2, 2, 3, 1]);
            let number = 1 + self.dice.under(5);
            let wanted = if self.dice.one_in(2) { 0 } else { number + 1 };
            let size = match number {
                2 => self.dice.pick(&[64, 128]),
                5 => self.dice.pick(&[64, 512]),
                _ => PACKET,
            };
            self.call(1, &[direction, wanted, ep_type, size]);
            self.endpoints.push((number, direction, size));
        }
    }

    /// The bus comes up and the host enumerates the device.
    fn attach(&mut self) {
        self.call(2, &[]);
        self.call(11, &[]);
        self.bus_reset();
        self.control_in(18, PACKET);
        let address = 1 + self.dice.under(127);
        self.set_address(address);
        let length = 9 + self.dice.under(200);
        self.control_in(length, PACKET);
        self.control_none();
    }
}

/// One thing after the other.
impl Session<'_> {
    fn something(&mut self) {
        match self.dice.below(40) {
            0 => self.bus_reset(),
            1 => self.sleep(),
            2 => self.abandoned(),
            3 => self.refused_request(),
            4 => self.interrupted_by_reset(),
            5 | 6 => self.halt(),
            7 | 8 => self.fault(),
            9..=11 => self.control_none(),
            12..=15 => {
                let asked = 1 + self.dice.under(300);
                let length = if self.dice.one_in(3) {
                    self.dice.under(asked)
                } else {
                    asked
                };
                self.control_in_of(asked, length, PACKET)
            }
            16..=19 => {
                let length = 1 + self.dice.under(200);
                self.control_out(length)
            }
            20 => self.two_drained(),
            21..=29 => self.bulk_out(),
            _ => self.bulk_in(),
        }
    }

    fn bus_reset(&mut self) {
        self.call(14, &[0]);
        self.serve();
        self.call(3, &[]);
    }

    /// The laptop's lid is closed and opened, now and then before the device has looked.
    fn sleep(&mut self) {
        self.call(14, &[1]);
        if !self.dice.one_in(4) {
            self.serve();
        }
        self.call(14, &[2]);
        self.serve();
        self.call(9, &[]);
    }

    fn setup(&mut self, direction: u32, length: u32) {
        let packet = self.dice.setup(direction, length);
        self.packet(12, 0, &packet);
        self.serve();
        self.call(6, &[0, PACKET]);
    }

    fn set_address(&mut self, address: u32) {
        self.setup(OUT, 0);
        self.call(4, &[address]);
        self.write(0, 0);
        self.serve();
    }

    fn control_none(&mut self) {
        let direction = self.dice.under(2);
        self.setup(direction, 0);
        self.write(0, 0);
        self.serve();
    }

    fn control_in(&mut self, length: u32, size: u32) {
        self.control_in_of(length, length, size)
    }

    /// The host asks for `asked` bytes and is given `length`, with an empty packet where the last is full.
    fn control_in_of(&mut self, asked: u32, length: u32, size: u32) {
        self.setup(IN, asked);
        let mut left = length;
        loop {
            let now = left.min(size);
            self.write(0, now);
            self.call(13, &[0]);
            self.serve();
            left -= now;
            if now < size || left == 0 && length == asked {
                break;
            }
        }
        self.call(9, &[]);
    }

    fn control_out(&mut self, length: u32) {
        self.setup(OUT, length);
        let mut left = length;
        loop {
            let now = left.min(PACKET);
            self.arrival(0, now);
            self.serve();
            self.read(0, now, PACKET);
            left -= now;
            if now < PACKET {
                break;
            }
        }
        self.write(0, 0);
        self.serve();
    }

    /// The host begins a new transfer inside another.
    fn abandoned(&mut self) {
        let direction = self.dice.under(2);
        let length = 65 + self.dice.under(200);
        self.setup(direction, length);
        if direction == IN {
            self.write(0, PACKET);
            if self.dice.one_in(2) {
                self.call(13, &[0]);
            }
        }
        // Without the setup end, or with another length than 8, the driver does not take the packet.
        if !self.dice.one_in(4) {
            self.call(15, &[]);
        }
        if self.dice.one_in(4) {
            self.serve();
        }
        let next = match self.dice.below(4) {
            0 => self.dice.bytes(9),
            _ => self.dice.any_setup(),
        };
        self.packet(12, 0, &next);
        self.serve();
        self.call(6, &[0, PACKET]);
        if self.dice.one_in(2) {
            self.call(7, &[0, OUT, 1]);
            self.call(3, &[]);
        }
    }

    /// The device stalls a request that it does not know.
    fn refused_request(&mut self) {
        let packet = self.dice.any_setup();
        self.packet(12, 0, &packet);
        self.serve();
        if self.dice.one_in(2) {
            self.call(6, &[0, PACKET]);
        }
        let direction = self.dice.under(2);
        self.call(7, &[0, direction, 1]);
        self.call(8, &[0, direction]);
        self.serve();
    }

    fn interrupted_by_reset(&mut self) {
        let length = 65 + self.dice.under(200);
        self.setup(IN, length);
        self.write(0, PACKET);
        self.bus_reset();
    }

    fn endpoint(&mut self, direction: u32) -> (u32, u32) {
        let asked: Vec<(u32, u32, u32)> = self
            .endpoints
            .iter()
            .copied()
            .filter(|e| e.1 == direction)
            .collect();
        if asked.is_empty() || self.dice.one_in(4) {
            return (1 + self.dice.under(5), PACKET);
        }
        let (number, _, size) = self.dice.pick(&asked);
        (number, size)
    }

    fn length(&mut self, size: u32) -> u32 {
        match self.dice.below(3) {
            0 => size,
            1 => self.dice.under(size + 1),
            _ => self.dice.under(10),
        }
    }

    fn halt(&mut self) {
        let direction = self.dice.under(2);
        let (number, _) = self.endpoint(direction);
        self.call(7, &[number, direction, 1]);
        self.call(8, &[number, direction]);
        if !self.dice.one_in(3) {
            self.call(7, &[number, direction, 0]);
            self.call(8, &[number, direction]);
        }
    }

    fn fault(&mut self) {
        let direction = self.dice.under(2);
        let (number, size) = self.endpoint(direction);
        if self.dice.one_in(2) {
            let length = self.length(size);
            self.write(number, length);
        }
        let code = 16 + self.dice.under(2);
        self.call(code, &[number]);
        self.serve();
    }

    fn bulk_out(&mut self) {
        let (number, size) = self.endpoint(OUT);
        for _ in 0..1 + self.dice.below(3) {
            let length = self.length(size);
            self.arrival(number, length);
            self.serve();
            self.read(number, length, size);
        }
        self.call(9, &[]);
    }

    fn bulk_in(&mut self) {
        let (number, size) = self.endpoint(IN);
        for _ in 0..1 + self.dice.below(3) {
            let length = self.length(size);
            self.write(number, length);
            self.call(13, &[number]);
            self.serve();
        }
    }

    /// Packets at several endpoints in one interrupt, drained before the next poll.
    fn two_drained(&mut self) {
        let numbers: Vec<u32> = [1, 2, 4, 5]
            .into_iter()
            .filter(|_| !self.dice.one_in(3))
            .collect();
        for &number in &numbers {
            let length = self.dice.under(PACKET);
            self.arrival(number, length);
        }
        self.serve();
        for &number in &numbers {
            if !self.dice.one_in(4) {
                self.call(6, &[number, PACKET]);
            }
        }
        for _ in 0..3 {
            self.call(9, &[]);
        }
    }
}
