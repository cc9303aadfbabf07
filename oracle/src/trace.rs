//! Document 01's event trace: its numbers, its entries, and a writer for the generator and the tests.

use crate::machine::{Machine, Outcome};
use crate::model::BusEvent;
use embassy_usb_driver::EndpointType;
use usb_device::UsbDirection;

/// The longest input that is run.
pub const LONGEST: usize = 65_536;

/// The longest buffer that a read entry may ask for.
pub const LONGEST_BUFFER: u16 = 512;

#[derive(Debug, Clone, Copy, PartialEq, Eq)]
pub enum Entry<'a> {
    Allocate {
        direction: UsbDirection,
        wanted: Option<u8>,
        ep_type: EndpointType,
        size: u16,
    },
    Init,
    Reset,
    Address(u8),
    Write(u8, &'a [u8]),
    Read(u8, u16),
    Stall(u8, UsbDirection, bool),
    IsStalled(u8, UsbDirection),
    Poll,
    Interrupt,
    Enable,
    Arrival(u8, &'a [u8]),
    Collect(u8),
    Bus(BusEvent),
    SetupEnd,
    Underrun(u8),
    Overrun(u8),
}

impl Entry<'_> {
    pub fn code(&self) -> u8 {
        match self {
            Entry::Allocate { .. } => 1,
            Entry::Init => 2,
            Entry::Reset => 3,
            Entry::Address(_) => 4,
            Entry::Write(..) => 5,
            Entry::Read(..) => 6,
            Entry::Stall(..) => 7,
            Entry::IsStalled(..) => 8,
            Entry::Poll => 9,
            Entry::Interrupt => 10,
            Entry::Enable => 11,
            Entry::Arrival(..) => 12,
            Entry::Collect(_) => 13,
            Entry::Bus(_) => 14,
            Entry::SetupEnd => 15,
            Entry::Underrun(_) => 16,
            Entry::Overrun(_) => 17,
        }
    }

    pub fn act(&self, on: &mut Machine) -> Outcome {
        match *self {
            Entry::Allocate {
                direction,
                wanted,
                ep_type,
                size,
            } => on.allocate(direction, wanted, ep_type, size),
            Entry::Init => on.init(),
            Entry::Reset => on.reset(),
            Entry::Address(address) => on.address(address),
            Entry::Write(endpoint, bytes) => on.write(endpoint, bytes),
            Entry::Read(endpoint, buffer) => {
                let mut room = [0; LONGEST_BUFFER as usize];
                on.read(endpoint, &mut room[..buffer.into()])
            }
            Entry::Stall(endpoint, direction, stalled) => on.stall(endpoint, direction, stalled),
            Entry::IsStalled(endpoint, direction) => on.is_stalled(endpoint, direction),
            Entry::Poll => on.poll(),
            Entry::Interrupt => on.interrupt(),
            Entry::Enable => on.enable(),
            Entry::Arrival(endpoint, bytes) => on.arrival(endpoint, bytes),
            Entry::Collect(endpoint) => on.collect(endpoint),
            Entry::Bus(event) => on.bus(event),
            Entry::SetupEnd => on.setup_end(),
            Entry::Underrun(endpoint) => on.underrun(endpoint),
            Entry::Overrun(endpoint) => on.overrun(endpoint),
        }
    }
}

/// What stands at the reader's place.
#[derive(Debug, Clone, Copy, PartialEq, Eq)]
pub enum Next<'a> {
    Entry(Entry<'a>),
    End,
    /// Not an entry: the offset of its first byte.
    Bad(usize),
}

/// A reader over a trace.
#[derive(Debug, Clone)]
pub struct Reader<'a> {
    trace: &'a [u8],
    place: usize,
}

impl<'a> Reader<'a> {
    pub fn new(trace: &'a [u8]) -> Reader<'a> {
        Reader { trace, place: 0 }
    }

    /// The offset of the next byte.
    pub fn place(&self) -> usize {
        self.place
    }

    pub fn next_entry(&mut self) -> Next<'a> {
        let start = self.place;
        if start == self.trace.len() {
            return Next::End;
        }
        match self.entry() {
            Some(entry) => Next::Entry(entry),
            None => Next::Bad(start),
        }
    }

    /// An entry, or None where it is cut short, has an unknown code, an argument out of range or a
    /// number in another form.
    fn entry(&mut self) -> Option<Entry<'a>> {
        Some(match self.number()? {
            1 => Entry::Allocate {
                direction: self.direction()?,
                wanted: self.wanted()?,
                ep_type: self.ep_type()?,
                size: self.number()?,
            },
            2 => Entry::Init,
            3 => Entry::Reset,
            4 => Entry::Address(self.byte_sized()?),
            5 => Entry::Write(self.byte_sized()?, self.packet()?),
            6 => Entry::Read(self.byte_sized()?, self.number_to(LONGEST_BUFFER)?),
            7 => Entry::Stall(self.byte_sized()?, self.direction()?, self.number_to(1)? == 1),
            8 => Entry::IsStalled(self.byte_sized()?, self.direction()?),
            9 => Entry::Poll,
            10 => Entry::Interrupt,
            11 => Entry::Enable,
            12 => Entry::Arrival(self.byte_sized()?, self.packet()?),
            13 => Entry::Collect(self.byte_sized()?),
            14 => Entry::Bus(self.bus_event()?),
            15 => Entry::SetupEnd,
            16 => Entry::Underrun(self.byte_sized()?),
            17 => Entry::Overrun(self.byte_sized()?),
            _ => return None,
        })
    }

    /// A number: groups of seven bits, low group first, high bit set on all but the last, shortest form
    /// only, at most 65,535. That takes at most three bytes.
    fn number(&mut self) -> Option<u16> {
        let mut value = 0u32;
        for group in 0..3 {
            let byte = self.byte()?;
            value |= u32::from(byte & 0x7f) << (7 * group);
            if byte < 0x80 {
                let shortest = byte != 0 || group == 0;
                return u16::try_from(value).ok().filter(|_| shortest);
            }
        }
        None
    }

    fn number_to(&mut self, most: u16) -> Option<u16> {
        self.number().filter(|&number| number <= most)
    }

    /// An endpoint or an address: "to 255".
    fn byte_sized(&mut self) -> Option<u8> {
        u8::try_from(self.number()?).ok()
    }

    fn direction(&mut self) -> Option<UsbDirection> {
        match self.number()? {
            0 => Some(UsbDirection::Out),
            1 => Some(UsbDirection::In),
            _ => None,
        }
    }

    /// "0 or wanted+1", to 256: outside, None is no number of this kind; inside, None is no number wanted.
    fn wanted(&mut self) -> Option<Option<u8>> {
        let plus_one = self.number_to(256)?;
        Some(plus_one.checked_sub(1).map(|wanted| wanted as u8))
    }

    fn ep_type(&mut self) -> Option<EndpointType> {
        match self.number()? {
            0 => Some(EndpointType::Control),
            1 => Some(EndpointType::Isochronous),
            2 => Some(EndpointType::Bulk),
            3 => Some(EndpointType::Interrupt),
            _ => None,
        }
    }

    fn bus_event(&mut self) -> Option<BusEvent> {
        match self.number()? {
            0 => Some(BusEvent::Reset),
            1 => Some(BusEvent::Suspend),
            2 => Some(BusEvent::Resume),
            _ => None,
        }
    }

    /// A length and as many raw bytes.
    fn packet(&mut self) -> Option<&'a [u8]> {
        let length = usize::from(self.number()?);
        let packet = self.trace.get(self.place..self.place + length)?;
        self.place += length;
        Some(packet)
    }

    fn byte(&mut self) -> Option<u8> {
        let byte = *self.trace.get(self.place)?;
        self.place += 1;
        Some(byte)
    }
}

/// The bytes of a number. Numbers past 65,535 are written in the same way, for damaged traces.
pub fn put_number(trace: &mut Vec<u8>, mut number: u32) {
    while number >= 0x80 {
        trace.push(number as u8 | 0x80);
        number >>= 7;
    }
    trace.push(number as u8);
}

/// Appends an entry: its code and its arguments, whatever they are.
pub fn put_entry(trace: &mut Vec<u8>, code: u32, arguments: &[u32]) {
    put_number(trace, code);
    for &argument in arguments {
        put_number(trace, argument);
    }
}

/// Appends an entry that carries a packet: 5 write or 12 arrival.
pub fn put_packet(trace: &mut Vec<u8>, code: u32, endpoint: u32, bytes: &[u8]) {
    put_entry(trace, code, &[endpoint, bytes.len() as u32]);
    trace.extend_from_slice(bytes);
}
