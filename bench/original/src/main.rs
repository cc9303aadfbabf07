//! The calls whose instructions bench/ counts, on the original. Standard input has three bytes: the case, a
//! letter as in crates/run_speed/src/main.rt; how often its call is made, the digit 1 or 2; and the endpoint
//! that packets go to, a digit too, so that no compiler knows it beforehand. Everything else is the same in
//! both runs, and one call is what they differ by. What the last call stored is printed.

// The original, byte for byte, inside the crate root that it expects; `oracle/` says whose is what.
#[rustfmt::skip]
#[path = "../../../oracle/original/src/alloc_endpoint.rs"]
pub mod alloc_endpoint;
#[rustfmt::skip]
#[allow(dead_code)]
#[path = "../../../oracle/original/src/common_impl.rs"]
pub mod common_impl;
#[rustfmt::skip]
#[path = "../../../oracle/original/src/usb_device_impl/mod.rs"]
mod usb_device_impl;
pub use usb_device_impl::{on_interrupt, UsbdBus};

#[path = "../../../oracle/src/fmt.rs"]
mod fmt;
#[allow(dead_code)]
#[path = "../../../oracle/src/info.rs"]
pub mod info;
#[allow(dead_code)]
#[path = "../../../oracle/src/regs.rs"]
pub mod regs;
#[allow(dead_code)]
#[path = "../../../oracle/src/window.rs"]
pub mod window;
pub(crate) use fmt::{trace, warn};

pub trait MusbInstance: 'static + Send + Sync {
    fn regs() -> regs::Usb;
}

mod model;

use model::{Chip, Model};
use std::hint::black_box;
use std::io::{Read, Write};
use usb_device::bus::UsbBus;
use usb_device::endpoint::{EndpointAddress, EndpointType};
use usb_device::UsbDirection;
use window::{Private, Window};

type Bus = UsbdBus<Chip>;

fn given(bus: &mut Bus, direction: UsbDirection, number: usize, ep_type: EndpointType, size: u16) {
    let address = EndpointAddress::from_parts(number, direction);
    bus.alloc_ep(direction, Some(address), ep_type, size, 0)
        .expect("the table has it");
}

/// A device with its control endpoint and four more.
fn device() -> Bus {
    let mut bus = Bus::new();
    given(&mut bus, UsbDirection::In, 0, EndpointType::Control, 64);
    given(&mut bus, UsbDirection::Out, 0, EndpointType::Control, 64);
    given(&mut bus, UsbDirection::Out, 1, EndpointType::Bulk, 64);
    given(&mut bus, UsbDirection::In, 2, EndpointType::Interrupt, 64);
    given(&mut bus, UsbDirection::In, 3, EndpointType::Bulk, 64);
    given(&mut bus, UsbDirection::Out, 5, EndpointType::Bulk, 512);
    bus
}

/// A packet at each of 1 to 5: at 3, which has no receive area, an empty one.
fn busy() {
    model::with(|m| {
        for (endpoint, length) in [(1, 8), (2, 8), (3, 0), (4, 8), (5, 8)] {
            m.arrival(endpoint, &[7; 512][..length]);
        }
    });
}

// Each call out of line, as a library's calls are.

#[inline(never)]
fn poll(bus: &mut Bus) {
    black_box(bus.poll());
}

#[inline(never)]
fn interrupt(_: &mut Bus) {
    // SAFETY: nothing else runs.
    unsafe { on_interrupt::<Chip>() };
}

#[inline(never)]
fn reset(bus: &mut Bus) {
    bus.reset();
}

#[inline(never)]
fn allocate(
    bus: &mut Bus,
    direction: UsbDirection,
    number: Option<EndpointAddress>,
    ep_type: EndpointType,
    size: u16,
) {
    let given = bus.alloc_ep(direction, number, ep_type, size, 0);
    black_box(given.is_ok());
}

#[inline(never)]
fn write(bus: &mut Bus, endpoint: usize, packet: &[u8]) {
    let sent = bus.write(EndpointAddress::from_parts(endpoint, UsbDirection::In), packet);
    black_box(sent.is_ok());
}

#[inline(never)]
fn read(bus: &mut Bus, endpoint: usize, packet: &mut [u8]) {
    let got = bus.read(EndpointAddress::from_parts(endpoint, UsbDirection::Out), packet);
    black_box(got.is_ok());
}

/// Where a call begins: the driver's private part and the chip.
struct Place {
    private: Private,
    model: Model,
}

#[inline(never)]
fn put_back(bus: &mut Bus, place: &Place) {
    bus.set_private(&place.private);
    model::with(|m| {
        *m = place.model;
        m.begin();
    });
}

/// The call once or twice from one place. Both runs go back to it twice.
fn run(mut bus: Bus, twice: bool, mut call: impl FnMut(&mut Bus)) {
    let place = Place {
        private: bus.private(),
        model: model::with(|m| *m),
    };
    put_back(&mut bus, &place);
    if twice {
        call(&mut bus);
    }
    put_back(&mut bus, &place);
    call(&mut bus);
    print();
}

fn print() {
    let mut line = String::from("  stores");
    model::with(|m| {
        for [register, endpoint, value] in m.stores() {
            line += &format!(" {register},{endpoint},{value}");
        }
    });
    line += "\n";
    std::io::stdout()
        .write_all(line.as_bytes())
        .expect("standard output takes it");
}

fn main() {
    let mut words = [0u8; 3];
    std::io::stdin()
        .read_exact(&mut words)
        .expect("a case and two digits");
    let twice = words[1] == b'2';
    let endpoint = usize::from(words[2] % 16);
    let mut packet = [7u8; 512];
    let length = match words[0] {
        b'f' | b'i' => 8,
        b'g' | b'j' => 64,
        _ => 512,
    };
    match words[0] {
        b'a' => run(device(), twice, poll),
        b'b' => {
            let mut bus = device();
            busy();
            interrupt(&mut bus);
            run(bus, twice, poll);
        }
        b'c' => {
            let bus = device();
            busy();
            run(bus, twice, interrupt);
        }
        b'd' => run(device(), twice, reset),
        b'e' => run(Bus::new(), twice, |bus| {
            allocate(
                bus,
                black_box(UsbDirection::Out),
                black_box(None),
                black_box(EndpointType::Bulk),
                black_box(64),
            )
        }),
        b'f' | b'g' | b'h' => run(device(), twice, |bus| write(bus, endpoint, &packet[..length])),
        _ => {
            let bus = device();
            model::with(|m| m.arrival(endpoint, &[7; 512][..length]));
            run(bus, twice, |bus| read(bus, endpoint, &mut packet));
        }
    }
}
