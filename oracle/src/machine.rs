//! The original driver and the chip together, with document 01's refusals decided in front.
//!
//! Every driver call goes to the original. Replies 1 to 5 are its own `EndpointAllocError`, 6 its own
//! WouldBlock, 7 its own answer to `force_reset`. Replies 8 to 17 stand where the original would panic
//! or document 01 adds a refusal: they are given before the original is called. Reply 15 can't be
//! given here, since nothing is lent to these calls.
//!
//! What document 02 changes of the original is made here too, beside the call that it changes, and
//! docs/DIFFERENCES.md lists it: reply 18 in front of a read (T-02), the Suspend step behind a poll
//! (T-06). A machine that runs as published leaves it out.

use crate::alloc_endpoint::{alloc_endpoint, EndpointAllocError};
use crate::common_impl;
use crate::info::{area_size, COUNT};
use crate::model::{self, BusEvent, Chip, Model};
use crate::window::{Flags, Private, State, Window};
use crate::{on_interrupt, UsbdBus};
use embassy_usb_driver::{Direction, EndpointType};
use std::sync::{Mutex, MutexGuard, PoisonError};
use usb_device::bus::{PollResult, UsbBus};
use usb_device::endpoint::{
    self as usb, EndpointAddress, IsochronousSynchronizationType, IsochronousUsageType,
};
use usb_device::{UsbDirection, UsbError};

/// Document 01's replies other than 0, and from 18 on document 02's. There is no 10.
#[derive(Debug, Clone, Copy, PartialEq, Eq)]
pub enum Refusal {
    EndpointOverflow = 1,
    InvalidEndpoint = 2,
    EpDirNotSupported = 3,
    EpUsed = 4,
    MaxPacketSizeBiggerThanEpFifoSize = 5,
    WouldBlock = 6,
    Unsupported = 7,
    NoSuchEndpoint = 8,
    LongerThanArea = 9,
    WriteOutOfState = 11,
    ReadOutOfState = 12,
    SetupNotEight = 13,
    AddressOver127 = 14,
    RecordUnsound = 16,
    OutOfTurn = 17,
    BufferOverflow = 18,
}

/// The values of a reply 0.
#[derive(Debug, Clone, PartialEq, Eq)]
pub enum Answer {
    Nothing,
    Endpoint(u8),
    Written(usize),
    Stalled(bool),
    /// The packet's length, and what was stored of it in the caller's buffer: all of it, unless the
    /// machine runs as published.
    Read(usize, Vec<u8>),
    Collected(Vec<u8>),
    Polled(PollResult),
}

pub type Outcome = Result<Answer, Refusal>;

// The original keeps its interrupt flags in statics, so one machine runs at a time. It holds whether
// one has run before.
static ALONE: Mutex<bool> = Mutex::new(false);

pub struct Machine {
    driver: UsbdBus<Chip>,
    /// Nothing of document 02.
    pub published: bool,
    _alone: MutexGuard<'static, bool>,
}

/// The state of a machine: the driver's private part and the chip.
impl Machine {
    /// A fresh record, as the original makes it. Only the flags of a run before are put down by us.
    pub fn fresh() -> Machine {
        let mut alone = ALONE.lock().unwrap_or_else(PoisonError::into_inner);
        let mut driver = UsbdBus::new();
        if *alone {
            let mut private = driver.private();
            private.flags = Flags::default();
            driver.set_private(&private);
        }
        *alone = true;
        model::with(|m| *m = Model::fresh());
        Machine {
            driver,
            published: false,
            _alone: alone,
        }
    }

    pub fn private(&self) -> Private {
        self.driver.private()
    }

    pub fn set_private(&mut self, to: &Private) {
        self.driver.set_private(to)
    }

    pub fn model<R>(&self, look: impl FnOnce(&mut Model) -> R) -> R {
        model::with(look)
    }

    /// What every call and event begins with: an empty list, and reply 16.
    fn begin(&self) -> Result<(), Refusal> {
        model::with(Model::begin);
        let flags = self.private().flags;
        let flags_sound = flags.ep_tx < 1 << COUNT && flags.ep_rx < 1 << COUNT;
        if flags_sound && model::with(|m| registers_sound(m)) {
            Ok(())
        } else {
            Err(Refusal::RecordUnsound)
        }
    }
}

/// Reply 16, the registers' part: waiting lengths, selection, address.
fn registers_sound(m: &Model) -> bool {
    let packet_sound = |endpoint: usize| {
        let (tx, rx) = (&m.tx[endpoint], &m.rx[endpoint]);
        usize::from(tx.length) <= area_size(endpoint, Direction::In)
            && usize::from(rx.length) <= area_size(endpoint, Direction::Out)
            && (tx.ready || tx.length == 0)
            && (rx.ready || rx.length == 0)
    };
    (0..COUNT).all(packet_sound) && usize::from(m.index) < COUNT && m.faddr <= 127
}

fn refuse_if(test: bool, refusal: Refusal) -> Result<(), Refusal> {
    if test {
        Err(refusal)
    } else {
        Ok(())
    }
}

/// Reply 8.
fn known(endpoint: u8) -> Result<usize, Refusal> {
    refuse_if(usize::from(endpoint) >= COUNT, Refusal::NoSuchEndpoint)?;
    Ok(endpoint.into())
}

/// Reply 8 of underrun and overrun, which endpoint 0 has not.
fn numbered(endpoint: u8) -> Result<usize, Refusal> {
    refuse_if(endpoint == 0, Refusal::NoSuchEndpoint)?;
    known(endpoint)
}

/// Reply 9.
fn fits(length: usize, endpoint: usize, direction: Direction) -> Result<(), Refusal> {
    refuse_if(length > area_size(endpoint, direction), Refusal::LongerThanArea)
}

fn would_block(error: UsbError) -> Refusal {
    match error {
        UsbError::WouldBlock => Refusal::WouldBlock,
        other => unreachable!("the original answers {other:?}"),
    }
}

/// The driver's calls.
impl Machine {
    pub fn allocate(
        &mut self,
        direction: UsbDirection,
        wanted: Option<u8>,
        ep_type: EndpointType,
        size: u16,
    ) -> Outcome {
        self.begin()?;
        // `alloc_ep` folds the error. So the original's inner function answers, on a copy, and the
        // original's public call then makes the change.
        let mut endpoints = self.private().endpoints;
        let answer = alloc_endpoint(&mut endpoints, ep_type, wanted, side(direction), size);
        // An address has seven bits for the number: 128 would become 0. Those are refused above.
        if wanted.is_none_or(|number| number < 128) {
            let folded = self.driver.alloc_ep(
                direction,
                wanted.map(|number| EndpointAddress::from_parts(number.into(), direction)),
                public_type(ep_type),
                size,
                0,
            );
            assert_eq!(
                folded.map(|a| a.index() as u8),
                fold(&answer),
                "alloc_ep folds otherwise"
            );
        }
        match answer {
            Ok(endpoint) => Ok(Answer::Endpoint(endpoint)),
            Err(error) => Err(alloc_refusal(error)),
        }
    }

    pub fn init(&mut self) -> Outcome {
        self.begin()?;
        common_impl::bus_init::<Chip>();
        Ok(Answer::Nothing)
    }

    pub fn reset(&mut self) -> Outcome {
        self.begin()?;
        self.driver.reset();
        Ok(Answer::Nothing)
    }

    pub fn enable(&mut self) -> Outcome {
        self.begin()?;
        self.driver.enable();
        Ok(Answer::Nothing)
    }

    pub fn address(&mut self, address: u8) -> Outcome {
        self.begin()?;
        refuse_if(address > 127, Refusal::AddressOver127)?;
        self.driver.set_device_address(address);
        Ok(Answer::Nothing)
    }

    pub fn write(&mut self, endpoint: u8, bytes: &[u8]) -> Outcome {
        self.begin()?;
        let number = known(endpoint)?;
        // Reply 6 comes before 9 and 11 and is the original's own.
        if !model::with(|m| m.tx[number].ready) {
            fits(bytes.len(), number, Direction::In)?;
            refuse_if(number == 0 && self.write_panics(bytes), Refusal::WriteOutOfState)?;
        }
        self.driver
            .write(address_of(endpoint, UsbDirection::In), bytes)
            .map(Answer::Written)
            .map_err(would_block)
    }

    /// Reply 11.
    fn write_panics(&self, bytes: &[u8]) -> bool {
        match self.private().state {
            State::NodataPhase | State::Idle => !bytes.is_empty(),
            State::Setup | State::DataOut | State::Accepted => true,
            State::DataIn => false,
        }
    }

    pub fn read(&mut self, endpoint: u8, buffer: &mut [u8]) -> Outcome {
        self.begin()?;
        let number = known(endpoint)?;
        // Reply 6 comes before 12, 13 and 18 and is the original's own.
        if model::with(|m| m.rx[number].ready) {
            if number == 0 {
                self.control_read(buffer.len())?;
            }
            refuse_if(self.overflows(number, buffer.len()), Refusal::BufferOverflow)?;
        }
        let count = self
            .driver
            .read(address_of(endpoint, UsbDirection::Out), buffer)
            .map_err(would_block)?;
        let stored = count.min(buffer.len());
        Ok(Answer::Read(count, buffer[..stored].to_vec()))
    }

    /// Replies 12 and 13.
    fn control_read(&self, room: usize) -> Result<(), Refusal> {
        let state = self.private().state;
        let taken = matches!(state, State::Setup | State::DataOut);
        refuse_if(!taken, Refusal::ReadOutOfState)?;
        let eight = model::with(|m| m.rx[0].length == 8) && room >= 8;
        refuse_if(state == State::Setup && !eight, Refusal::SetupNotEight)
    }

    /// T-02: "refuse, keep the packet waiting, touch nothing". The original fills the buffer that is too
    /// short, says the whole packet's length and drops the packet.
    fn overflows(&self, number: usize, room: usize) -> bool {
        !self.published && room < usize::from(model::with(|m| m.rx[number].length))
    }

    pub fn stall(&mut self, endpoint: u8, direction: UsbDirection, stalled: bool) -> Outcome {
        self.begin()?;
        known(endpoint)?;
        self.driver.set_stalled(address_of(endpoint, direction), stalled);
        Ok(Answer::Nothing)
    }

    pub fn is_stalled(&mut self, endpoint: u8, direction: UsbDirection) -> Outcome {
        self.begin()?;
        known(endpoint)?;
        let stalled = self.driver.is_stalled(address_of(endpoint, direction));
        Ok(Answer::Stalled(stalled))
    }

    pub fn poll(&mut self) -> Outcome {
        self.begin()?;
        let before = self.private().flags;
        let result = self.driver.poll();
        if result == PollResult::Suspend && !self.published {
            self.suspend_reported(before);
        }
        Ok(Answer::Polled(result))
    }

    /// T-06: "reporting Suspend puts down the suspend flag and leaves the reset flag". The original puts
    /// down the reset flag and never its own.
    fn suspend_reported(&mut self, before: Flags) {
        let mut private = self.private();
        private.flags.suspend = false;
        private.flags.reset = before.reset;
        self.set_private(&private);
    }

    pub fn interrupt(&mut self) -> Outcome {
        self.begin()?;
        // SAFETY: marked unsafe because a chip's interrupt handler is its place; here it touches only
        // the model and the driver's atomics.
        unsafe { on_interrupt::<Chip>() };
        Ok(Answer::Nothing)
    }

    /// "Takes no record and only gives 7." No trace code asks for it.
    pub fn force_reset(&self) -> Outcome {
        match self.driver.force_reset() {
            Err(UsbError::Unsupported) => Err(Refusal::Unsupported),
            other => unreachable!("the original answers {other:?}"),
        }
    }

    /// The trait's `suspend` and `resume`, which do nothing and have no trace code.
    pub fn suspend_and_resume(&self) {
        self.driver.suspend();
        self.driver.resume();
    }

    /// Whether the address is set before the status stage of SET_ADDRESS.
    pub fn address_before_status() -> bool {
        UsbdBus::<Chip>::QUIRK_SET_ADDRESS_BEFORE_STATUS
    }
}

/// The host's events.
impl Machine {
    pub fn arrival(&mut self, endpoint: u8, bytes: &[u8]) -> Outcome {
        self.begin()?;
        let number = known(endpoint)?;
        fits(bytes.len(), number, Direction::Out)?;
        refuse_if(model::with(|m| m.rx[number].ready), Refusal::OutOfTurn)?;
        model::with(|m| m.arrival(number, bytes));
        Ok(Answer::Nothing)
    }

    pub fn collect(&mut self, endpoint: u8) -> Outcome {
        self.begin()?;
        let number = known(endpoint)?;
        refuse_if(!model::with(|m| m.tx[number].ready), Refusal::OutOfTurn)?;
        Ok(Answer::Collected(model::with(|m| m.collect(number))))
    }

    pub fn bus(&mut self, event: BusEvent) -> Outcome {
        self.begin()?;
        model::with(|m| m.bus(event));
        Ok(Answer::Nothing)
    }

    pub fn setup_end(&mut self) -> Outcome {
        self.begin()?;
        model::with(Model::setup_end);
        Ok(Answer::Nothing)
    }

    pub fn underrun(&mut self, endpoint: u8) -> Outcome {
        self.begin()?;
        let number = numbered(endpoint)?;
        model::with(|m| m.underrun(number));
        Ok(Answer::Nothing)
    }

    pub fn overrun(&mut self, endpoint: u8) -> Outcome {
        self.begin()?;
        let number = numbered(endpoint)?;
        model::with(|m| m.overrun(number));
        Ok(Answer::Nothing)
    }
}

fn address_of(endpoint: u8, direction: UsbDirection) -> EndpointAddress {
    EndpointAddress::from_parts(endpoint.into(), direction)
}

fn side(direction: UsbDirection) -> Direction {
    match direction {
        UsbDirection::In => Direction::In,
        UsbDirection::Out => Direction::Out,
    }
}

fn public_type(ep_type: EndpointType) -> usb::EndpointType {
    match ep_type {
        EndpointType::Control => usb::EndpointType::Control,
        EndpointType::Isochronous => usb::EndpointType::Isochronous {
            synchronization: IsochronousSynchronizationType::NoSynchronization,
            usage: IsochronousUsageType::Data,
        },
        EndpointType::Bulk => usb::EndpointType::Bulk,
        EndpointType::Interrupt => usb::EndpointType::Interrupt,
    }
}

fn alloc_refusal(error: EndpointAllocError) -> Refusal {
    match error {
        EndpointAllocError::EndpointOverflow => Refusal::EndpointOverflow,
        EndpointAllocError::InvalidEndpoint => Refusal::InvalidEndpoint,
        EndpointAllocError::EpDirNotSupported => Refusal::EpDirNotSupported,
        EndpointAllocError::EpUsed => Refusal::EpUsed,
        EndpointAllocError::MaxPacketSizeBiggerThanEpFifoSize => Refusal::MaxPacketSizeBiggerThanEpFifoSize,
    }
}

/// What `alloc_ep` makes of the inner function's answer.
fn fold(answer: &Result<u8, EndpointAllocError>) -> usb_device::Result<u8> {
    match answer {
        Ok(endpoint) => Ok(*endpoint),
        Err(EndpointAllocError::EndpointOverflow) => Err(UsbError::EndpointOverflow),
        Err(EndpointAllocError::MaxPacketSizeBiggerThanEpFifoSize) => Err(UsbError::EndpointMemoryOverflow),
        Err(_) => Err(UsbError::InvalidEndpoint),
    }
}
