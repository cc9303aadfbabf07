//! What the original keeps to itself, as plain values: the fields of `UsbdBus` and the statics beside
//! it. `fmt.rs` says how they are reached without changing the original.

use crate::alloc_endpoint::EndpointData;
use crate::info::COUNT;

/// The original's `ControlStateEnum`, which is private to its module.
#[derive(Debug, Clone, Copy, PartialEq, Eq)]
pub enum State {
    Idle = 0,
    Setup = 1,
    DataIn = 2,
    DataOut = 3,
    Accepted = 4,
    NodataPhase = 5,
}

impl State {
    pub const ALL: [State; 6] = [
        State::Idle,
        State::Setup,
        State::DataIn,
        State::DataOut,
        State::Accepted,
        State::NodataPhase,
    ];
}

/// The statics `IRQ_RESET` to `IRQ_EP0`.
#[derive(Debug, Clone, Copy, PartialEq, Eq, Default)]
pub struct Flags {
    pub reset: bool,
    pub suspend: bool,
    pub resume: bool,
    pub ep0: bool,
    pub ep_tx: u16,
    pub ep_rx: u16,
}

#[derive(Debug, Clone)]
pub struct Private {
    pub endpoints: [EndpointData; COUNT],
    pub state: State,
    pub tx_len: u32,
    pub flags: Flags,
}

/// Implemented for the original's `UsbdBus` from inside its own module.
pub trait Window {
    fn private(&self) -> Private;
    fn set_private(&mut self, to: &Private);
}
