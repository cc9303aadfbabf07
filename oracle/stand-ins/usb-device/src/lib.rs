//! Stand-in for the `usb-device` crate: only the names that the original driver uses, written from
//! the crate's public documentation. Nothing here runs but the packing of an endpoint address.
#![no_std]

pub mod bus;
pub mod endpoint;

/// The direction of an endpoint, seen from the host. The number is its bit in an endpoint address.
#[derive(Debug, Clone, Copy, PartialEq, Eq)]
pub enum UsbDirection {
    Out = 0x00,
    In = 0x80,
}

#[derive(Debug, Clone, Copy, PartialEq, Eq)]
pub enum UsbError {
    WouldBlock,
    ParseError,
    BufferOverflow,
    EndpointOverflow,
    EndpointMemoryOverflow,
    InvalidEndpoint,
    Unsupported,
    InvalidState,
}

pub type Result<T> = core::result::Result<T, UsbError>;
