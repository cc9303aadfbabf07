//! Stand-in for the `embassy-usb-driver` crate: the two types that the original's shared files name,
//! written from the crate's public documentation.
#![no_std]

#[derive(Debug, Clone, Copy, PartialEq, Eq)]
pub enum Direction {
    Out,
    In,
}

#[derive(Debug, Clone, Copy, PartialEq, Eq)]
pub enum EndpointType {
    Control,
    Isochronous,
    Bulk,
    Interrupt,
}
