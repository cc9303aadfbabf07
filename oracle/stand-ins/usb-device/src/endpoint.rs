//! Endpoint types and addresses.

use crate::UsbDirection;

#[derive(Debug, Clone, Copy, PartialEq, Eq)]
pub enum IsochronousSynchronizationType {
    NoSynchronization,
    Asynchronous,
    Adaptive,
    Synchronous,
}

#[derive(Debug, Clone, Copy, PartialEq, Eq)]
pub enum IsochronousUsageType {
    Data,
    Feedback,
    ImplicitFeedbackData,
}

#[derive(Debug, Clone, Copy, PartialEq, Eq)]
pub enum EndpointType {
    Control,
    Isochronous {
        synchronization: IsochronousSynchronizationType,
        usage: IsochronousUsageType,
    },
    Bulk,
    Interrupt,
}

/// An endpoint's number in the low seven bits, its direction in the highest.
#[derive(Debug, Clone, Copy, PartialEq, Eq)]
pub struct EndpointAddress(u8);

impl EndpointAddress {
    const DIRECTION: u8 = UsbDirection::In as u8;

    pub fn from_parts(index: usize, direction: UsbDirection) -> Self {
        EndpointAddress(index as u8 | direction as u8)
    }

    pub fn index(self) -> usize {
        (self.0 & !Self::DIRECTION) as usize
    }

    pub fn direction(self) -> UsbDirection {
        if self.0 & Self::DIRECTION == 0 {
            UsbDirection::Out
        } else {
            UsbDirection::In
        }
    }
}
