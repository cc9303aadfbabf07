//! The original `usb-device` driver of decaday/musb, unchanged, over document 01's register model.
//!
//! The first half of this file is the crate root that the original's four files expect around them.
//! The second half is ours: document 01's replies in front of the driver, its host events, its event
//! trace and its report.

// The original, byte for byte: no formatter may touch it and no lint asks for a change. Its `embassy`
// side, its generated registers and its `lib.rs` stay out.
#[rustfmt::skip]
#[allow(clippy::all)]
#[path = "../original/src/alloc_endpoint.rs"]
pub mod alloc_endpoint;
#[rustfmt::skip]
#[allow(clippy::all)]
#[path = "../original/src/common_impl.rs"]
pub mod common_impl;
#[rustfmt::skip]
#[allow(clippy::all)]
#[path = "../original/src/usb_device_impl/mod.rs"]
mod usb_device_impl;
pub use usb_device_impl::{on_interrupt, UsbdBus};

// What the original names as `crate::..`.
mod fmt;
pub mod info;
pub mod regs;
pub(crate) use fmt::{trace, warn};

/// A chip, as the original sees it: where its registers are.
pub trait MusbInstance: 'static + Send + Sync {
    fn regs() -> regs::Usb;
}

#[cfg(not(all(feature = "usb-device-impl", feature = "_fixed-fifo-size")))]
compile_error!("document 01 carries over `usb-device-impl` with `_fixed-fifo-size`");

// Document 01 around the original.
pub mod machine;
pub mod model;
pub mod record;
pub mod report;
pub mod trace;
pub mod window;

// For the programs `generate` and `compare`.
pub mod generator;
pub mod shrink;
pub mod tally;
