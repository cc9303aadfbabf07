//! The trait that the original implements.

use crate::endpoint::{EndpointAddress, EndpointType};
use crate::{Result, UsbDirection};

#[derive(Debug, Clone, Copy, PartialEq, Eq)]
pub enum PollResult {
    None,
    Reset,
    Data {
        ep_out: u16,
        ep_in_complete: u16,
        ep_setup: u16,
    },
    Suspend,
    Resume,
}

pub trait UsbBus: Sync + Sized {
    /// Whether the address is set before the status stage of SET_ADDRESS.
    const QUIRK_SET_ADDRESS_BEFORE_STATUS: bool = false;

    fn alloc_ep(
        &mut self,
        ep_dir: UsbDirection,
        ep_addr: Option<EndpointAddress>,
        ep_type: EndpointType,
        max_packet_size: u16,
        interval: u8,
    ) -> Result<EndpointAddress>;
    fn enable(&mut self);
    fn reset(&self);
    fn set_device_address(&self, addr: u8);
    fn write(&self, ep_addr: EndpointAddress, buf: &[u8]) -> Result<usize>;
    fn read(&self, ep_addr: EndpointAddress, buf: &mut [u8]) -> Result<usize>;
    fn set_stalled(&self, ep_addr: EndpointAddress, stalled: bool);
    fn is_stalled(&self, ep_addr: EndpointAddress) -> bool;
    fn suspend(&self);
    fn resume(&self);
    fn poll(&self) -> PollResult;
    fn force_reset(&self) -> Result<()>;
}
