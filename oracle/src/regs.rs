//! The registers as the original's code names them: a handle for each register, with `read`, `write`,
//! `write_value` and `modify`, and a value type with named bits. The original generates these from
//! tables that are not in its text; the bits are document 01's. What a load or a store does to the
//! chip is in `model.rs`.

use crate::model::{self, Model};
use core::marker::PhantomData;

/// A register value that the model can give.
pub trait Load {
    fn load(model: &mut Model) -> Self;
}

/// A register value that the model can take.
pub trait Store: Default {
    fn store(self, model: &mut Model);
}

/// A handle on one register. It holds nothing: the value type says which register is meant.
pub struct Reg<V>(PhantomData<V>);

impl<V: Load> Reg<V> {
    pub fn read(&self) -> V {
        model::with(V::load)
    }
}

impl<V: Store> Reg<V> {
    pub fn write_value(&self, value: V) {
        model::with(|m| value.store(m))
    }

    /// Starts from all zeros.
    pub fn write<R>(&self, change: impl FnOnce(&mut V) -> R) -> R {
        let mut value = V::default();
        let result = change(&mut value);
        self.write_value(value);
        result
    }
}

impl<V: Load + Store> Reg<V> {
    /// Starts from what is read.
    pub fn modify<R>(&self, change: impl FnOnce(&mut V) -> R) -> R {
        let mut value = self.read();
        let result = change(&mut value);
        self.write_value(value);
        result
    }
}

/// A handle on one endpoint's FIFO register, through which packets go a byte at a time.
pub struct FifoReg(usize);

impl FifoReg {
    pub fn read(&self) -> regs::Fifo {
        regs::Fifo(model::with(|m| m.take_byte(self.0)))
    }

    pub fn write<R>(&self, change: impl FnOnce(&mut regs::Fifo) -> R) -> R {
        let mut value = regs::Fifo::default();
        let result = change(&mut value);
        model::with(|m| m.put_byte(self.0, value.0));
        result
    }
}

/// The register block.
#[derive(Clone, Copy)]
pub struct Usb;

macro_rules! handles {
    ($($name:ident: $value:ident,)*) => {
        impl Usb {
            $(pub fn $name(&self) -> Reg<regs::$value> {
                Reg(PhantomData)
            })*

            pub fn fifo(&self, endpoint: usize) -> FifoReg {
                FifoReg(endpoint)
            }
        }
    };
}

handles! {
    faddr: Faddr,
    power: Power,
    index: Index,
    csr0l: Csr0l,
    csr0h: Csr0h,
    txcsrl: Txcsrl,
    rxcsrl: Rxcsrl,
    txcsrh: Txcsrh,
    rxcsrh: Rxcsrh,
    txmaxp: Txmaxp,
    rxmaxp: Rxmaxp,
    intrtxe: Intrtxe,
    intrrxe: Intrrxe,
    intrusbe: Intrusbe,
    intrusb: Intrusb,
    intrtx: Intrtx,
    intrrx: Intrrx,
    count0: Count0,
    rxcount: Rxcount,
    rx_dpktbufdis: Dpktbufdis,
    tx_dpktbufdis: Dpktbufdis,
}

/// The value types.
#[allow(clippy::module_inception)] // the original's path is `crate::regs::regs`
pub mod regs {
    /// A register of single bits: each with its place and the names that the original calls it by.
    macro_rules! bits {
        ($($name:ident($word:ty) { $($place:literal: $get:ident, $set:ident;)* })*) => {
            $(
                #[derive(Debug, Clone, Copy, Default, PartialEq, Eq)]
                pub struct $name(pub $word);

                impl $name {
                    $(
                        pub fn $get(&self) -> bool {
                            self.0 >> $place & 1 == 1
                        }

                        pub fn $set(&mut self, on: bool) {
                            self.0 = self.0 & !(1 << $place) | <$word>::from(on) << $place;
                        }
                    )*
                }
            )*
        };
    }

    /// A register with a bit for each endpoint.
    macro_rules! endpoint_bits {
        ($($name:ident { $get:ident, $set:ident })*) => {
            $(
                #[derive(Debug, Clone, Copy, Default, PartialEq, Eq)]
                pub struct $name(pub u16);

                impl $name {
                    pub fn $get(&self, endpoint: usize) -> bool {
                        self.0 >> endpoint & 1 == 1
                    }

                    pub fn $set(&mut self, endpoint: usize, on: bool) {
                        self.0 = self.0 & !(1 << endpoint) | u16::from(on) << endpoint;
                    }
                }
            )*
        };
    }

    /// A register that is one number.
    macro_rules! numbers {
        ($($name:ident($word:ty) { $get:ident, $set:ident })*) => {
            $(
                #[derive(Debug, Clone, Copy, Default, PartialEq, Eq)]
                pub struct $name(pub $word);

                impl $name {
                    pub fn $get(&self) -> $word {
                        self.0
                    }

                    pub fn $set(&mut self, value: $word) {
                        self.0 = value;
                    }
                }
            )*
        };
    }

    bits! {
        Csr0l(u8) {
            0: rx_pkt_rdy, set_rx_pkt_rdy;
            1: tx_pkt_rdy, set_tx_pkt_rdy;
            2: sent_stall, set_sent_stall;
            3: data_end, set_data_end;
            4: setup_end, set_setup_end;
            5: send_stall, set_send_stall;
            6: serviced_rx_pkt_rdy, set_serviced_rx_pkt_rdy;
            7: serviced_setup_end, set_serviced_setup_end;
        }
        Csr0h(u8) {
            0: flush_fifo, set_flush_fifo;
        }
        Txcsrl(u8) {
            0: tx_pkt_rdy, set_tx_pkt_rdy;
            1: fifo_not_empty, set_fifo_not_empty;
            2: under_run, set_under_run;
            3: flush_fifo, set_flush_fifo;
            4: send_stall, set_send_stall;
            5: sent_stall, set_sent_stall;
            6: clr_data_tog, set_clr_data_tog;
        }
        Rxcsrl(u8) {
            0: rx_pkt_rdy, set_rx_pkt_rdy;
            1: fifo_full, set_fifo_full;
            2: over_run, set_over_run;
            3: data_error, set_data_error;
            4: flush_fifo, set_flush_fifo;
            5: send_stall, set_send_stall;
            6: sent_stall, set_sent_stall;
            7: clr_data_tog, set_clr_data_tog;
        }
        Txcsrh(u8) {
            6: iso, set_iso;
        }
        Rxcsrh(u8) {
            6: iso, set_iso;
        }
        // "Power's value is 1": the one bit that the original sets there is bit 0.
        Power(u8) {
            0: suspend_mode, set_suspend_mode;
        }
        // "intrusbe's 7": the three bits that the original sets are the bus interrupts' own places.
        Intrusbe(u8) {
            0: suspend_enable, set_suspend_enable;
            1: resume_enable, set_resume_enable;
            2: reset_enable, set_reset_enable;
        }
        Intrusb(u8) {
            0: suspend, set_suspend;
            1: resume, set_resume;
            2: reset, set_reset;
        }
    }

    endpoint_bits! {
        Intrtx { ep_tx, set_ep_tx }
        Intrrx { ep_rx, set_ep_rx }
        Intrtxe { ep_txe, set_ep_txe }
        Intrrxe { ep_rxe, set_ep_rxe }
        Dpktbufdis { dis, set_dis }
    }

    numbers! {
        Faddr(u8) { func_addr, set_func_addr }
        Index(u8) { index, set_index }
        Txmaxp(u16) { maxp, set_maxp }
        Rxmaxp(u16) { maxp, set_maxp }
        Count0(u8) { count, set_count }
        Rxcount(u16) { count, set_count }
        Fifo(u8) { data, set_data }
    }
}
