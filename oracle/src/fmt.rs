//! The original's logging macros. They print nothing: logging is left out by document 01. Each message
//! is still handed to a function, on the line of its call, so that `oracle/coverage` sees a branch
//! that only says something.
//!
//! One message does more. A macro's items are resolved where the macro is called, so what it expands
//! to inside the original may name the original's private items. `trace!("call enable")` stands once,
//! in `UsbdBus::enable`; there we put the impl of our own trait `Window`, through which the rest of
//! this crate reads and sets the private fields and statics. The call itself does nothing.

/// Takes a message and does nothing.
#[inline]
pub(crate) fn unsaid(_: core::fmt::Arguments) {}

#[collapse_debuginfo(yes)]
macro_rules! trace_message {
    ("call enable") => {
        #[allow(non_local_definitions)]
        impl<T: MusbInstance> crate::window::Window for UsbdBus<T> {
            fn private(&self) -> crate::window::Private {
                crate::window::Private {
                    endpoints: self.endpoints,
                    state: match self.control_state.get_state() {
                        ControlStateEnum::Idle => crate::window::State::Idle,
                        ControlStateEnum::Setup => crate::window::State::Setup,
                        ControlStateEnum::DataIn => crate::window::State::DataIn,
                        ControlStateEnum::DataOut => crate::window::State::DataOut,
                        ControlStateEnum::Accepted => crate::window::State::Accepted,
                        ControlStateEnum::NodataPhase => crate::window::State::NodataPhase,
                    },
                    tx_len: self.control_state.get_tx_len(),
                    flags: crate::window::Flags {
                        reset: IRQ_RESET.load(Ordering::SeqCst),
                        suspend: IRQ_SUSPEND.load(Ordering::SeqCst),
                        resume: IRQ_RESUME.load(Ordering::SeqCst),
                        ep0: IRQ_EP0.load(Ordering::SeqCst),
                        ep_tx: IRQ_EP_TX.load(Ordering::SeqCst),
                        ep_rx: IRQ_EP_RX.load(Ordering::SeqCst),
                    },
                }
            }

            fn set_private(&mut self, to: &crate::window::Private) {
                self.endpoints = to.endpoints;
                self.control_state.set_state(match to.state {
                    crate::window::State::Idle => ControlStateEnum::Idle,
                    crate::window::State::Setup => ControlStateEnum::Setup,
                    crate::window::State::DataIn => ControlStateEnum::DataIn,
                    crate::window::State::DataOut => ControlStateEnum::DataOut,
                    crate::window::State::Accepted => ControlStateEnum::Accepted,
                    crate::window::State::NodataPhase => ControlStateEnum::NodataPhase,
                });
                self.control_state.set_tx_len(to.tx_len);
                IRQ_RESET.store(to.flags.reset, Ordering::SeqCst);
                IRQ_SUSPEND.store(to.flags.suspend, Ordering::SeqCst);
                IRQ_RESUME.store(to.flags.resume, Ordering::SeqCst);
                IRQ_EP0.store(to.flags.ep0, Ordering::SeqCst);
                IRQ_EP_TX.store(to.flags.ep_tx, Ordering::SeqCst);
                IRQ_EP_RX.store(to.flags.ep_rx, Ordering::SeqCst);
            }
        }
    };
    ($message:literal $(, $argument:expr)* $(,)?) => {
        crate::fmt::unsaid(core::format_args!($message $(, $argument)*))
    };
}

#[collapse_debuginfo(yes)]
macro_rules! warn_message {
    ($message:literal $(, $argument:expr)* $(,)?) => {
        crate::fmt::unsaid(core::format_args!($message $(, $argument)*))
    };
}

// `warn` is also the name of an attribute: a macro of that name can be used by path only under a
// second name.
pub(crate) use trace_message as trace;
pub(crate) use warn_message as warn;
