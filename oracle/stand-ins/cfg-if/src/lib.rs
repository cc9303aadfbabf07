//! Stand-in for the `cfg-if` crate: the one form that the original uses, `if .. else ..` over statements.
#![no_std]

#[macro_export]
macro_rules! cfg_if {
    (if #[cfg($test:meta)] { $($held:tt)* } else { $($otherwise:tt)* }) => {
        #[cfg($test)]
        $crate::statements! { $($held)* }
        #[cfg(not($test))]
        $crate::statements! { $($otherwise)* }
    };
}

/// The statements as they stand: what `#[cfg]` above can keep or leave out whole.
#[doc(hidden)]
#[macro_export]
macro_rules! statements {
    ($($tokens:tt)*) => { $($tokens)* };
}
