//! Stand-in for the crate's logging macros and `unwrap!`. They decide that nothing is logged, with one exception: `signal` swallows the
//! error of a handler after one `warn!` that shows it. That one is caught here, so that a signal's answer is the original's own error.

use crate::Error;
use std::cell::Cell;

thread_local! {
    static SWALLOWED: Cell<Option<Error>> = const { Cell::new(None) };
}

pub(crate) fn swallow(error: Error) {
    SWALLOWED.set(Some(error));
}

/// The error of the handler that ran last, once.
pub(crate) fn swallowed() -> Option<Error> {
    SWALLOWED.take()
}

macro_rules! warn {
    ("[l2cap][conn = {:?}] error processing signal: {:?}", $conn:expr, $error:expr) => {
        $crate::log::swallow($error)
    };
    ($($message:tt)*) => {
        if false { let _ = format_args!($($message)*); }
    };
}

macro_rules! error { ($($message:tt)*) => { if false { let _ = format_args!($($message)*); } }; }
#[allow(unused_macros)]
macro_rules! info { ($($message:tt)*) => { if false { let _ = format_args!($($message)*); } }; }
macro_rules! debug { ($($message:tt)*) => { if false { let _ = format_args!($($message)*); } }; }
#[allow(unused_macros)]
macro_rules! trace { ($($message:tt)*) => { if false { let _ = format_args!($($message)*); } }; }

macro_rules! unwrap {
    ($option:expr, $($message:tt)+) => {
        match $option {
            Some(value) => value,
            None => panic!($($message)+),
        }
    };
}
