//! Stand-in for the crate's error types. It decides the names only; `driver::number` gives each the number of document 01.

use crate::codec;
use crate::types::l2cap::LeCreditConnResultCode;
use bt_hci::FromHciBytesError;

#[derive(Clone, Copy, Debug, PartialEq)]
#[allow(dead_code, clippy::enum_variant_names)]
pub enum Error {
    Hci(bt_hci::param::Error),
    HciDecode(FromHciBytesError),
    InvalidChannelId,
    L2capConnectError(LeCreditConnResultCode),
    NoChannelAvailable,
    InsufficientSpace,
    InvalidValue,
    InvalidState,
    Disconnected,
    ChannelClosed,
    NotSupported,
    NotFound,
    OutOfMemory,
    Busy,
    Timeout,
    FailedToFinalize { expected: usize, actual: usize },
}

#[derive(Debug)]
#[allow(dead_code)]
pub enum BleHostError<E> {
    Controller(E),
    BleHost(Error),
}

impl<E> From<Error> for BleHostError<E> {
    fn from(error: Error) -> Self {
        Self::BleHost(error)
    }
}

impl From<codec::Error> for Error {
    fn from(error: codec::Error) -> Self {
        match error {
            codec::Error::InsufficientSpace => Self::InsufficientSpace,
            codec::Error::InvalidValue => Self::InvalidValue,
        }
    }
}

impl From<FromHciBytesError> for Error {
    fn from(error: FromHciBytesError) -> Self {
        Self::HciDecode(error)
    }
}
