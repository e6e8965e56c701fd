//! Stand-in for embassy-time. It decides that a tick is a microsecond, so that no duration of a parameter request is rounded, and that
//! no timer ever ends: a give-up of the script stands for the 30 seconds of `L2CAP_RTX_TIMEOUT`.

use core::future::Future;

#[derive(Clone, Copy, Debug, Default, PartialEq, Eq, PartialOrd, Ord)]
pub struct Duration(u64);

impl Duration {
    pub const fn from_ticks(ticks: u64) -> Self {
        Self(ticks)
    }
    pub const fn from_micros(micros: u64) -> Self {
        Self(micros)
    }
    pub const fn from_millis(millis: u64) -> Self {
        Self(millis * 1_000)
    }
    pub const fn from_secs(secs: u64) -> Self {
        Self(secs * 1_000_000)
    }
    pub const fn as_micros(&self) -> u64 {
        self.0
    }
}

#[derive(Debug)]
pub struct TimeoutError;

pub async fn with_timeout<F: Future>(_limit: Duration, future: F) -> Result<F::Output, TimeoutError> {
    Ok(future.await)
}
