//! Stand-in for bt-hci: the types and commands that the original names.
//! What it decides: a fixed-size value is its own memory, octet for octet, on a little-endian machine; reading one needs at least its
//! size, reading one completely needs exactly its size, and anything else is the error that the original shows as `HciDecode`. So the
//! body lengths that give Decode come from `size_of` here and are not compared with the real crate.

pub mod cmd;
pub mod controller;
pub mod event;
pub mod param;

use core::mem::{size_of, MaybeUninit};

#[derive(Clone, Copy, Debug, PartialEq, Eq)]
pub enum FromHciBytesError {
    InvalidSize,
    InvalidValue,
}

#[derive(Debug)]
pub struct WriteError;

/// # Safety
/// Every octet sequence that `is_valid` passes is a value of the type. The original passes all of them for a connect response, whose
/// result is an enum: the driver never lets an unlisted result reach it.
pub unsafe trait FixedSizeValue: Copy {
    fn is_valid(data: &[u8]) -> bool;
}

pub trait WriteHci {
    fn size(&self) -> usize;
    fn write_hci(&self, out: &mut [u8]) -> Result<(), WriteError>;
}

impl<T: FixedSizeValue> WriteHci for T {
    fn size(&self) -> usize {
        size_of::<T>()
    }
    fn write_hci(&self, out: &mut [u8]) -> Result<(), WriteError> {
        let out = out.get_mut(..size_of::<T>()).ok_or(WriteError)?;
        // The value's memory has no padding: the original's signal forms are `repr(C)` over u8 and u16 fields that fill it.
        let octets = unsafe { core::slice::from_raw_parts((self as *const T).cast::<u8>(), size_of::<T>()) };
        out.copy_from_slice(octets);
        Ok(())
    }
}

pub trait FromHciBytes<'de>: Sized {
    fn from_hci_bytes(data: &'de [u8]) -> Result<(Self, &'de [u8]), FromHciBytesError>;

    fn from_hci_bytes_complete(data: &'de [u8]) -> Result<Self, FromHciBytesError> {
        match Self::from_hci_bytes(data)? {
            (value, []) => Ok(value),
            _ => Err(FromHciBytesError::InvalidSize),
        }
    }
}

impl<'de, T: FixedSizeValue> FromHciBytes<'de> for T {
    fn from_hci_bytes(data: &'de [u8]) -> Result<(Self, &'de [u8]), FromHciBytesError> {
        if data.len() < size_of::<T>() {
            return Err(FromHciBytesError::InvalidSize);
        }
        let (own, rest) = data.split_at(size_of::<T>());
        if !T::is_valid(own) {
            return Err(FromHciBytesError::InvalidValue);
        }
        let mut value = MaybeUninit::<T>::uninit();
        // `own` has the value's size; validity is the trait's promise.
        let value = unsafe {
            core::ptr::copy_nonoverlapping(own.as_ptr(), value.as_mut_ptr().cast::<u8>(), own.len());
            value.assume_init()
        };
        Ok((value, rest))
    }
}
