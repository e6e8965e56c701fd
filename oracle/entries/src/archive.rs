//! The entries of the archive, each behind a safe function. An octet slice crosses as its address and its length: bindings/c/l2cap_channels.h.
//!
//! Every entry is proved to read and write its slices alone, within their lengths, for every input. So a call is sound when its slices are
//! valid and the lent ones are nobody else's, and the borrows say just that. That nothing behind a slice is written is also looked at: memory.rs.

include!("../../../bindings/rust/src/rows.rs");

/// Declares entries, each with its safe function. A call: behind table and answer the slices that it is lent; its numbers; the slices that it reads; the answers of a run. A question is
/// told that it may only read the table, but given memory that could be written, so that a write would show.
macro_rules! entries {
    (
        $(fn $call:ident = $entry:ident($($lent:ident),*; $($number:ident: $of:ty),*; $($read:ident),* $(; $answers:ident)?);)*
        $(ask $question:ident = $asked:ident($($about:ident: $kind:ty),*);)*
    ) => {
        extern "C" {
            $(fn $entry(
                table: *mut u8,
                _: usize,
                answer: *mut u8,
                _: usize,
                $($lent: *mut u8, _: usize,)*
                $($number: $of,)*
                $($read: *const u8, _: usize,)*
                $($answers: *mut u8, _: usize,)?
            ) -> u32;)*
            $(fn $asked(table: *const u8, _: usize, answer: *mut u8, _: usize, $($about: $kind,)*) -> u32;)*
        }

        $(#[allow(clippy::too_many_arguments)]
        pub fn $call(
            table: &mut [u8],
            answer: &mut [u8],
            $($lent: &mut [u8],)*
            $($number: $of,)*
            $($read: &[u8],)*
            $($answers: &mut [u8],)?
        ) -> u32 {
            // SAFETY: valid slices with their own lengths, the lent ones borrowed for the call; the entry asks nothing more.
            unsafe {
                $entry(
                    table.as_mut_ptr(),
                    table.len(),
                    answer.as_mut_ptr(),
                    answer.len(),
                    $($lent.as_mut_ptr(), $lent.len(),)*
                    $($number,)*
                    $($read.as_ptr(), $read.len(),)*
                    $($answers.as_mut_ptr(), $answers.len(),)?
                )
            }
        })*

        $(pub fn $question(table: &mut [u8], answer: &mut [u8], $($about: $kind,)*) -> u32 {
            // SAFETY: as above.
            unsafe { $asked(table.as_mut_ptr(), table.len(), answer.as_mut_ptr(), answer.len(), $($about,)*) }
        })*
    };
}

rows!(entries);

extern "C" {
    fn l2cap_signal_rest(pdu: *const u8, pdu_len: usize) -> usize;
}

/// How many octets of the PDU stand behind its first signal.
pub fn signal_rest(pdu: &[u8]) -> usize {
    // SAFETY: a valid slice with its own length; the entry asks nothing more.
    unsafe { l2cap_signal_rest(pdu.as_ptr(), pdu.len()) }
}
