//! The archive's entries, each behind a safe function. An octet slice crosses as its address and its length.
//!
//! Every entry is proved to read and write its slices alone, within their lengths, for every input; it keeps no address and calls nothing back.
//! So a call is sound when its slices are valid and the lent ones are nobody else's, and the borrows say just that.

use crate::answer::{Answer, ANSWER_OCTETS};
use crate::codes::Refusal;
use crate::table::TABLE_OCTETS;

/// What an entry returned, and the answer that it wrote. A refused signal can have a reply too.
pub(crate) struct Returned {
    refusal: u32,
    pub(crate) answer: Answer,
}

impl Returned {
    /// The answer, or why there is none.
    pub(crate) fn told(self) -> Result<Answer, Refusal> {
        match self.refusal {
            0 => Ok(self.answer),
            number => Err(Refusal::told(number, self.answer.first())),
        }
    }
}

include!("rows.rs");

/// Declares entries, each with its safe function. A call: behind table and answer the slices that it is lent; its numbers; the slices that it reads; the answers of a run. A question
/// borrows the table and no more.
macro_rules! entries {
    (
        $(fn $call:ident = $entry:ident($($lent:ident),*; $($number:ident: $of:ty),*; $($read:ident),* $(; $answers:ident)?);)*
        $(ask $question:ident = $asked:ident($($about:ident: $kind:ty),*);)*
    ) => {
        extern "C" {
            $(fn $entry(
                table: *mut u8,
                _: usize,
                answer: *mut u8,
                _: usize,
                $($lent: *mut u8, _: usize,)*
                $($number: $of,)*
                $($read: *const u8, _: usize,)*
                $($answers: *mut u8, _: usize,)?
            ) -> u32;)*
            $(fn $asked(table: *const u8, _: usize, answer: *mut u8, _: usize, $($about: $kind,)*) -> u32;)*
        }

        $(#[allow(clippy::too_many_arguments)]
        pub(crate) fn $call(
            table: &mut [u8; TABLE_OCTETS],
            $($lent: &mut [u8],)*
            $($number: $of,)*
            $($read: &[u8],)*
            $($answers: &mut [u8],)?
        ) -> Returned {
            let mut answer = [0; ANSWER_OCTETS];
            // SAFETY: valid slices with their own lengths, the lent ones borrowed for the call; the entry asks nothing more.
            let refusal = unsafe {
                $entry(
                    table.as_mut_ptr(),
                    table.len(),
                    answer.as_mut_ptr(),
                    answer.len(),
                    $($lent.as_mut_ptr(), $lent.len(),)*
                    $($number,)*
                    $($read.as_ptr(), $read.len(),)*
                    $($answers.as_mut_ptr(), $answers.len(),)?
                )
            };
            Returned { refusal, answer: Answer(answer) }
        })*

        $(pub(crate) fn $question(table: &[u8; TABLE_OCTETS], $($about: $kind,)*) -> Returned {
            let mut answer = [0; ANSWER_OCTETS];
            // SAFETY: valid slices with their own lengths, the answer's nobody else's; the entry writes to no other and asks nothing more.
            let refusal = unsafe { $asked(table.as_ptr(), table.len(), answer.as_mut_ptr(), answer.len(), $($about,)*) };
            Returned { refusal, answer: Answer(answer) }
        })*
    };
}

rows!(entries);

extern "C" {
    fn l2cap_signal_rest(pdu: *const u8, pdu_len: usize) -> usize;
    fn l2cap_version_4() -> u32;
}

/// How many octets of the PDU stand behind its first signal.
pub(crate) fn signal_rest(pdu: &[u8]) -> usize {
    // SAFETY: a valid slice with its own length; the entry asks nothing more.
    unsafe { l2cap_signal_rest(pdu.as_ptr(), pdu.len()) }
}

/// The version of the archive. Its entry is named after it, so that an archive of another version than these rows isn't linked.
pub(crate) fn version() -> u32 {
    // SAFETY: the entry asks nothing.
    unsafe { l2cap_version_4() }
}
