//! The original's errors as numbers of document 01, and its records as lines of a view.

use super::{Driver, OpenJob};
use crate::channel_manager::{ChannelState, CreditFlowPolicy};
use crate::types::l2cap::LeCreditConnResultCode;
use crate::{BleHostError, Error};
use language::{Policy, Row, SlotView, State};
use std::convert::Infallible;

/// The row of an error. Refusal 17 carries the result code.
pub(super) fn refused(error: Error) -> Row {
    let number = match error {
        Error::InvalidChannelId => 7,
        Error::NotFound => 8,
        Error::InvalidValue => 9,
        Error::OutOfMemory => 10,
        Error::ChannelClosed => 11,
        Error::InsufficientSpace => 12,
        Error::NoChannelAvailable => 13,
        Error::Busy => 14,
        Error::HciDecode(_) => 15,
        Error::NotSupported => 16,
        Error::L2capConnectError(code) => return Row::number(17).column(code as u16),
        Error::Disconnected => 18,
        Error::Hci(_) | Error::InvalidState | Error::Timeout | Error::FailedToFinalize { .. } => {
            unreachable!("no call of the language ends in {error:?}")
        }
    };
    Row::number(number)
}

/// The row of an error that came through the host.
pub(super) fn refused_by_host(error: BleHostError<Infallible>) -> Row {
    match error {
        BleHostError::BleHost(error) => refused(error),
        BleHostError::Controller(never) => match never {},
    }
}

/// The result code of a number, none where the original lists none.
pub(super) fn result_code(number: u16) -> Option<LeCreditConnResultCode> {
    use LeCreditConnResultCode::*;
    let codes = [
        Success,
        SpsmNotSupported,
        NoResources,
        InsufficientAuthentication,
        InsufficientAuthorization,
        EncryptionKeyTooShort,
        InsufficientEncryption,
        InvalidSourceId,
        ScidAlreadyAllocated,
        UnacceptableParameters,
    ];
    codes.into_iter().find(|code| *code as u16 == number)
}

impl<const M: usize> Driver<'_, M> {
    /// A slot as the original's record has it. The language shows no stored CID: it is 0x40 plus the slot, or 0 in a closed record.
    pub(super) fn slot_view(&self, slot: usize) -> SlotView {
        let record = self.channels.record(slot);
        let assembly = self.channels.assembly(slot);
        SlotView {
            state: match record.state {
                ChannelState::Disconnected => State::Disconnected,
                ChannelState::Connecting(identifier) => State::Connecting(identifier),
                ChannelState::PeerConnecting(identifier) => State::PeerConnecting(identifier),
                ChannelState::Connected => State::Connected,
                ChannelState::ConnectFailed(code) => State::ConnectFailed(code as u16),
                ChannelState::PeerDisconnecting(identifier) => State::PeerDisconnecting(identifier),
                ChannelState::Disconnecting => State::Disconnecting { announced: self.tracks.announced(slot) },
            },
            link: record.conn.map_or(0, |conn| conn.raw()),
            spsm: record.spsm,
            mps: record.mps,
            mtu: record.mtu,
            policy: match record.policy {
                CreditFlowPolicy::Every(count) => Policy::Every(count),
                CreditFlowPolicy::MinThreshold(threshold) => Policy::MinThreshold(threshold),
            },
            credits: record.credits,
            received: record.received,
            peer_cid: record.peer_cid,
            peer_mps: record.peer_mps,
            peer_mtu: record.peer_mtu,
            peer_credits: record.peer_credits,
            hold: u16::from(record.refcount),
            have: assembly.as_ref().map_or(0, |open| open.have as u16),
            want: assembly.as_ref().map_or(0, |open| open.want as u16),
            jobs: self.channels.job_lengths(slot),
            job: self.jobs[slot].as_ref().map(OpenJob::view),
            stale: self.tracks.stale(slot),
            tallies: self.channels.tallies(slot),
            inherited: self.tracks.inherited(slot),
        }
    }

    /// The slot's D+1 places as document 01 lays them out, zeros behind each job. The original has packets and no places: that the rest
    /// of a place is zero is the layout's, not its.
    pub(super) fn places(&self, slot: usize) -> Vec<u8> {
        let mut octets = vec![0; Self::PLACES];
        self.draw(slot, &mut octets);
        octets
    }

    /// Every slot's places.
    pub(super) fn room(&self) -> Vec<u8> {
        let mut octets = vec![0; self.n * Self::PLACES];
        for slot in 0..self.n {
            self.draw(slot, &mut octets[slot * Self::PLACES..(slot + 1) * Self::PLACES]);
        }
        octets
    }

    const PLACES: usize = (crate::config::L2CAP_RX_QUEUE_SIZE + 1) * (M - 6);

    fn draw(&self, slot: usize, octets: &mut [u8]) {
        let (open, jobs) = (self.channels.assembly(slot), self.channels.jobs(slot));
        // Most slots hold nothing, and this runs for each of them before every call.
        if open.is_none() && jobs.is_empty() {
            return;
        }
        let open = open.map_or(Vec::new(), |open| open.written);
        for (place, job) in octets.chunks_mut(M - 6).zip(std::iter::once(open).chain(jobs)) {
            let length = job.len().min(place.len());
            place[..length].copy_from_slice(&job[..length]);
        }
    }
}
