//! Reads the records and calls the private functions of the channel manager, of which this is a child module. The writes are
//! `hide` and `restore`, which keep slots out of one scan, `put_credits` and `put_tallies`, which put a record's numbers aside while a job is sent again, `close`, which is the body of the original's `OnDrop` in `create`, and the two
//! halves of a planted fault. `encode_job` is for `../speed` alone.

use super::{encode, ChannelIndex, ChannelManager, ChannelState, CreditFlowPolicy, CreditGrant, DisconnectRequest};
use crate::host::BleHost;
use crate::l2cap::sar::eyes::{assembly, Assembly};
use crate::l2cap::sar::PacketReassembly;
use crate::l2cap::L2capChannel;
use crate::{BleHostError, PacketPool};
use bt_hci::controller::Controller;
use bt_hci::param::ConnHandle;
use core::task::Poll;
use language::Tallies;

/// A slot's record as it stands.
pub(crate) struct Record {
    pub state: ChannelState,
    pub conn: Option<ConnHandle>,
    pub spsm: u16,
    pub mps: u16,
    pub mtu: u16,
    pub policy: CreditFlowPolicy,
    pub credits: u16,
    pub received: u16,
    pub refcount: u8,
    pub peer_cid: u16,
    pub peer_mps: u16,
    pub peer_mtu: u16,
    pub peer_credits: u16,
}

pub(crate) const fn index(slot: u8) -> ChannelIndex {
    ChannelIndex(slot)
}

impl<P: PacketPool> ChannelManager<'_, P> {
    pub(crate) fn record(&self, slot: usize) -> Record {
        let storage = &self.channels.borrow()[slot];
        Record {
            state: storage.state.clone(),
            conn: storage.conn,
            spsm: storage.spsm,
            mps: storage.mps,
            mtu: storage.mtu,
            policy: storage.flow_control.policy,
            credits: storage.flow_control.credits,
            received: storage.flow_control.received,
            refcount: storage.refcount,
            peer_cid: storage.peer_cid,
            peer_mps: storage.peer_mps,
            peer_mtu: storage.peer_mtu,
            peer_credits: storage.peer_credits,
        }
    }

    /// The state and the stored CID: what the driver follows from call to call.
    pub(crate) fn standing(&self, slot: usize) -> (ChannelState, u16) {
        let storage = &self.channels.borrow()[slot];
        (storage.state.clone(), storage.cid)
    }

    /// The identifier that the next request gets: 0 is stored after 255 and at the start, and never given.
    pub(crate) fn next_identifier(&self) -> u8 {
        self.state.borrow().next_req_id.max(1)
    }

    /// The registered SPSMs: SPSM s is bit s % 8 of octet s / 8.
    pub(crate) fn spsms(&self) -> [u8; 32] {
        let mut octets = [0; 32];
        for (four, bits) in octets.chunks_exact_mut(4).zip(self.state.borrow().registered_spsms) {
            four.copy_from_slice(&bits.to_le_bytes());
        }
        octets
    }

    /// The jobs in a slot's queue, oldest first; the mark of a close is none.
    pub(crate) fn jobs(&self, slot: usize) -> Vec<Vec<u8>> {
        let mut jobs = Vec::new();
        self.channels.borrow()[slot].inbound.chan.peek(|item| jobs.extend(item.as_ref().map(|job| job.as_ref().to_vec())));
        jobs
    }

    /// The lengths of the jobs in a slot's queue.
    pub(crate) fn job_lengths(&self, slot: usize) -> Vec<u16> {
        let mut lengths = Vec::new();
        self.channels.borrow()[slot].inbound.chan.peek(|item| lengths.extend(item.as_ref().map(|job| job.len() as u16)));
        lengths
    }

    pub(crate) fn assembly(&self, slot: usize) -> Option<Assembly> {
        assembly(&self.channels.borrow()[slot].reassembly)
    }

    /// Sets the slots that `pick` names aside for one scan of the original.
    pub(crate) fn hide(&self, mut pick: impl FnMut(usize) -> bool) -> Vec<(usize, ChannelState)> {
        let mut channels = self.channels.borrow_mut();
        let picked = channels.iter_mut().enumerate().filter(|(slot, _)| pick(*slot));
        picked.map(|(slot, storage)| (slot, core::mem::replace(&mut storage.state, ChannelState::Disconnected))).collect()
    }

    pub(crate) fn restore(&self, hidden: Vec<(usize, ChannelState)>) {
        let mut channels = self.channels.borrow_mut();
        for (slot, state) in hidden {
            channels[slot].state = state;
        }
    }

    /// A planted fault's two halves: the open assembly is taken out of a free slot before a call that may open it again ...
    pub(crate) fn lift_assemblies(&self) -> Vec<(usize, PacketReassembly<P::Packet>)> {
        let mut channels = self.channels.borrow_mut();
        let free = channels.iter_mut().enumerate().filter(|(_, storage)| storage.state == ChannelState::Disconnected);
        free.map(|(slot, storage)| (slot, core::mem::replace(&mut storage.reassembly, PacketReassembly::new()))).collect()
    }

    /// ... and put back after it.
    pub(crate) fn put_back_assemblies(&self, lifted: Vec<(usize, PacketReassembly<P::Packet>)>) {
        let mut channels = self.channels.borrow_mut();
        for (slot, reassembly) in lifted {
            channels[slot].reassembly = reassembly;
        }
    }

    /// What `create` does when its future is dropped or ends in an error.
    pub(crate) fn close(&self, slot: u8) {
        self.channel_mut(ChannelIndex(slot)).close();
    }
}

impl<'d, P: PacketPool> ChannelManager<'d, P> {
    /// The grant that `send` holds for credits that it took. What is left of them when it goes is given back, as the original does it.
    pub(crate) fn grant(&self, slot: u8, credits: u16) -> CreditGrant<'d, P::Packet> {
        CreditGrant::new(self.channels, ChannelIndex(slot), credits)
    }

    /// Has other peer credits stand in a record; gives those that stood there.
    pub(crate) fn put_credits(&self, slot: usize, credits: u16) -> u16 {
        core::mem::replace(&mut self.channels.borrow_mut()[slot].peer_credits, credits)
    }

    /// One poll of what `create` waits for.
    pub(crate) fn created<T: Controller>(
        &'d self,
        conn: ConnHandle,
        slot: u8,
        ble: BleHost<'_, T, P>,
    ) -> Poll<Result<L2capChannel<'d, P>, BleHostError<T::Error>>> {
        self.poll_created(conn, ChannelIndex(slot), ble, None)
    }
}

impl<P: PacketPool> DisconnectRequest<'_, P> {
    pub(crate) fn slot(&self) -> usize {
        usize::from(self.index.0)
    }
}

/// The numbers of `channel-metrics`.
#[cfg(feature = "channel-metrics")]
impl<P: PacketPool> ChannelManager<'_, P> {
    pub(crate) fn tallies(&self, slot: usize) -> Tallies {
        tallies(&self.channels.borrow()[slot].metrics)
    }

    /// Has other numbers stand in a record.
    pub(crate) fn put_tallies(&self, slot: usize, tallies: Tallies) {
        let [num_sent, num_received, blocked_send, blocked_receive] = tallies.numbers().map(|number| number as usize);
        self.channels.borrow_mut()[slot].metrics = super::Metrics { num_sent, num_received, blocked_send, blocked_receive };
    }

    /// What the original's `metrics` tells.
    pub(crate) fn told_tallies(&self, slot: u8) -> Option<Tallies> {
        Some(self.metrics(ChannelIndex(slot), tallies))
    }
}

#[cfg(feature = "channel-metrics")]
fn tallies(metrics: &super::Metrics) -> Tallies {
    let [sent, received] = [metrics.num_sent as u64, metrics.num_received as u64];
    Tallies { sent, received, blocked_sends: metrics.blocked_send as u64, blocked_receives: metrics.blocked_receive as u64 }
}

/// Without that feature there are none.
#[cfg(not(feature = "channel-metrics"))]
impl<P: PacketPool> ChannelManager<'_, P> {
    pub(crate) fn tallies(&self, _slot: usize) -> Tallies {
        Tallies::default()
    }

    pub(crate) fn put_tallies(&self, _slot: usize, _tallies: Tallies) {}

    /// A slot past the table panics as `metrics` does.
    pub(crate) fn told_tallies(&self, slot: u8) -> Option<Tallies> {
        drop(self.channel(ChannelIndex(slot)));
        None
    }
}

/// The lines of `send` that cut a job, without the controller between them: every frame by the original's `encode`, one after the other in
/// `out`. The octets written, or nothing where `out` is too short.
pub fn encode_job(buf: &[u8], out: &mut [u8], peer_cid: u16, mps: u16) -> Option<usize> {
    let (first, remaining) = buf.split_at(buf.len().min(mps as usize - 2));
    let mut at = encode(first, &mut out[..], peer_cid, Some(buf.len() as u16)).ok()?;
    let chunks = remaining.chunks(mps as usize);
    for chunk in chunks {
        at += encode(chunk, &mut out[at..], peer_cid, None).ok()?;
    }
    Some(at)
}
