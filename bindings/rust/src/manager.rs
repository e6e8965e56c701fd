//! The calls.

use crate::answer::{
    Answer, Attention, ChannelSignal, ConnParamUpdateReq, Frames, Given, L2capChannelConfig, Outgoing, Received, Signalled, Tallies,
    ANSWER_OCTETS,
};
use crate::codes::{ChannelIndex, Cid, ConnHandle, LeConnRole, LeCreditConnResultCode, Refusal};
use crate::entries::{self, Returned};
use crate::hold::{Hold, StillHeld};
use crate::portions::OpenJob;
use crate::run::{Dispatched, FrameRun, JobRun, Sent};
use crate::table::{Table, TABLE_OCTETS};

/// The longest signal that is written: a lent signal buffer has at least so many octets.
pub const SIGNAL_OCTETS: usize = 18;

/// The channels of all links: a table, and the room in which jobs arrive and wait.
///
/// Facts of a link (whether it is up, whether somebody listens, our role) come in with each call. What goes out is written to a buffer that the
/// caller lends, and given back as the part of it that was written.
///
/// Refusals stand at each call in the order in which they are tested: the first that applies is given.
#[derive(Debug)]
pub struct ChannelManager<'r> {
    table: Table,
    room: &'r mut [u8],
}

impl<'r> ChannelManager<'r> {
    /// A table of `channels` slots (1 to 16), in each of which `queue` finished jobs can wait (1 to 4), for packets of `packet` octets (29 to
    /// 1,024). The room has exactly [`room_octets`](crate::room_octets) octets and is zeroed.
    ///
    /// Refusals: 1 for sizes outside the limits, 2 for a room of another length; the room is left as it was.
    pub fn new(channels: u16, queue: u16, packet: u16, room: &'r mut [u8]) -> Result<Self, Refusal> {
        let mut manager = Self { table: Table([0; TABLE_OCTETS]), room };
        manager.make(channels, queue, packet)?;
        Ok(manager)
    }

    /// Makes the table anew, over the same room, which is zeroed. Every channel and every hold is gone with the old one: a [`Hold`] of before ends by
    /// [`into_index`](Hold::into_index).
    ///
    /// Refusals: 1, 2. A refused making leaves a table of no slots, and the room as it was.
    pub fn make(&mut self, channels: u16, queue: u16, packet: u16) -> Result<(), Refusal> {
        // Asked for its name alone: with an archive of another version nothing that makes a table is linked.
        entries::version();
        entries::make(&mut self.table.0, self.room, channels, queue, packet).told().map(|_| ())
    }

    /// Goes on with a table and a room that were kept. Nothing is tested here: each call tests both. [`Hold::of`] takes up the holds that the table
    /// counts, [`Slot::hold`](crate::Slot::hold) of each.
    pub fn from_parts(table: Table, room: &'r mut [u8]) -> Self {
        Self { table, room }
    }

    /// The table and the room.
    pub fn into_parts(self) -> (Table, &'r mut [u8]) {
        (self.table, self.room)
    }

    /// The table as it stands.
    pub fn table(&self) -> &Table {
        &self.table
    }

    /// The room as it stands. Every octet that belongs to no live job is zero.
    pub fn room(&self) -> &[u8] {
        self.room
    }

    /// Lets peers connect to an SPSM, 1 to 255, on every link.
    ///
    /// Refusals: 1, 5.
    pub fn register_spsm(&mut self, spsm: u16) -> Result<(), Refusal> {
        entries::register_spsm(&mut self.table.0, spsm).told().map(|_| ())
    }

    // ---- signals

    /// Handles the first signal of a PDU that came on the signalling channel (without its L2CAP header), after a check of every header in it.
    /// `listening` says whether somebody would accept a channel on this link now.
    ///
    /// The reply, where there is one, goes out whether the signal was refused or not. Call again with the rest until that is empty, or let
    /// [`feed_pdu`](Self::feed_pdu) do so.
    ///
    /// A connect request that we turn down isn't refused: the reply says so to the peer. Its result is 2 where the SPSM isn't registered, 4 where nobody listens, 11
    /// where its MTU or MPS is under [`SIZE_LEAST`](crate::SIZE_LEAST), 10 where its CID is in use on this link, 4 where no slot is free: the first that applies.
    ///
    /// Refusals: 1, 2, 3, 4; 15 and 9 by the header check, which leave no rest; then by the signal 16 for an unknown code and 15 for a bad body; 8
    /// for credits that fit no channel, and for a connect response that fits no attempt, which has closed the slot of every attempt of this link; 17 for a connect
    /// response that refuses, which leaves the slot [`ConnectFailed`](crate::ChannelState::ConnectFailed) until [`opened`](Self::opened) or
    /// [`give_up`](Self::give_up) closes it; 9 for one that accepts with an MTU or MPS under [`SIZE_LEAST`](crate::SIZE_LEAST), and for credits above 65,535, with
    /// those set aside for an open job, which leave the channel disconnecting.
    ///
    /// After 9 the peer still believes in the channel: [`next_disconnect`](Self::next_disconnect) writes the request that tells it, and has to be called before
    /// [`opened`](Self::opened), which would close the slot and leave that request unwritten.
    ///
    /// An old handset that asks for frames of 10 octets:
    ///
    /// ```
    /// # use l2cap_channels::*;
    /// # fn main() -> Result<(), Refusal> {
    /// # let mut room = [0; room_octets(2, 1, 64)];
    /// # let mut channels = ChannelManager::new(2, 1, 64, &mut room)?;
    /// # channels.register_spsm(0x80)?;
    /// # let (handset, mut reply) = (ConnHandle(1), [0; SIGNAL_OCTETS]);
    /// let request = [0x14, 7, 10, 0, 0x80, 0, 0x50, 0, 100, 0, 10, 0, 5, 0];
    /// let told = channels.signal(handset, true, LeConnRole::Peripheral, &request, &mut reply);
    /// assert_eq!(told.outcome, Ok(None));
    /// assert_eq!(told.reply, [14, 0, 5, 0, 0x15, 7, 10, 0, 0, 0, 0, 0, 0, 0, 0, 0, 0x0B, 0]); // result 0x000B, UnacceptableParameters
    /// assert_eq!(channels.next_pending(handset, true), Ok(None)); // and nothing waits
    ///
    /// // It asks once more, with the least that Core allows: now there is something to accept.
    /// let request = [0x14, 8, 10, 0, 0x80, 0, 0x50, 0, 100, 0, SIZE_LEAST as u8, 0, 5, 0];
    /// assert_eq!(channels.signal(handset, true, LeConnRole::Peripheral, &request, &mut reply).reply, []);
    /// let hold = channels.next_pending(handset, true)?.expect("a pending channel");
    /// # hold.into_index();
    /// # Ok(())
    /// # }
    /// ```
    pub fn signal<'p, 'b>(
        &mut self,
        handle: ConnHandle,
        listening: bool,
        role: LeConnRole,
        pdu: &'p [u8],
        reply: &'b mut [u8],
    ) -> Signalled<'p, 'b> {
        let central = role == LeConnRole::Central;
        let returned = entries::signal(&mut self.table.0, self.room, reply, handle.0, listening.into(), central.into(), pdu);
        let rest = pdu.len().checked_sub(entries::signal_rest(pdu)).and_then(|start| pdu.get(start..)).unwrap_or(&[]);
        let reply = returned.answer.written(reply);
        Signalled { outcome: returned.told().map(|answer| answer.event()), reply, rest }
    }

    /// Handles every signal of a PDU. `each` gets what each came to and its reply, which is empty where nothing goes back.
    ///
    /// Each signal's call checks every header of what is left, so that the time grows with the square of the signals: a PDU of 65,532 octets can hold
    /// the caller for half a second. Drop one longer than 23 octets, which hold each signal that Core has for LE, or at most take what fits in one of your packets.
    ///
    /// Refusals: of each signal those of [`signal`](Self::signal), but for 3.
    pub fn feed_pdu<F>(&mut self, handle: ConnHandle, listening: bool, role: LeConnRole, pdu: &[u8], mut each: F)
    where
        F: FnMut(Result<Option<ConnParamUpdateReq>, Refusal>, &[u8]),
    {
        let mut left = pdu;
        loop {
            let mut reply = [0; SIGNAL_OCTETS];
            let one = self.signal(handle, listening, role, left, &mut reply);
            each(one.outcome, one.reply);
            // The rest is always shorter than what was given.
            if one.rest.is_empty() || one.rest.len() >= left.len() {
                return;
            }
            left = one.rest;
        }
    }

    /// Asks the peer for other connection parameters; what is written goes out on this link.
    ///
    /// Refusals: 1, 3, 4.
    pub fn send_conn_param_update_req<'b>(
        &mut self,
        handle: ConnHandle,
        req: &ConnParamUpdateReq,
        buffer: &'b mut [u8],
    ) -> Result<Outgoing<'b>, Refusal> {
        let answer = entries::send_conn_param_update_req(
            &mut self.table.0,
            buffer,
            handle.0,
            req.interval_min,
            req.interval_max,
            req.latency,
            req.timeout,
        )
        .told()?;
        Ok(Outgoing { handle, octets: answer.written(buffer) })
    }

    /// Answers a peer's wish for other connection parameters: 0 takes it, 1 refuses it. The response has our next identifier, and not the request's, as
    /// Core (Vol 3 Part A, 4.21) would have it: a peer that compares them passes it over.
    ///
    /// Refusals: 1, 3, 4.
    pub fn send_conn_param_update_res<'b>(
        &mut self,
        handle: ConnHandle,
        result: u16,
        buffer: &'b mut [u8],
    ) -> Result<Outgoing<'b>, Refusal> {
        let answer = entries::send_conn_param_update_res(&mut self.table.0, buffer, handle.0, result).told()?;
        Ok(Outgoing { handle, octets: answer.written(buffer) })
    }

    // ---- channels that a peer opens

    /// A hold on the lowest slot of this link with a connect request that waits; none where none waits. `up` says whether the link is up.
    ///
    /// What comes next is [`accept_pending`](Self::accept_pending), [`reject_pending`](Self::reject_pending) or
    /// [`drop_pending`](Self::drop_pending). The last two end the hold; after an accept, and where the phone closed meanwhile,
    /// [`dec_ref`](Self::dec_ref) does.
    ///
    /// Refusals: 1, 4; 22 where that slot is held already; 18 where none waits and the link is down.
    pub fn next_pending(&mut self, handle: ConnHandle, up: bool) -> Result<Option<Hold>, Refusal> {
        entries::next_pending(&mut self.table.0, handle.0, up.into()).told().map(|answer| answer.slot().map(Hold::of))
    }

    /// Opens a pending channel. The hold stays, for whoever uses the channel: [`dec_ref`](Self::dec_ref) ends it, and with it the channel.
    ///
    /// Our own MTU or MPS under [`SIZE_LEAST`](crate::SIZE_LEAST) is not refused: a peer that keeps to Core disconnects such a channel.
    ///
    /// Refusals: 1, 3, 6; 12 for MPS, then MTU; 8 where nothing is pending in this slot; 22 without a hold.
    pub fn accept_pending<'b>(
        &mut self,
        index: ChannelIndex,
        config: &L2capChannelConfig,
        buffer: &'b mut [u8],
    ) -> Result<Outgoing<'b>, Refusal> {
        let (mtu, mps, kind, value, credits) = config.numbers();
        let answer = entries::accept_pending(&mut self.table.0, buffer, index.0, mtu, mps, kind, value, credits).told()?;
        Ok(answer.outgoing(buffer))
    }

    /// Refuses a pending channel, closes its slot and ends the hold.
    ///
    /// Refusals, which give the hold back: 1, 2, 3, 6; 8 where nothing is pending in this slot; 22 where the table counts no hold.
    pub fn reject_pending<'b>(
        &mut self,
        hold: Hold,
        result: LeCreditConnResultCode,
        buffer: &'b mut [u8],
    ) -> Result<Outgoing<'b>, StillHeld> {
        match entries::reject_pending(&mut self.table.0, self.room, buffer, hold.index().0, result.number()).told() {
            Ok(answer) => {
                hold.into_index();
                Ok(answer.outgoing(buffer))
            }
            Err(refusal) => Err(StillHeld::of(refusal, hold)),
        }
    }

    /// Refuses the lowest pending channel of this link that nobody holds, by [`NoResources`](LeCreditConnResultCode::NoResources), so that its slot is
    /// free; none where there is none. Call it until then.
    ///
    /// Refusals: 1, 2, 3, 4.
    pub fn reject_all_pending<'b>(&mut self, handle: ConnHandle, buffer: &'b mut [u8]) -> Result<Option<ChannelSignal<'b>>, Refusal> {
        let answer = entries::reject_all_pending(&mut self.table.0, self.room, buffer, handle.0).told()?;
        Ok(answer.at(handle, buffer))
    }

    /// Lets go of a pending channel without an answer to the peer: ends the hold, and closes the slot. Where the peer closed meanwhile it ends the hold
    /// alone. Where the channel is open it does nothing, and the hold comes back in `Ok(Some(_))`: [`dec_ref`](Self::dec_ref) ends that one.
    ///
    /// Refusals, which give the hold back: 1, 2, 6; 22 where the table counts no hold.
    pub fn drop_pending(&mut self, hold: Hold) -> Result<Option<Hold>, StillHeld> {
        let before = self.table.holds(hold.index());
        match entries::drop_pending(&mut self.table.0, self.room, hold.index().0).told() {
            // The answer is the same for an open channel: the count tells.
            Ok(_) if self.table.holds(hold.index()) == before => Ok(Some(hold)),
            Ok(_) => {
                hold.into_index();
                Ok(None)
            }
            Err(refusal) => Err(StillHeld::of(refusal, hold)),
        }
    }

    // ---- channels that we open

    /// Takes a slot and writes a connect request. Nobody holds the slot yet: [`opened`](Self::opened) gives the hold once the peer has accepted, and
    /// [`give_up`](Self::give_up) ends the attempt.
    ///
    /// Our own MTU or MPS under [`SIZE_LEAST`](crate::SIZE_LEAST) is not refused: a peer that keeps to Core refuses such a request, by
    /// [`UnacceptableParameters`](LeCreditConnResultCode::UnacceptableParameters).
    ///
    /// Refusals: 1, 3, 4; 12 for MPS, then MTU; 13 where no slot is free. 12 and 13 have used an identifier.
    pub fn create<'b>(
        &mut self,
        handle: ConnHandle,
        spsm: u16,
        config: &L2capChannelConfig,
        buffer: &'b mut [u8],
    ) -> Result<ChannelSignal<'b>, Refusal> {
        let (mtu, mps, kind, value, credits) = config.numbers();
        let answer = entries::create(&mut self.table.0, buffer, handle.0, spsm, mtu, mps, kind, value, credits).told()?;
        // An answer to a create has its slot.
        answer.at(handle, buffer).ok_or(Refusal::BadTable)
    }

    /// A hold on the channel that we asked for, once it is open; none where the peer hasn't answered. [`dec_ref`](Self::dec_ref) ends the hold, and
    /// with it the channel.
    ///
    /// Refusals: 1, 2, 4, 6; 18 where the slot is closed; 8 where it is another link's; 18 where the link is down or the channel disconnects, and 17
    /// where the peer refused: these two have closed the slot, and a disconnect that was due is written no more; 22 where it is held already.
    ///
    /// So [`next_disconnect`](Self::next_disconnect) comes first, until none is due. A phone that accepts with frames of 22 octets, under
    /// [`SIZE_LEAST`](crate::SIZE_LEAST), would else never hear that there is no channel:
    ///
    /// ```
    /// # use l2cap_channels::*;
    /// # fn main() -> Result<(), Refusal> {
    /// # let mut room = [0; room_octets(2, 1, 64)];
    /// # let mut channels = ChannelManager::new(2, 1, 64, &mut room)?;
    /// # let (phone, mut signal) = (ConnHandle(1), [0; SIGNAL_OCTETS]);
    /// let attempt = channels.create(phone, 0x80, &L2capChannelConfig::default(), &mut signal)?.index;
    /// let response = [0x15, 1, 10, 0, 0x50, 0, 100, 0, 22, 0, 5, 0, 0, 0]; // accepted, from the phone's CID 0x50
    /// let told = channels.signal(phone, true, LeConnRole::Central, &response, &mut signal);
    /// assert_eq!(told.outcome, Err(Refusal::InvalidValue));
    ///
    /// let request = channels.next_disconnect(&mut signal)?.expect("a disconnect that is due");
    /// assert_eq!(request.octets, [8, 0, 5, 0, 0x06, 2, 4, 0, 0x50, 0, 0x40, 0]); // it names the phone's channel
    /// assert_eq!(channels.opened(attempt, phone, true), Err(Refusal::Disconnected)); // the slot is free
    /// # Ok(())
    /// # }
    /// ```
    pub fn opened(&mut self, index: ChannelIndex, handle: ConnHandle, up: bool) -> Result<Option<Hold>, Refusal> {
        let answer = entries::opened(&mut self.table.0, self.room, index.0, handle.0, up.into()).told()?;
        Ok(answer.is_opened().then(|| Hold::of(index)))
    }

    /// Gives up an attempt of ours, waiting or failed, or an open channel that nobody holds, and closes its slot. The peer isn't told.
    ///
    /// Refusals: 1, 2, 6; 8 where the slot has neither.
    pub fn give_up(&mut self, index: ChannelIndex) -> Result<(), Refusal> {
        entries::give_up(&mut self.table.0, self.room, index.0).told().map(|_| ())
    }

    // ---- holds and ends

    /// One hold more, in every state of the slot.
    ///
    /// Refusals: 1, 6; 22 at 255 holds.
    pub fn inc_ref(&mut self, index: ChannelIndex) -> Result<Hold, Refusal> {
        entries::inc_ref(&mut self.table.0, index.0).told().map(|_| Hold::of(index))
    }

    /// One hold less. The last one of an open channel lets it disconnect: [`next_disconnect`](Self::next_disconnect) writes the request. The last one
    /// of a slot that is closed makes it free for the next.
    ///
    /// Refusals, which give the hold back: 1, 2, 6; 22 where the table counts no hold.
    pub fn dec_ref(&mut self, hold: Hold) -> Result<(), StillHeld> {
        match entries::dec_ref(&mut self.table.0, self.room, hold.index().0).told() {
            Ok(_) => {
                hold.into_index();
                Ok(())
            }
            Err(refusal) => Err(StillHeld::of(refusal, hold)),
        }
    }

    /// Lets an open channel disconnect; nothing in another state. The request is written by [`next_disconnect`](Self::next_disconnect). Holds stay
    /// until [`dec_ref`](Self::dec_ref) ends them.
    ///
    /// The peer's response closes the slot. A peer that never answers keeps it while its link is up: after a timeout of yours
    /// [`opened`](Self::opened) of that slot closes it, and says so by 18.
    ///
    /// Refusals: 1, 2, 6.
    pub fn disconnect(&mut self, index: ChannelIndex) -> Result<(), Refusal> {
        entries::disconnect(&mut self.table.0, self.room, index.0).told().map(|_| ())
    }

    /// The same by CID; nothing for a CID of no slot.
    ///
    /// Refusals: 1, 2.
    pub fn disconnect_by_cid(&mut self, cid: Cid) -> Result<(), Refusal> {
        entries::disconnect_by_cid(&mut self.table.0, self.room, cid.0).told().map(|_| ())
    }

    /// The link is down: closes all its slots, and zeroes what they held in the room. Holds stay: [`dec_ref`](Self::dec_ref) ends each, and until then no
    /// other channel gets the slot. [`Table::held`] has the slots that wait for it.
    ///
    /// Refusals: 1, 2, 4.
    pub fn disconnected(&mut self, handle: ConnHandle) -> Result<(), Refusal> {
        entries::disconnected(&mut self.table.0, self.room, handle.0).told().map(|_| ())
    }

    /// Writes the next disconnect that is due, the lowest slot's: the response to a peer's request, which closes the slot, or our request, after which
    /// the peer's response closes it; none where none is due. Jobs that wait in a slot are gone with a response: take them first. Holds stay until
    /// [`dec_ref`](Self::dec_ref) ends them. A request is written once: of a peer that never answers it [`disconnect`](Self::disconnect) has more.
    ///
    /// Refusals: 1, 2, 3.
    pub fn next_disconnect<'b>(&mut self, buffer: &'b mut [u8]) -> Result<Option<ChannelSignal<'b>>, Refusal> {
        let answer = entries::next_disconnect(&mut self.table.0, self.room, buffer).told()?;
        Ok(answer.due(buffer))
    }

    // ---- jobs

    /// Takes in a frame that came on a link: its CID, and its payload behind the L2CAP header. Nothing where the channel isn't open.
    ///
    /// Refusals: 1, 2, 4; 7 for a CID of no slot; 8 for another link's open channel; 10 without a credit, which [`tallies`](Self::tallies) counts and which changes
    /// nothing else; then, with the credit used, 9 for a payload above our MPS, be it a job's first, whose two length octets count, or a later one, 19 for a job's first of less than two octets, 9 for a job above our MTU and for more
    /// octets than the job has: these leave the channel disconnecting, and nothing of the job; jobs that wait stay. 21 drops the job, and the channel stays open.
    pub fn dispatch(&mut self, handle: ConnHandle, cid: Cid, payload: &[u8]) -> Result<(), Refusal> {
        entries::dispatch(&mut self.table.0, self.room, handle.0, cid.0, payload).told().map(|_| ())
    }

    /// Cuts a job into frames, and uses a credit for each.
    ///
    /// Refusals: 1, 6; 11 where the channel isn't open; 24 where a job is open in this slot; 12 above the peer's MTU; 23 above 65,533 octets; 20 where the
    /// peer's MPS is under 23, as no call leaves one; 14 where the credits don't suffice, which [`tallies`](Self::tallies) counts and which changes nothing else; 3 where
    /// `out` is too short.
    pub fn send<'b>(&mut self, index: ChannelIndex, sdu: &[u8], out: &'b mut [u8]) -> Result<Frames<'b>, Refusal> {
        let answer = entries::send(&mut self.table.0, out, index.0, sdu).told()?;
        Ok(answer.frames(out))
    }

    /// Opens a job of `len` octets that is handed over in portions, as they come to be, and sets a credit aside for each of its frames. Its frames are filled in
    /// `buffer`, of [`job_buffer_octets`](crate::job_buffer_octets) octets or more, which the [`OpenJob`] borrows until its end. Nothing goes out yet.
    ///
    /// Refusals: 1, 6; 11 where the channel isn't open; 24 where a job is open in this slot; 12 above the peer's MTU; 23 above 65,533 octets; 20 where the
    /// peer's MPS is under 23, as no call leaves one; 14 where the credits don't suffice, counted as [`send`](Self::send)'s is; 3 where `buffer` is too short.
    pub fn start_job<'b>(&mut self, index: ChannelIndex, len: usize, buffer: &'b mut [u8]) -> Result<OpenJob<'b>, Refusal> {
        entries::start_job(&mut self.table.0, buffer, index.0, len).told()?;
        Ok(OpenJob::of(index, self.table.standing(index), buffer))
    }

    /// Gives the open job of a slot its next octets. [`OpenJob::give`] does so with the buffer that the job borrows; this is for who can't borrow it for so long,
    /// and keeps buffers in a place of their own: one for each open job, lent to every portion of that job as its last call left it, from
    /// [`start_job`](Self::start_job) on. That isn't tested: with another buffer the frames carry what stands there. Nor is whose job it is: keep the hold on the slot until the job's end, or until 11
    /// says that the channel has ended.
    ///
    /// Refusals: 1, 6; 11 where the channel isn't open; 8 where no job is open; 3 where `buffer` is too short for that job; 25 for more octets than the job still
    /// lacks, of which none is taken.
    pub fn give_portion<'b>(&mut self, index: ChannelIndex, octets: &[u8], buffer: &'b mut [u8]) -> Result<Given<'b>, Refusal> {
        let answer = entries::give_portion(&mut self.table.0, buffer, index.0, octets).told()?;
        Ok(answer.given(buffer, self.table.standing(index).is_none()))
    }

    /// Closes the open job of a slot before its last frame, as [`OpenJob::cancel`] does: for a job whose value was dropped. Where no frame was given out yet its
    /// credits come back and the channel stays open; later the peer has half a job, and the channel disconnects.
    ///
    /// Refusals: 1, 2, 6; 11 where the channel isn't open; 8 where no job is open.
    pub fn cancel_job(&mut self, index: ChannelIndex) -> Result<(), Refusal> {
        entries::cancel_job(&mut self.table.0, self.room, index.0).told().map(|_| ())
    }

    /// Takes in the frames of a run, one after the other, as so many calls of [`dispatch`](Self::dispatch) would: what each came to is given in their order. The
    /// table is tested once for all of them. A frame that is refused doesn't end the run: the next is taken in.
    ///
    /// Frames that were taken in, refused or not, leave the run. Where `answers` has fewer places than the run has frames, the others stay in it: call again until
    /// the run is empty. Nothing is taken between two frames of a run, so that a slot has no more places for jobs than before it: a run brings at most as many jobs
    /// a slot as can wait, or the rest is refused by 21.
    ///
    /// Refusals, with which no frame was taken in and all are still in the run: 1, 2; 3 where `answers` has no place. Of each frame those of
    /// [`dispatch`](Self::dispatch).
    ///
    /// ```
    /// # use l2cap_channels::*;
    /// # fn main() -> Result<(), Box<dyn core::error::Error>> {
    /// # let mut room = [0; room_octets(2, 2, 64)];
    /// # let mut channels = ChannelManager::new(2, 2, 64, &mut room)?;
    /// # channels.register_spsm(0x80)?;
    /// # let (phone, mut signal) = (ConnHandle(1), [0; SIGNAL_OCTETS]);
    /// # channels.feed_pdu(phone, true, LeConnRole::Peripheral, &[0x14, 7, 10, 0, 0x80, 0, 0x50, 0, 100, 0, 23, 0, 5, 0], |_, _| {});
    /// # let index = channels.next_pending(phone, true)?.expect("a pending channel").into_index();
    /// # channels.accept_pending(index, &L2capChannelConfig::default(), &mut signal)?;
    /// // What the controller has for us: half a job, the other half, and a frame for no channel.
    /// let came: [(ConnHandle, Cid, &[u8]); 3] = [(phone, Cid(0x40), &[3, 0, b'j']), (phone, Cid(0x40), b"ob"), (phone, Cid(0x7F), &[0, 0])];
    ///
    /// let (mut octets, mut answers) = ([0; 256], [[0; ANSWER_OCTETS]; 8]);
    /// let (mut run, mut frames) = (FrameRun::new(&mut octets), came.into_iter().peekable());
    /// let mut came_to = Vec::new();
    /// while frames.peek().is_some() {
    ///     run.fill(&mut frames)?;
    ///     while !run.is_empty() {
    ///         came_to.extend(channels.dispatch_run(&mut run, &mut answers)?);
    ///     }
    /// }
    /// assert_eq!(came_to, [Ok(()), Ok(()), Err(Refusal::InvalidChannelId)]);
    /// assert_eq!(channels.receive(index, &mut [0; 58], &mut signal)?.expect("a job").sdu, b"job");
    /// # Ok(())
    /// # }
    /// ```
    pub fn dispatch_run<'a>(&mut self, run: &mut FrameRun<'_>, answers: &'a mut [[u8; ANSWER_OCTETS]]) -> Result<Dispatched<'a>, Refusal> {
        let returned = entries::dispatch_run(&mut self.table.0, self.room, run.left(), answers.as_flattened_mut());
        run.made(returned, answers)
    }

    /// Cuts the jobs of a run into frames, one job after the other, as so many calls of [`send`](Self::send) would, each with what the jobs before it left of `out`:
    /// the frames of each, or why it was not sent, are given in their order. The table is tested once for all of them.
    ///
    /// A job that is refused doesn't end the run: the next is tried. So of two jobs for one channel the first can be refused, by 14 or 3, and the second, which is
    /// shorter, goes out. Where jobs of a channel must keep their order, a run has one of them.
    ///
    /// Jobs that were tried, sent or not, leave the run. Where `answers` has fewer places than the run has jobs, the others stay in it: call again until the run
    /// is empty, once the frames are out of `out`; the next call's first is the first that stayed. A job that was refused can't be read from the run any more: keep it until it is sent.
    ///
    /// Refusals, with which no job was tried and all are still in the run: 1; 3 where `answers` has no place. Of each job those of [`send`](Self::send).
    ///
    /// ```
    /// # use l2cap_channels::*;
    /// # fn main() -> Result<(), Box<dyn core::error::Error>> {
    /// # let mut room = [0; room_octets(2, 2, 64)];
    /// # let mut channels = ChannelManager::new(2, 2, 64, &mut room)?;
    /// # channels.register_spsm(0x80)?;
    /// # let (phone, mut signal) = (ConnHandle(1), [0; SIGNAL_OCTETS]);
    /// # channels.feed_pdu(phone, true, LeConnRole::Peripheral, &[0x14, 7, 10, 0, 0x80, 0, 0x50, 0, 100, 0, 23, 0, 2, 0], |_, _| {});
    /// # let index = channels.next_pending(phone, true)?.expect("a pending channel").into_index();
    /// # channels.accept_pending(index, &L2capChannelConfig::default(), &mut signal)?;
    /// // The phone takes frames of 23 octets, and has given us two credits.
    /// let (mut octets, mut out, mut answers) = ([0; 256], [0; 256], [[0; ANSWER_OCTETS]; 8]);
    /// let mut run = JobRun::new(&mut octets);
    /// run.push(index, b"printed")?;
    /// run.push(index, &[b'.'; 60])?;
    /// run.push(index, b"paper is low")?;
    ///
    /// let (mut sent, mut refused) = (Vec::new(), Vec::new());
    /// for (job, frames) in channels.send_run(&mut run, &mut out, &mut answers)?.enumerate() {
    ///     match frames {
    ///         Ok(frames) => sent.extend(frames.iter().map(|frame| (frames.handle, frame.len()))),
    ///         Err(refusal) => refused.push((job, refusal)), // keep the job
    ///     }
    /// }
    /// // The second job needs three credits. The third goes out before it.
    /// assert_eq!(refused, [(1, Refusal::Busy)]);
    /// assert_eq!(sent, [(phone, 13), (phone, 18)]);
    /// # Ok(())
    /// # }
    /// ```
    pub fn send_run<'o, 'a>(
        &mut self,
        run: &mut JobRun<'_>,
        out: &'o mut [u8],
        answers: &'a mut [[u8; ANSWER_OCTETS]],
    ) -> Result<Sent<'o, 'a>, Refusal> {
        let returned = entries::send_run(&mut self.table.0, out, run.left(), answers.as_flattened_mut());
        run.made(returned, out, answers)
    }

    /// Takes the oldest job that waits, whole, into the start of `sdu`, and grants the peer new credits where they are due; none where no job waits, however short `sdu` is.
    /// While the channel disconnects nothing is granted.
    ///
    /// Refusals: 1, 2, 3, 6; 11 where the slot is closed, or its channel isn't open yet or failed; 12 where the job is longer than `sdu`, also while the channel
    /// disconnects. After a 12 nothing has changed, and nothing was written to `sdu` or `buffer`: the job is the oldest still, later ones wait behind it, no credits went
    /// back, no identifier is used, and [`attention`](Self::attention) goes on naming the slot. Take it with a longer buffer. One of the slot's [`mtu`](Self::mtu) is never
    /// too short; ask it while the channel is open or disconnecting, as a slot that is closed has 0 and no job. The same buffer is refused again for ever, so that a loop
    /// that takes until there is none ends at a refusal, as `?` and `while let Ok(Some(_))` do. Where the peer disconnects, [`next_disconnect`](Self::next_disconnect) wipes what
    /// still waits: take it before.
    ///
    /// ```
    /// # use l2cap_channels::*;
    /// # fn main() -> Result<(), Box<dyn core::error::Error>> {
    /// # let mut room = [0; room_octets(2, 2, 64)];
    /// # let mut channels = ChannelManager::new(2, 2, 64, &mut room)?;
    /// # channels.register_spsm(0x80)?;
    /// # let (phone, mut signal) = (ConnHandle(1), [0; SIGNAL_OCTETS]);
    /// # channels.feed_pdu(phone, true, LeConnRole::Peripheral, &[0x14, 7, 10, 0, 0x80, 0, 0x50, 0, 100, 0, 23, 0, 5, 0], |_, _| {});
    /// # let index = channels.next_pending(phone, true)?.expect("a pending channel").into_index();
    /// # channels.accept_pending(index, &L2capChannelConfig::default(), &mut signal)?;
    /// channels.dispatch(phone, index.cid(), b"\x0d\x00|||4006381333")?;
    ///
    /// // A tray for eight octets, and a barcode of thirteen: not half of it comes out.
    /// let mut tray = [0; 8];
    /// assert_eq!(channels.receive(index, &mut tray, &mut signal), Err(Refusal::InsufficientSpace));
    /// assert_eq!(tray, [0; 8]);
    ///
    /// // It waits on, and its slot calls. A buffer of the slot's MTU holds every job that waits there.
    /// assert_eq!(channels.attention()?.lowest, Some(index));
    /// let mut tray = vec![0; channels.mtu(index)?.into()];
    /// let taken = channels.receive(index, &mut tray, &mut signal)?.expect("a job");
    /// assert_eq!(taken.sdu, b"|||4006381333");
    /// assert_eq!(taken.credits, [8, 0, 5, 0, 0x16, 1, 4, 0, 0x40, 0, 1, 0]);
    ///
    /// // No job waits: that needs no buffer.
    /// assert_eq!(channels.receive(index, &mut [], &mut signal), Ok(None));
    /// # Ok(())
    /// # }
    /// ```
    pub fn receive<'j, 'b>(
        &mut self,
        index: ChannelIndex,
        sdu: &'j mut [u8],
        buffer: &'b mut [u8],
    ) -> Result<Option<Received<'j, 'b>>, Refusal> {
        let answer = entries::receive(&mut self.table.0, self.room, buffer, sdu, index.0).told()?;
        Ok(answer.job(sdu, buffer))
    }

    // ---- questions

    /// A question about a slot.
    fn ask(&self, question: fn(&[u8; TABLE_OCTETS], u8) -> Returned, index: ChannelIndex) -> Result<Answer, Refusal> {
        question(&self.table.0, index.0).told()
    }

    /// A slot's number.
    fn asked(&self, question: fn(&[u8; TABLE_OCTETS], u8) -> Returned, index: ChannelIndex) -> Result<u16, Refusal> {
        self.ask(question, index).map(|answer| answer.first())
    }

    /// A slot's tally.
    fn tallied(&self, question: fn(&[u8; TABLE_OCTETS], u8) -> Returned, index: ChannelIndex) -> Result<u64, Refusal> {
        self.ask(question, index).map(|answer| answer.tally())
    }

    /// The slots that call for something.
    ///
    /// Refusal: 1.
    pub fn attention(&self) -> Result<Attention, Refusal> {
        entries::attention(&self.table.0).told().map(|answer| answer.attention())
    }

    /// The channel's SPSM; 0 where the slot is closed.
    ///
    /// Refusals: 1, 6.
    pub fn spsm(&self, index: ChannelIndex) -> Result<u16, Refusal> {
        self.asked(entries::spsm, index)
    }

    /// The longest job that we take on this channel: a buffer of so many octets holds every job that waits there ([`receive`](Self::receive)). 0 where the slot is closed, and for a peer's request that was never accepted.
    ///
    /// Refusals: 1, 6.
    pub fn mtu(&self, index: ChannelIndex) -> Result<u16, Refusal> {
        self.asked(entries::mtu, index)
    }

    /// The longest frame payload that we take on this channel; a longer one ends it ([`dispatch`](Self::dispatch), 9). 0 where the slot is closed, and for a
    /// peer's request that was never accepted.
    ///
    /// Refusals: 1, 6.
    pub fn mps(&self, index: ChannelIndex) -> Result<u16, Refusal> {
        self.asked(entries::mps, index)
    }

    /// The longest job that the peer takes; 0 where the slot is closed, and for an attempt of ours that it never accepted.
    ///
    /// Refusals: 1, 6.
    pub fn peer_mtu(&self, index: ChannelIndex) -> Result<u16, Refusal> {
        self.asked(entries::peer_mtu, index)
    }

    /// The longest frame payload that the peer takes; 0 where the slot is closed, and for an attempt of ours that it never accepted.
    ///
    /// Refusals: 1, 6.
    pub fn peer_mps(&self, index: ChannelIndex) -> Result<u16, Refusal> {
        self.asked(entries::peer_mps, index)
    }

    /// What the channel of a slot came to, for a service screen: frames sent and received, and the sends and frames that were refused for want of credits. Zeros where the
    /// slot is closed.
    ///
    /// They begin at zeros with each channel, and wrap at 64 bits. When our side ends an open channel they are zeros at once: by [`disconnect`](Self::disconnect),
    /// [`disconnect_by_cid`](Self::disconnect_by_cid) or the last [`dec_ref`](Self::dec_ref), by a frame that is refused by 9 or 19, by credits above 65,535, and by a cancel after
    /// a job's first frame. So what a frame that broke its channel came to isn't seen here any more. Where the peer disconnects they stand until the slot is closed, by
    /// [`next_disconnect`](Self::next_disconnect), [`opened`](Self::opened) or a link that goes down: read them before. The next owner of a slot finds zeros.
    ///
    /// 14 and 10 change their tally and nothing else; no other refusal counts, and a question changes nothing.
    ///
    /// Refusals: 1, 6.
    ///
    /// ```
    /// # use l2cap_channels::*;
    /// # fn main() -> Result<(), Box<dyn core::error::Error>> {
    /// # let mut room = [0; room_octets(2, 1, 64)];
    /// # let mut channels = ChannelManager::new(2, 1, 64, &mut room)?;
    /// # channels.register_spsm(0x80)?;
    /// # let (phone, mut signal, mut out) = (ConnHandle(1), [0; SIGNAL_OCTETS], [0; 256]);
    /// # channels.feed_pdu(phone, true, LeConnRole::Peripheral, &[0x14, 7, 10, 0, 0x80, 0, 0x50, 0, 100, 0, 23, 0, 5, 0], |_, _| {});
    /// # let index = channels.next_pending(phone, true)?.expect("a pending channel").into_index();
    /// # channels.accept_pending(index, &L2capChannelConfig::default(), &mut signal)?;
    /// // The phone has given us five credits. A sheet of 60 octets is three frames; a second one has to wait.
    /// channels.send(index, &[b'.'; 60], &mut out)?;
    /// assert_eq!(channels.send(index, &[b'.'; 60], &mut out), Err(Refusal::Busy));
    /// // It has one credit of ours, and sends two frames.
    /// channels.dispatch(phone, index.cid(), b"\x03\0job")?;
    /// assert_eq!(channels.dispatch(phone, index.cid(), b"\x03\0job"), Err(Refusal::OutOfMemory));
    /// assert_eq!(channels.tallies(index)?, Tallies { sent: 3, received: 1, blocked_sends: 1, blocked_receives: 1 });
    ///
    /// // The phone closes its channel: they stand, until our response closes the slot.
    /// channels.feed_pdu(phone, true, LeConnRole::Peripheral, &[0x06, 8, 4, 0, 0x40, 0, 0x50, 0], |_, _| {});
    /// assert_eq!(channels.tallies(index)?.sent, 3);
    /// channels.next_disconnect(&mut signal)?;
    /// assert_eq!(channels.tallies(index)?, Tallies::default());
    /// # Ok(())
    /// # }
    /// ```
    pub fn tallies(&self, index: ChannelIndex) -> Result<Tallies, Refusal> {
        Ok(Tallies {
            sent: self.tallied(entries::tally_sent, index)?,
            received: self.tallied(entries::tally_received, index)?,
            blocked_sends: self.tallied(entries::tally_blocked_sends, index)?,
            blocked_receives: self.tallied(entries::tally_blocked_receives, index)?,
        })
    }
}
