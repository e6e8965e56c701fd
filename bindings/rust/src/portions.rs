//! A job handed over in portions: a value that borrows the buffer in which its frames are filled.

use crate::answer::Given;
use crate::codes::{ChannelIndex, ConnHandle, Refusal};
use crate::manager::ChannelManager;
use crate::table::Standing;

/// The least octets of the buffer that a job of `len` octets is handed over with, for a peer of this MPS: its longest frame, which is the lesser of MPS
/// and `len + 2`, and the frame's header. A buffer of `4 + mps` octets is enough for every job.
///
/// ```
/// # use l2cap_channels::job_buffer_octets;
/// assert_eq!([job_buffer_octets(23, 500), job_buffer_octets(23, 21), job_buffer_octets(23, 3)], [27, 27, 9]);
/// ```
pub const fn job_buffer_octets(mps: u16, len: usize) -> usize {
    let mps = mps as usize;
    // len + 2, without the sum.
    if mps < 2 || mps - 2 < len {
        4 + mps
    } else {
        len + 6
    }
}

/// A job that is open: its length is stated, a credit is set aside for each of its frames, and its octets are given in portions, as they come to be.
///
/// [`ChannelManager::start_job`](crate::ChannelManager::start_job) gives one. It borrows the job's buffer until its end and not the manager that gave it, which is
/// lent to [`give`](Self::give) and free between two portions: frames and signals come in, other channels send, and have jobs open too, each with its own buffer. The
/// frames are those of one [`send`](crate::ChannelManager::send), wherever the portions are cut. The one with the last octet closes the job.
///
/// A sheet that is rendered line by line; no more of it than a line and a frame is in memory:
///
/// ```
/// # use l2cap_channels::*;
/// # fn render(line: usize) -> [u8; 16] { [b'a' + line as u8; 16] }
/// # fn main() -> Result<(), Refusal> {
/// # let mut room = [0; room_octets(2, 2, 64)];
/// # let mut channels = ChannelManager::new(2, 2, 64, &mut room)?;
/// # channels.register_spsm(0x80)?;
/// # let (phone, mut signal) = (ConnHandle(1), [0; SIGNAL_OCTETS]);
/// # channels.feed_pdu(phone, true, LeConnRole::Peripheral, &[0x14, 7, 10, 0, 0x80, 0, 0x50, 0, 100, 0, 23, 0, 5, 0], |_, _| {});
/// # let index = channels.next_pending(phone, true)?.expect("a pending channel").into_index();
/// # channels.accept_pending(index, &L2capChannelConfig::default(), &mut signal)?;
/// # let mut sent = Vec::new();
/// # let mut send_packet = |link: ConnHandle, frame: &[u8]| sent.push((link, frame.to_vec()));
/// // Three lines of sixteen octets, to a phone that takes frames of 23.
/// let mut buffer = [0; 64];
/// let mut job = channels.start_job(index, 3 * 16, &mut buffer)?;
/// for line in 0..3 {
///     job.give_all(&mut channels, &render(line), |link, frame| send_packet(link, frame))?;
/// }
/// assert!(job.is_done());
/// # assert_eq!(sent.iter().map(|(link, frame)| (*link, frame.len())).collect::<Vec<_>>(), [(phone, 27), (phone, 27), (phone, 8)]);
/// # Ok(())
/// # }
/// ```
///
/// Whatever ends the channel closes the job: then `give` is refused by 11 and the value is of no more use. Keep the hold on the slot until then, or until the job's end: a slot without a hold
/// can be given to another phone, whose job this value mostly finds out to be another (8), but not where handle, CID and all numbers are the same.
///
/// One that is dropped before its end calls nothing, as it has no manager: the job stays open, its credits stay set aside, and the slot's next `start_job` or
/// `send` is refused by 24. Who has kept the buffer as it is goes on by [`give_portion`](crate::ChannelManager::give_portion); else
/// [`cancel_job`](crate::ChannelManager::cancel_job) closes it by its slot.
#[derive(Debug)]
#[must_use = "the job stays open, and no other goes out on this channel, until its last octet is given or it is cancelled"]
pub struct OpenJob<'b> {
    index: ChannelIndex,
    /// What the job's last call left of it in the table; none once it is done.
    standing: Option<Standing>,
    buffer: &'b mut [u8],
}

impl<'b> OpenJob<'b> {
    pub(crate) fn of(index: ChannelIndex, standing: Option<Standing>, buffer: &'b mut [u8]) -> Self {
        Self { index, standing, buffer }
    }

    /// The slot of the job's channel.
    pub fn index(&self) -> ChannelIndex {
        self.index
    }

    /// How many octets the job still lacks.
    pub fn left(&self) -> usize {
        self.standing.map_or(0, |standing| usize::from(standing.job.length.saturating_sub(standing.job.taken)))
    }

    /// How many frames are still to come: so many credits are set aside.
    pub fn frames(&self) -> u16 {
        self.standing.map_or(0, |standing| standing.job.aside)
    }

    /// Whether the last frame was given out.
    pub fn is_done(&self) -> bool {
        self.standing.is_none()
    }

    /// Gives the job its next octets, up to where a frame is full: what was taken of them, and that frame. The octets behind are not kept: give them again, or let
    /// [`give_all`](Self::give_all) do so. The frame is part of the buffer, and has to be sent or copied before the next portion.
    ///
    /// An empty portion takes nothing and changes nothing; but of a job of no octets it gives out the one frame.
    ///
    /// Refusals: 1; 11 where the channel isn't open any more; 8 where this job isn't open any more: it is done, or its slot has another; 25 for more octets than
    /// the job still lacks, of which none is taken.
    pub fn give(&mut self, channels: &mut ChannelManager<'_>, octets: &[u8]) -> Result<Given<'_>, Refusal> {
        self.is_the_slots(channels)?;
        let given = channels.give_portion(self.index, octets, self.buffer)?;
        self.standing = channels.table().standing(self.index);
        Ok(given)
    }

    /// Gives the job all of these octets, in as many portions as it takes. `each` gets the link and every frame that fills.
    ///
    /// Refusals: as [`give`](Self::give). 25 is tested first, for all of them: then none is taken.
    pub fn give_all<F>(&mut self, channels: &mut ChannelManager<'_>, octets: &[u8], mut each: F) -> Result<(), Refusal>
    where
        F: FnMut(ConnHandle, &[u8]),
    {
        let mut left = octets;
        loop {
            let given = self.give(channels, left)?;
            if let Some(frame) = given.frame {
                each(given.handle, frame);
            }
            // A portion takes an octet at least, or gives out a frame: it has an end.
            left = left.get(given.taken..).unwrap_or_default();
            if left.is_empty() {
                return Ok(());
            }
        }
    }

    /// Closes the job before its last frame. Where no frame was given out yet its credits come back and the channel stays open; later the peer has half a job,
    /// and the channel disconnects: [`next_disconnect`](crate::ChannelManager::next_disconnect) writes the request.
    ///
    /// Refusals: 1, 2; 11 where the channel isn't open any more; 8 where this job isn't open any more.
    pub fn cancel(self, channels: &mut ChannelManager<'_>) -> Result<(), Refusal> {
        self.is_the_slots(channels)?;
        channels.cancel_job(self.index)
    }

    /// A value that outlived its job must not touch the one that its slot has now: the numbers that this job's last call left, with link and peer CID, tell them apart, but for a job of equal numbers
    /// on a channel with the same handle and CID, which the slot can have only once its hold was released.
    fn is_the_slots(&self, channels: &ChannelManager<'_>) -> Result<(), Refusal> {
        match channels.table().standing(self.index) {
            // The call says what is wrong.
            None if self.standing.is_some() => Ok(()),
            now if now == self.standing && now.is_some() => Ok(()),
            _ => Err(Refusal::NotFound),
        }
    }
}
