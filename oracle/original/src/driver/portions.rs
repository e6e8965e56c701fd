//! Jobs handed over in portions. The original has none: it sends a job whole, and holds a grant of credits meanwhile. So a start has it send a job of that length, all zeros, and keeps the frames'
//! sizes and the grant; a portion that fills a frame has it send what is known of the job, zeros behind, and gives out that frame of it; the last one gives out the last frame of the whole job, and the ones before it are
//! looked at again. What closes a job drops the grant, which gives the original's record back what the original gives back. Document 02's words decide the rest: when a frame is full, and refusals 3, 8 and 25.

use super::{reasons, Driver};
use crate::channel_manager::{ChannelState, CreditGrant};
use crate::stand_ins::pool::Octets;
use language::{JobView, Row, Tallies};

const HEAD: usize = 4;

/// A job that is open.
pub(super) struct OpenJob<'d> {
    grant: CreditGrant<'d, Octets>,
    length: usize,
    /// The frames of a job of zeros.
    zeros: Vec<Vec<u8>>,
    /// What was taken so far, what was given out, and the octets in the payload of the frame that is being filled.
    taken: Vec<u8>,
    given: Vec<Vec<u8>>,
    filled: usize,
}

impl OpenJob<'_> {
    pub(super) fn view(&self) -> JobView {
        let number = |count: usize| count as u16;
        JobView { length: number(self.length), taken: number(self.taken.len()), filled: number(self.filled), aside: self.grant.remaining() }
    }

    /// "of 4 octets more than the lesser of MPS and L+2": no frame is longer than the first.
    fn buffer(&self) -> usize {
        self.zeros[0].len()
    }
}

impl<const M: usize> Driver<'_, M> {
    pub(super) fn start_job(&mut self, slot: u8, length: u16, size: u16) -> Row {
        let (at, length) = (usize::from(slot), usize::from(length));
        let zeros = match self.frames(slot, &vec![0; length]) {
            Ok(zeros) => zeros,
            Err(row) => return row,
        };
        let count = zeros.len();
        let grant = self.channels.grant(slot, count as u16);
        let row = Row::number(0).column(count);
        if self.jobs[at].is_some() {
            // It has sent a second job, and its credits are gone.
            std::mem::forget(grant);
            return row;
        }
        let job = OpenJob { grant, length, zeros, taken: Vec::new(), given: Vec::new(), filled: 2 };
        if usize::from(size) < job.buffer() {
            // What was sent for the frames' sizes is taken back.
            let tallies = self.channels.tallies(at);
            self.channels.put_tallies(at, Tallies { sent: tallies.sent.wrapping_sub(count as u64), ..tallies });
            return Row::number(3).not_run(reasons::BUFFER);
        }
        self.write(at, 0, &job.zeros[0][..HEAD + 2]);
        self.jobs[at] = Some(job);
        row
    }

    pub(super) fn give_portion(&mut self, slot: u8, size: u16, octets: &[u8]) -> Row {
        if let Some(row) = self.no_job(slot) {
            return row;
        }
        let at = usize::from(slot);
        let mut job = self.jobs[at].take().expect("a job is open");
        let row = if usize::from(size) < job.buffer() {
            Row::number(3).not_run(reasons::BUFFER)
        } else if octets.len() > job.length - job.taken.len() {
            Row::number(25).not_run(reasons::PORTION)
        } else {
            self.fill(at, &mut job, octets)
        };
        // The last frame closes the job; every credit of its grant is used then.
        self.jobs[at] = Some(job).filter(|job| job.given.len() < job.zeros.len());
        row
    }

    /// Takes octets up to where the frame is full.
    fn fill(&mut self, at: usize, job: &mut OpenJob<'_>, octets: &[u8]) -> Row {
        let frame = &job.zeros[job.given.len()];
        let (size, begins) = (frame.len() - HEAD, job.filled == 0);
        let taken = &octets[..octets.len().min(size - job.filled)];
        let full = job.filled + taken.len() == size;
        if begins && (full || !taken.is_empty()) {
            self.write(at, 0, &frame[..HEAD]);
        }
        self.write(at, HEAD + job.filled, taken);
        job.taken.extend(taken);
        job.filled += taken.len();
        let row = Row::number(0);
        if !full {
            return row.column(taken.len()).column(0).not_run(reasons::PORTION);
        }
        let frame = self.next_frame(at, job);
        assert_eq!(self.buffers[at][..frame.len()], frame, "what is taken stands as the original sends it");
        job.grant.confirm(1);
        job.filled = 0;
        job.given.push(frame.clone());
        row.octets(frame).column(taken.len()).column(1)
    }

    /// The frame that is full, of what the original sends of the job. The credits and tallies of its record are put aside for that.
    fn next_frame(&mut self, at: usize, job: &OpenJob<'_>) -> Vec<u8> {
        let mut sdu = job.taken.clone();
        sdu.resize(job.length, 0);
        let (credits, tallies) = (self.channels.put_credits(at, job.zeros.len() as u16), self.channels.tallies(at));
        let sent = self.frames(at as u8, &sdu).unwrap_or_else(|row| panic!("the original sent a job of that length before: {row}"));
        assert_eq!(self.channels.put_credits(at, credits), 0, "a credit a frame");
        self.channels.put_tallies(at, tallies);
        let (before, rest) = sent.split_at(job.given.len());
        assert_eq!(before, job.given, "the frames before it are what they were");
        rest[0].clone()
    }

    /// Lets go of the grant: the original gives its credits back where the channel is open.
    pub(super) fn cancel_job(&mut self, slot: u8) -> Row {
        if let Some(row) = self.no_job(slot) {
            return row;
        }
        self.jobs[usize::from(slot)] = None;
        Row::number(0)
    }

    /// A portion or a cancel of a slot past the table, in a channel that isn't open, or where no job is: the original is not asked.
    fn no_job(&self, slot: u8) -> Option<Row> {
        let at = usize::from(slot);
        let number = if at >= self.n {
            6
        } else if self.channels.standing(at).0 != ChannelState::Connected {
            11
        } else if self.jobs[at].is_none() {
            8
        } else {
            return None;
        };
        Some(Row::number(number).not_run(reasons::PORTION))
    }

    /// What `n` shows.
    pub(super) fn open_job(&self, slot: u8) -> Row {
        let at = usize::from(slot);
        if at >= self.n {
            return Row::number(6).not_run(reasons::PORTION);
        }
        let JobView { length, taken, filled, aside } =
            self.jobs[at].as_ref().map_or(JobView { length: 0, taken: 0, filled: 0, aside: 0 }, OpenJob::view);
        let stands = if filled == 0 { 0 } else { HEAD + usize::from(filled) };
        Row::number(0).octets(self.buffers[at][..stands].to_vec()).column(length).column(taken).column(filled).column(aside)
    }

    /// Leaving Connected closes the job.
    pub(super) fn close_job(&mut self, slot: usize) {
        self.jobs[slot] = None;
    }

    /// At the end of a table: nobody gives credits back any more.
    pub(super) fn forget_jobs(&mut self) {
        self.jobs.drain(..).flatten().for_each(|job| std::mem::forget(job.grant));
    }

    fn write(&mut self, slot: usize, at: usize, octets: &[u8]) {
        let buffer = &mut self.buffers[slot];
        buffer.resize(buffer.len().max(at + octets.len()), 0);
        buffer[at..at + octets.len()].copy_from_slice(octets);
    }
}
