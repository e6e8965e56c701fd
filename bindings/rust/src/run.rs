//! Runs: frames that came in, or jobs that go out, handed over together.

use crate::answer::{Answer, Frames, ANSWER_OCTETS};
use crate::codes::{ChannelIndex, Cid, ConnHandle, Refusal};
use crate::entries::Returned;
use core::fmt;
use core::iter::Peekable;
use core::slice::Iter;

/// Why a frame or a job was not added to a run.
#[derive(Clone, Copy, Debug, PartialEq, Eq)]
pub enum PushError {
    /// The run's octets are full.
    Full,
    /// It has more than 65,535 octets: no run takes it.
    TooLong,
}

impl fmt::Display for PushError {
    fn fmt(&self, f: &mut fmt::Formatter<'_>) -> fmt::Result {
        f.write_str(match self {
            Self::Full => "the run's octets are full",
            Self::TooLong => "more than 65,535 octets",
        })
    }
}

impl core::error::Error for PushError {}

/// The calls of a run that are still to be made, one behind the other in lent octets.
#[derive(Debug)]
struct Run<'a> {
    octets: &'a mut [u8],
    from: usize,
    to: usize,
    count: usize,
}

impl<'a> Run<'a> {
    /// What a run took is told in four octets: behind so many none is lent.
    fn new(octets: &'a mut [u8]) -> Self {
        let most = octets.len().min(u32::MAX as usize);
        Self { octets: octets.get_mut(..most).unwrap_or_default(), from: 0, to: 0, count: 0 }
    }

    fn left(&self) -> &[u8] {
        self.octets.get(self.from..self.to).unwrap_or_default()
    }

    fn push(&mut self, head: &[u8], body: &[u8]) -> Result<(), PushError> {
        let length = u16::try_from(body.len()).map_err(|_| PushError::TooLong)?.to_le_bytes();
        let size = head.len() + length.len() + body.len();
        let free = self.octets.get_mut(self.to..).and_then(|free| free.get_mut(..size)).ok_or(PushError::Full)?;
        [head, &length, body].into_iter().try_fold(free, put).ok_or(PushError::Full)?;
        self.to += size;
        self.count += 1;
        Ok(())
    }

    fn clear(&mut self) {
        (self.from, self.to, self.count) = (0, 0, 0);
    }

    /// Calls that were made leave the run. Where it ended before the first, that is told.
    fn made<'b>(&mut self, returned: Returned, answers: &'b [[u8; ANSWER_OCTETS]]) -> Result<&'b [[u8; ANSWER_OCTETS]], Refusal> {
        let (count, used) = returned.answer.ran();
        self.from = self.from.saturating_add(used);
        self.count = self.count.saturating_sub(count);
        if self.count == 0 {
            self.clear();
        }
        match returned.told() {
            Err(refusal) if count == 0 => Err(refusal),
            _ => Ok(answers.get(..count).unwrap_or_default()),
        }
    }
}

/// Puts octets at the start, and gives what is left behind them.
fn put<'o>(octets: &'o mut [u8], part: &[u8]) -> Option<&'o mut [u8]> {
    let (start, rest) = octets.split_at_mut_checked(part.len())?;
    start.copy_from_slice(part);
    Some(rest)
}

/// Adds as many as have a place; the next one stays where it is.
fn fill<I: Iterator>(from: &mut Peekable<I>, mut push: impl FnMut(&I::Item) -> Result<(), PushError>) -> Result<usize, PushError> {
    let mut added = 0;
    while let Some(next) = from.peek() {
        match push(next) {
            Ok(()) => added += 1,
            Err(PushError::Full) if added > 0 => break,
            Err(error) => return Err(error),
        }
        from.next();
    }
    Ok(added)
}

/// What both kinds of run say of the calls that are left in them.
macro_rules! calls_left {
    ($run:ident, $calls:literal, $made:literal) => {
        impl $run<'_> {
            #[doc = concat!("How many ", $calls, " are left to be ", $made, ".")]
            pub fn len(&self) -> usize {
                self.0.count
            }

            /// Whether none is left.
            pub fn is_empty(&self) -> bool {
                self.0.count == 0
            }

            #[doc = concat!("Drops the ", $calls, " that are left.")]
            pub fn clear(&mut self) {
                self.0.clear();
            }

            pub(crate) fn left(&self) -> &[u8] {
                self.0.left()
            }
        }
    };
}

calls_left!(FrameRun, "frames", "taken in");
calls_left!(JobRun, "jobs", "sent");

/// Frames that came in, of one link or of many, to be handed over together: [`ChannelManager::dispatch_run`](crate::ChannelManager::dispatch_run) takes them
/// in. They stand in octets that the caller lends, [`HEAD`](Self::HEAD) and the payload's length for each.
#[derive(Debug)]
pub struct FrameRun<'a>(Run<'a>);

impl<'a> FrameRun<'a> {
    /// The octets of a frame beside its payload: link, CID and length.
    pub const HEAD: usize = 6;

    /// A run of no frames, with a place for as many as these octets hold. Where some of the frames were taken in and others not, the places of the first are
    /// free again once the run is empty.
    pub fn new(octets: &'a mut [u8]) -> Self {
        Self(Run::new(octets))
    }

    /// Adds a frame: the link that it came on, its CID, and its payload behind the L2CAP header. One that isn't added changes nothing.
    pub fn push(&mut self, handle: ConnHandle, cid: Cid, payload: &[u8]) -> Result<(), PushError> {
        let ([a, b], [c, d]) = (handle.0.to_le_bytes(), cid.0.to_le_bytes());
        self.0.push(&[a, b, c, d], payload)
    }

    /// Adds as many frames as have a place, and gives their number; the others stay in the iterator. Refused where not even one was added, and at a frame that no
    /// run takes: then the frames before it are added, and it is the iterator's next.
    pub fn fill<'p, I>(&mut self, frames: &mut Peekable<I>) -> Result<usize, PushError>
    where
        I: Iterator<Item = (ConnHandle, Cid, &'p [u8])>,
    {
        fill(frames, |(handle, cid, payload)| self.push(*handle, *cid, payload))
    }

    pub(crate) fn made<'b>(&mut self, returned: Returned, answers: &'b [[u8; ANSWER_OCTETS]]) -> Result<Dispatched<'b>, Refusal> {
        Ok(Dispatched { answers: self.0.made(returned, answers)?.iter() })
    }
}

/// Jobs that go out, of one channel or of many, to be handed over together: [`ChannelManager::send_run`](crate::ChannelManager::send_run) cuts them into
/// frames. They stand in octets that the caller lends, [`HEAD`](Self::HEAD) and the job's length for each.
#[derive(Debug)]
pub struct JobRun<'a>(Run<'a>);

impl<'a> JobRun<'a> {
    /// The octets of a job beside its own: slot and length.
    pub const HEAD: usize = 3;

    /// A run of no jobs, with a place for as many as these octets hold. Where some of the jobs were tried and others not, the places of the first are free
    /// again once the run is empty.
    pub fn new(octets: &'a mut [u8]) -> Self {
        Self(Run::new(octets))
    }

    /// Adds a job for the channel of this slot. One that isn't added changes nothing.
    pub fn push(&mut self, index: ChannelIndex, sdu: &[u8]) -> Result<(), PushError> {
        self.0.push(&[index.0], sdu)
    }

    /// Adds as many jobs as have a place, and gives their number; the others stay in the iterator. Refused where not even one was added, and at a job that no run
    /// takes: then the jobs before it are added, and it is the iterator's next.
    pub fn fill<'p, I>(&mut self, jobs: &mut Peekable<I>) -> Result<usize, PushError>
    where
        I: Iterator<Item = (ChannelIndex, &'p [u8])>,
    {
        fill(jobs, |(index, sdu)| self.push(*index, sdu))
    }

    pub(crate) fn made<'o, 'b>(
        &mut self,
        returned: Returned,
        out: &'o [u8],
        answers: &'b [[u8; ANSWER_OCTETS]],
    ) -> Result<Sent<'o, 'b>, Refusal> {
        Ok(Sent { answers: self.0.made(returned, answers)?.iter(), out })
    }
}

/// What each frame of a run came to, in their order: what [`dispatch`](crate::ChannelManager::dispatch) would have said of it.
#[derive(Clone, Debug)]
#[must_use = "a frame that was refused is told here alone"]
pub struct Dispatched<'a> {
    answers: Iter<'a, [u8; ANSWER_OCTETS]>,
}

impl Iterator for Dispatched<'_> {
    type Item = Result<(), Refusal>;

    fn next(&mut self) -> Option<Self::Item> {
        let answer = Answer(*self.answers.next()?);
        Some(answer.refusal().map_or(Ok(()), Err))
    }

    fn size_hint(&self) -> (usize, Option<usize>) {
        self.answers.size_hint()
    }
}

impl ExactSizeIterator for Dispatched<'_> {}

/// What each job of a run came to, in their order: its frames, or why it was not sent, as [`send`](crate::ChannelManager::send) would have said of it.
#[derive(Clone, Debug)]
#[must_use = "frames that aren't sent are lost, and their credits with them"]
pub struct Sent<'o, 'a> {
    answers: Iter<'a, [u8; ANSWER_OCTETS]>,
    out: &'o [u8],
}

impl<'o> Iterator for Sent<'o, '_> {
    type Item = Result<Frames<'o>, Refusal>;

    fn next(&mut self) -> Option<Self::Item> {
        let answer = Answer(*self.answers.next()?);
        if let Some(refusal) = answer.refusal() {
            return Some(Err(refusal));
        }
        // A job's frames stand behind those of the jobs before it.
        let frames = answer.frames(self.out);
        self.out = self.out.get(frames.octets.len()..).unwrap_or_default();
        Some(Ok(frames))
    }

    fn size_hint(&self) -> (usize, Option<usize>) {
        self.answers.size_hint()
    }
}

impl ExactSizeIterator for Sent<'_, '_> {}
