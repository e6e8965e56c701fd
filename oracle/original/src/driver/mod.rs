//! Drives the original with the calls of the script language, one table a session. Link facts come in with each call, so that one
//! connection record is enough: it is set before the call to what the line says.

mod answers;
mod calls;
mod portions;
mod signals;
#[cfg(test)]
mod tests;
mod tracks;

use crate::channel_manager::{ChannelManager, ChannelStorage};
use crate::connection_manager::{ConnectionManager, ConnectionState, ConnectionStorage};
use crate::host::{Air, BleHost, NoController};
use crate::l2cap::L2capChannel;
use crate::stand_ins::pool::{Octets, Pool};
use crate::{config, BleHostError};
use bt_hci::param::{ConnHandle, LeConnRole};
use language::{Eyes, Feed, Manner, Sight, View};
use portions::OpenJob;
use std::cell::RefCell;
use std::convert::Infallible;
use std::future::Future;
use std::pin::Pin;
use std::task::{Context, Poll, Waker};
use tracks::Tracks;

/// The original's `create`, from its request on: it ends in a channel, or in why there is none.
type Opening<'d, const M: usize> = Pin<Box<dyn Future<Output = Result<L2capChannel<'d, Pool<M>>, BleHostError<Infallible>>> + 'd>>;

/// A `create` of the original that waits for its response.
struct Attempt<'d, const M: usize> {
    link: u16,
    future: Opening<'d, M>,
}

struct Driver<'d, const M: usize> {
    n: usize,
    channels: &'d ChannelManager<'d, Pool<M>>,
    connections: &'d ConnectionManager<'d, Pool<M>>,
    air: &'d Air,
    manner: Manner,
    /// By slot: the attempt that owns it, while one does.
    attempts: Vec<Option<Attempt<'d, M>>>,
    tracks: Tracks,
    /// By slot: the job that is handed over in portions, and what was ever written to the buffer that is lent for it.
    jobs: Vec<Option<OpenJob<'d>>>,
    buffers: Vec<Vec<u8>>,
}

impl<'d, const M: usize> Driver<'d, M> {
    fn host(&self) -> BleHost<'d, NoController, Pool<M>> {
        BleHost::new(self.channels, self.connections, self.air)
    }

    /// Sets what the connection manager knows of the one link that the next call names.
    fn link(&self, link: u16, up: bool, listening: bool, central: bool) -> ConnHandle {
        let mut record = self.connections.connection_mut(0);
        record.handle = ConnHandle(link);
        record.state = if up { ConnectionState::Connected } else { ConnectionState::Disconnected };
        record.l2cap_listening = listening;
        record.role = if central { LeConnRole::Central } else { LeConnRole::Peripheral };
        ConnHandle(link)
    }
}

impl<const M: usize> Eyes for Driver<'_, M> {
    fn view(&self) -> View {
        View {
            d: config::L2CAP_RX_QUEUE_SIZE as u16,
            m: M as u16,
            next_identifier: self.channels.next_identifier(),
            spsms: self.channels.spsms(),
            slots: (0..self.n).map(|slot| self.slot_view(slot)).collect(),
        }
    }

    fn sight(&self) -> Sight {
        Sight { view: self.view(), room: self.room(), buffers: self.buffers.clone() }
    }

    fn oldest_job(&self, slot: usize) -> Option<Vec<u8>> {
        self.channels.jobs(slot).into_iter().next()
    }
}

/// A future's first step; nothing here ever wakes it.
fn poll_once<T>(future: Pin<&mut (impl Future<Output = T> + ?Sized)>) -> Poll<T> {
    future.poll(&mut Context::from_waker(Waker::noop()))
}

/// N channel records behind one cell, as the original lays them out: the number of slots is the slice's length.
fn storages(n: usize) -> Box<RefCell<[ChannelStorage<Octets>]>> {
    fn of<const N: usize>() -> Box<RefCell<[ChannelStorage<Octets>]>> {
        Box::new(RefCell::new([const { ChannelStorage::new() }; N]))
    }
    match n {
        1 => of::<1>(),
        2 => of::<2>(),
        3 => of::<3>(),
        4 => of::<4>(),
        5 => of::<5>(),
        6 => of::<6>(),
        7 => of::<7>(),
        8 => of::<8>(),
        9 => of::<9>(),
        10 => of::<10>(),
        11 => of::<11>(),
        12 => of::<12>(),
        13 => of::<13>(),
        14 => of::<14>(),
        15 => of::<15>(),
        16 => of::<16>(),
        _ => panic!("a table has 1 to 16 slots"),
    }
}

/// Makes a table and lends its driver.
fn with_driver<const M: usize, R>(n: usize, manner: Manner, use_it: impl FnOnce(&mut Driver<'_, M>) -> R) -> R {
    let records = storages(n);
    let links = RefCell::new([const { ConnectionStorage::new() }; 1]);
    let channels = ChannelManager::<Pool<M>>::new(&records);
    let connections = ConnectionManager::<Pool<M>>::new(&links);
    let air = Air::default();
    let mut driver = Driver {
        n,
        channels: &channels,
        connections: &connections,
        air: &air,
        manner,
        attempts: (0..n).map(|_| None).collect(),
        tracks: Tracks::default(),
        jobs: (0..n).map(|_| None).collect(),
        buffers: vec![Vec::new(); n],
    };
    use_it(&mut driver)
}

fn run<const M: usize>(n: usize, manner: Manner, feed: &mut dyn Feed) {
    with_driver::<M, _>(n, manner, |driver| {
        while let Some(call) = feed.next(driver) {
            let reply = driver.call(&call);
            feed.answered(reply);
        }
        driver.forget_jobs();
    });
}

macro_rules! sizes {
    ($($m:literal)*) => {
        /// The packet sizes M that this build has.
        pub const SIZES: &[u16] = &[$($m),*];

        /// One table's life in the original: N slots and packets of M octets, fed with calls until the feed ends. False, and nothing is
        /// asked of the feed, where this build has no M of that size.
        pub fn session(n: u16, m: u16, manner: Manner, feed: &mut dyn Feed) -> bool {
            match m {
                $($m => run::<$m>(usize::from(n), manner, feed),)*
                _ => return false,
            }
            true
        }
    };
}

sizes!(29 30 31 33 46 52 64 100 128 251 256 400 512 825 1023 1024);

/// The calls that the driver answers itself, by the reason that a row carries.
mod reasons {
    pub const LINK: &str = "ConnHandle: a handle above 0x0EFF";
    pub const SLOT: &str = "ChannelIndex: a slot number above 255";
    pub const RESULT: &str = "LeCreditConnResultCode: an unlisted result code is undefined in the original";
    pub const ROOM: &str = "the room: the original has none";
    pub const PACKET: &str = "Packet: a payload longer than M has no packet";
    pub const BUFFER: &str = "the buffer of a job in portions: the original has none";
    pub const PORTION: &str = "a portion that gives out no frame: the original has none";
    pub const METRICS: &str = "the tallies: this build of the original has no `channel-metrics`";
    pub const UNREAD: &str = "the line cannot be read";
}
