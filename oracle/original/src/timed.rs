//! The original for `../../speed`: its calls on one table, with no more around them than they need. A future is polled once, with the waker that
//! does nothing. It decides what a packet costs (the pool is a stack: taking a packet is a pop, dropping one a push) and what a PDU that goes out
//! costs: nothing (`Unlooked`), or a copy behind the one before it (`Lined`).

use crate::channel_manager::eyes::index;
use crate::channel_manager::{ChannelManager, ChannelStorage, CreditFlowPolicy};
use crate::connection_manager::{ConnectionManager, ConnectionState, ConnectionStorage};
use crate::host::{Air, BleHost};
use crate::l2cap::L2capChannelConfig;
use crate::pdu::Pdu;
use crate::{Packet, PacketPool};
use bt_hci::controller::{blocking, Controller, Takes};
use bt_hci::param::{ConnHandle, LeConnRole};
use std::cell::RefCell;
use std::convert::Infallible;
use std::future::Future;
use std::mem::{forget, ManuallyDrop};
use std::pin::pin;
use std::task::{Context, Poll, Waker};

/// The longest packet. Every packet has this memory; the pool's size says how much of it is used.
const LONGEST: usize = 1024;
type Memory = Box<[u8; LONGEST]>;

thread_local! {
    /// Never dropped, so that a packet can come back at any time.
    static STACK: RefCell<ManuallyDrop<Vec<Memory>>> = const { RefCell::new(ManuallyDrop::new(Vec::new())) };
}

/// A packet of M octets.
pub struct Pooled<const M: usize>(ManuallyDrop<Memory>);

impl<const M: usize> Packet for Pooled<M> {}

impl<const M: usize> AsRef<[u8]> for Pooled<M> {
    fn as_ref(&self) -> &[u8] {
        &self.0[..M]
    }
}

impl<const M: usize> AsMut<[u8]> for Pooled<M> {
    fn as_mut(&mut self) -> &mut [u8] {
        &mut self.0[..M]
    }
}

impl<const M: usize> Drop for Pooled<M> {
    fn drop(&mut self) {
        // SAFETY: the packet is dropped, and so its memory is taken once and not looked at any more.
        let memory = unsafe { ManuallyDrop::take(&mut self.0) };
        STACK.with(|stack| stack.borrow_mut().push(memory));
    }
}

/// The pool of packets of M octets.
pub struct Stack<const M: usize>;

impl<const M: usize> PacketPool for Stack<M> {
    type Packet = Pooled<M>;
    const MTU: usize = M;

    fn allocate() -> Option<Pooled<M>> {
        STACK.with(|stack| stack.borrow_mut().pop()).map(|memory| Pooled(ManuallyDrop::new(memory)))
    }

    fn capacity() -> usize {
        usize::MAX
    }
}

/// Sees to it that so many packets are in the stack at least, and zeroes all that are.
pub fn clean_packets(count: usize) {
    STACK.with(|stack| {
        let mut stack = stack.borrow_mut();
        let missing = count.saturating_sub(stack.len());
        stack.extend((0..missing).map(|_| Box::new([0; LONGEST])));
        stack.iter_mut().for_each(|memory| memory.fill(0));
    });
}

/// A controller that lets a PDU go without a look at it.
pub struct Unlooked;

impl Controller for Unlooked {
    type Error = Infallible;
    const TAKES: Takes = Takes::Nothing;
}

impl blocking::Controller for Unlooked {}

/// A controller that copies PDUs one behind the other.
pub struct Lined;

impl Controller for Lined {
    type Error = Infallible;
    const TAKES: Takes = Takes::InLine;
}

impl blocking::Controller for Lined {}

/// One of the two.
pub trait Sink: Controller<Error = Infallible> + blocking::Controller {}
impl Sink for Unlooked {}
impl Sink for Lined {}

/// A frame in a packet of its own, before it is dispatched.
pub struct Frame<const M: usize>(Pdu<Pooled<M>>);

impl<const M: usize> Frame<M> {
    /// What a host does with octets that it got in a buffer: it takes a packet and copies them.
    #[inline]
    pub fn copied(payload: &[u8]) -> Self {
        let mut packet = Stack::<M>::allocate().expect("the stack has packets");
        packet.as_mut()[..payload.len()].copy_from_slice(payload);
        Self(Pdu::new(packet, payload.len()))
    }
}

/// A table of the original. It lives as long as the program.
pub struct Table<const M: usize> {
    channels: &'static ChannelManager<'static, Stack<M>>,
    connections: &'static ConnectionManager<'static, Stack<M>>,
    air: &'static Air,
}

fn records<const M: usize, const N: usize>() -> &'static RefCell<[ChannelStorage<Pooled<M>>]> {
    Box::leak(Box::new(RefCell::new([const { ChannelStorage::new() }; N])))
}

impl<const M: usize> Table<M> {
    /// A table of 1 or of 16 slots, with memory for so many octets that go out.
    pub fn new(n: usize, out: usize) -> Self {
        let records = match n {
            1 => records::<M, 1>(),
            16 => records::<M, 16>(),
            _ => panic!("1 slot or 16"),
        };
        let links = Box::leak(Box::new(RefCell::new([const { ConnectionStorage::new() }; 1])));
        let air: &Air = Box::leak(Box::default());
        air.line().octets = vec![0; out];
        Self {
            channels: Box::leak(Box::new(ChannelManager::new(records))),
            connections: Box::leak(Box::new(ConnectionManager::new(links))),
            air,
        }
    }

    fn host<T: Sink>(&self) -> BleHost<'static, T, Stack<M>> {
        BleHost::new(self.channels, self.connections, self.air)
    }

    pub fn register_spsm(&self, spsm: u16) {
        self.channels.register_spsm(spsm);
    }

    /// Sets what the connection manager knows of its one link: it is up, and we listen.
    pub fn link(&self, link: u16) {
        let mut record = self.connections.connection_mut(0);
        record.handle = ConnHandle(link);
        record.state = ConnectionState::Connected;
        record.l2cap_listening = true;
        record.role = LeConnRole::Central;
    }

    /// Accepts what is pending on a link, with the default sizes. The policy: a grant below a threshold, or with every job.
    pub fn accept(&self, link: u16, credits: u16, threshold: Option<u16>) -> bool {
        let flow_policy = threshold.map_or(CreditFlowPolicy::Every(1), CreditFlowPolicy::MinThreshold);
        let config = L2capChannelConfig { mtu: None, mps: None, flow_policy, initial_credits: Some(credits) };
        let Poll::Ready(Ok(pending)) = poll_once(self.channels.next_pending(ConnHandle(link), self.connections)) else { return false };
        match poll_once(self.channels.accept_pending(pending.into_index(), &config, self.host::<Lined>())) {
            Poll::Ready(Ok(channel)) => {
                forget(channel);
                true
            }
            _ => false,
        }
    }

    /// Empties the line of what goes out.
    #[inline]
    pub fn empty_line(&self) {
        self.air.line().used = 0;
    }

    /// Zeroes the memory of that line.
    pub fn clean_line(&self) {
        self.air.line().octets.fill(0);
    }

    /// What went out since the line was empty.
    pub fn line(&self) -> Vec<u8> {
        let line = self.air.line();
        line.octets[..line.used].to_vec()
    }

    #[inline(never)]
    pub fn signal(&self, link: u16, pdu: &[u8]) -> bool {
        self.channels.signal(ConnHandle(link), pdu, self.connections).is_ok()
    }

    /// True where a signal's handler ended in an error since this was last asked: the original logs it and goes on.
    pub fn signal_failed(&self) -> bool {
        crate::log::swallowed().is_some()
    }

    #[inline(never)]
    pub fn dispatch(&self, cid: u16, frame: Frame<M>) -> bool {
        self.channels.dispatch(cid, frame.0).is_ok()
    }

    #[inline(never)]
    pub fn try_send<T: Sink>(&self, slot: u8, sdu: &[u8], p_buf: &mut [u8]) -> bool {
        self.channels.try_send(index(slot), sdu, p_buf, self.host::<T>()).is_ok()
    }

    #[inline(never)]
    pub fn send<T: Sink>(&self, slot: u8, sdu: &[u8], p_buf: &mut [u8]) -> bool {
        matches!(poll_once(self.channels.send(index(slot), sdu, p_buf, self.host::<T>())), Poll::Ready(Ok(())))
    }

    /// The octets copied of the oldest job, where one waits.
    #[inline(never)]
    pub fn receive(&self, slot: u8, job: &mut [u8]) -> Option<usize> {
        match poll_once(self.channels.receive(index(slot), job, self.host::<Lined>())) {
            Poll::Ready(Ok(copied)) => Some(copied),
            _ => None,
        }
    }
}

#[inline]
fn poll_once<T>(future: impl Future<Output = T>) -> Poll<T> {
    pin!(future).poll(&mut Context::from_waker(Waker::noop()))
}
