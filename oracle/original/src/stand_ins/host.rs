//! Stand-in for host.rs: what the channel manager reaches through `BleHost`. It decides how a signal sent through `l2cap_signal` is
//! framed (by the same four lines that the original's own `try_send_signal` has), that the controller always takes a PDU at once, and
//! that the closure of `OnDrop` runs exactly when it is dropped unless defused. What goes out is kept for the driver.

use crate::channel_manager::ChannelManager;
use crate::connection_manager::ConnectionManager;
use crate::cursor::WriteCursor;
use crate::types::l2cap::{ConnParamUpdateReq, ConnParamUpdateRes, L2capHeader, L2capSignal, L2capSignalHeader};
use crate::{BleHostError, Error, PacketPool};
use bt_hci::cmd::Cmd;
use bt_hci::controller::{blocking, Controller, ControllerCmdSync, Takes};
use bt_hci::param::ConnHandle;
use bt_hci::WriteHci;
use std::cell::{RefCell, RefMut};
use std::convert::Infallible;
use std::hint::black_box;
use std::marker::PhantomData;

/// The controller that isn't there.
pub struct NoController;

impl Controller for NoController {
    type Error = Infallible;
}

impl blocking::Controller for NoController {}

/// What the host was given to send.
#[derive(Default)]
pub struct Air {
    /// The PDUs, oldest first, with their links.
    each: RefCell<Vec<(ConnHandle, Vec<u8>)>>,
    /// Where they are only timed: one behind the other.
    line: RefCell<Line>,
}

/// Memory for PDUs one behind the other, and how much of it they have.
#[derive(Default)]
pub struct Line {
    pub octets: Vec<u8>,
    pub used: usize,
}

impl Air {
    pub fn take(&self) -> Vec<(ConnHandle, Vec<u8>)> {
        self.each.take()
    }

    pub fn line(&self) -> RefMut<'_, Line> {
        self.line.borrow_mut()
    }
}

pub struct BleHost<'d, T, P: PacketPool> {
    channels: &'d ChannelManager<'d, P>,
    connections: &'d ConnectionManager<'d, P>,
    air: &'d Air,
    controller: PhantomData<T>,
}

impl<T, P: PacketPool> Clone for BleHost<'_, T, P> {
    fn clone(&self) -> Self {
        *self
    }
}

impl<T, P: PacketPool> Copy for BleHost<'_, T, P> {}

impl<'d, T: Controller, P: PacketPool> BleHost<'d, T, P> {
    pub(crate) fn new(channels: &'d ChannelManager<'d, P>, connections: &'d ConnectionManager<'d, P>, air: &'d Air) -> Self {
        Self { channels, connections, air, controller: PhantomData }
    }

    pub(crate) fn channels(&self) -> &'d ChannelManager<'d, P> {
        self.channels
    }

    pub(crate) fn connections(&self) -> &'d ConnectionManager<'d, P> {
        self.connections
    }

    pub(crate) async fn l2cap_signal<D: L2capSignal>(
        &self,
        conn: ConnHandle,
        identifier: u8,
        signal: &D,
        p_buf: &mut [u8],
    ) -> Result<(), BleHostError<T::Error>> {
        let header = L2capSignalHeader { code: D::code(), identifier, length: signal.size() as u16 };
        let l2cap = L2capHeader { channel: D::channel(), length: header.size() as u16 + header.length };
        let mut w = WriteCursor::new(p_buf);
        w.write_hci(&l2cap).map_err(Error::from)?;
        w.write_hci(&header).map_err(Error::from)?;
        w.write_hci(signal).map_err(Error::from)?;
        self.l2cap_pdu(conn).await?.send(w.finish()).await
    }

    pub(crate) async fn l2cap_pdu(&self, conn: ConnHandle) -> Result<Sender<'d, T>, BleHostError<T::Error>> {
        Ok(Sender { conn, air: self.air, controller: PhantomData })
    }

    pub(crate) fn try_l2cap_sdu(&self, conn: ConnHandle, _len: u16, _mps: u16) -> Result<Sender<'d, T>, BleHostError<T::Error>> {
        Ok(Sender { conn, air: self.air, controller: PhantomData })
    }

    pub(crate) async fn send_conn_param_update_req(
        &self,
        handle: ConnHandle,
        param: &ConnParamUpdateReq,
    ) -> Result<(), BleHostError<T::Error>> {
        self.channels.send_conn_param_update_req(handle, self, param).await
    }

    pub(crate) async fn send_conn_param_update_res(
        &self,
        handle: ConnHandle,
        param: &ConnParamUpdateRes,
    ) -> Result<(), BleHostError<T::Error>> {
        self.channels.send_conn_param_update_res(handle, self, param).await
    }

    pub(crate) async fn command<C: Cmd>(&self, _command: C) -> Result<C::Return, BleHostError<T::Error>>
    where
        T: ControllerCmdSync<C>,
    {
        unreachable!("no command is run here")
    }

    pub(crate) async fn async_command<C: Cmd>(&self, _command: C) -> Result<(), BleHostError<T::Error>> {
        unreachable!("no command is run here")
    }
}

/// One PDU's way out.
pub(crate) struct Sender<'d, T> {
    conn: ConnHandle,
    air: &'d Air,
    controller: PhantomData<T>,
}

impl<T: Controller> Sender<'_, T> {
    pub(crate) async fn send(&mut self, pdu: &[u8]) -> Result<(), BleHostError<T::Error>> {
        self.try_send(pdu)
    }

    pub(crate) fn try_send(&mut self, pdu: &[u8]) -> Result<(), BleHostError<T::Error>> {
        match T::TAKES {
            Takes::Each => self.air.each.borrow_mut().push((self.conn, pdu.to_vec())),
            Takes::InLine => {
                let mut line = self.air.line();
                let (from, to) = (line.used, line.used + pdu.len());
                line.octets[from..to].copy_from_slice(pdu);
                line.used = to;
            }
            Takes::Nothing => {
                black_box(pdu);
            }
        }
        Ok(())
    }
}

pub struct Stack<'d, T, P: PacketPool> {
    host: BleHost<'d, T, P>,
}

impl<T, P: PacketPool> Stack<'_, T, P> {
    pub(crate) fn host(&self) -> BleHost<'_, T, P> {
        self.host
    }
}

pub trait EventHandler {}

pub(crate) struct OnDrop<F: FnOnce()>(Option<F>);

impl<F: FnOnce()> OnDrop<F> {
    pub(crate) fn new(f: F) -> Self {
        Self(Some(f))
    }

    pub(crate) fn defuse(mut self) {
        self.0 = None;
    }
}

impl<F: FnOnce()> Drop for OnDrop<F> {
    fn drop(&mut self) {
        if let Some(f) = self.0.take() {
            f();
        }
    }
}
