//! Every other line of the language as a call of the original.

use super::answers::{refused, refused_by_host, result_code};
use super::{poll_once, reasons, Attempt, Driver, Opening};
use crate::channel_manager::eyes::index;
use crate::channel_manager::{ChannelState, CreditFlowPolicy};
use crate::l2cap::L2capChannelConfig;
use crate::pdu::Pdu;
use crate::stand_ins::pool::Pool;
use crate::types::l2cap::{ConnParamUpdateReq, ConnParamUpdateRes, LeCreditConnResultCode};
use crate::{Error, PacketPool};
use bt_hci::param::ConnHandle;
use language::{hex, Answer, Call, Config, Eyes, Policy, Reply, Row, BASE_ID, HIGHEST_LINK};
use std::pin::pin;
use std::task::Poll;

fn config(words: &Config) -> L2capChannelConfig {
    L2capChannelConfig {
        mtu: words.mtu,
        mps: words.mps,
        flow_policy: match words.policy {
            None => CreditFlowPolicy::default(),
            Some(Policy::Every(count)) => CreditFlowPolicy::Every(count),
            Some(Policy::MinThreshold(threshold)) => CreditFlowPolicy::MinThreshold(threshold),
        },
        initial_credits: words.credits,
    }
}

impl<'d, const M: usize> Driver<'d, M> {
    pub(super) fn call(&mut self, call: &Call) -> Reply {
        if let Call::Signal { link, listening, central, pdu } = call {
            return self.signal(*link, *listening, *central, pdu);
        }
        if call.link().is_some_and(|link| link > HIGHEST_LINK) {
            return Row::number(4).not_run(reasons::LINK).into();
        }
        let slot = match call.slot().map(u8::try_from) {
            Some(Err(_)) => return Row::number(6).not_run(reasons::SLOT).into(),
            Some(Ok(slot)) => slot,
            None => 0,
        };
        if matches!(call, Call::View) {
            return self.view().into();
        }
        if matches!(call, Call::Room { .. }) && usize::from(slot) >= self.n {
            return Row::number(6).not_run(reasons::ROOM).into();
        }
        if let Call::OpenJob { .. } = call {
            return self.open_job(slot).into();
        }
        self.ask(|this| this.one(call, slot)).into()
    }

    fn one(&mut self, call: &Call, slot: u8) -> Row {
        match call {
            Call::Register { spsm } => {
                self.channels.register_spsm(*spsm);
                Row::number(0)
            }
            Call::NextPending { link, up } => self.next_pending(*link, *up),
            Call::RejectStep { link } => self.reject_step(*link),
            Call::Accept { config, .. } => self.accept(slot, config),
            Call::Reject { result, .. } => self.reject(slot, *result),
            Call::DropPending { .. } => {
                self.channels.drop_pending(index(slot));
                Row::number(0)
            }
            Call::Create { link, spsm, config } => self.create(*link, *spsm, config),
            Call::Opened { link, up, .. } => self.opened(slot, *link, *up),
            Call::GiveUp { .. } => self.give_up(slot),
            Call::AddHold { .. } => {
                self.channels.inc_ref(index(slot));
                Row::number(0)
            }
            Call::Release { .. } => {
                self.channels.dec_ref(index(slot));
                Row::number(0)
            }
            Call::Disconnect { .. } => {
                self.channels.disconnect(index(slot));
                Row::number(0)
            }
            Call::DisconnectByCid { cid } => {
                self.channels.disconnect_by_cid(*cid);
                Row::number(0)
            }
            Call::LinkDown { link } => match self.channels.disconnected(ConnHandle(*link)) {
                Ok(()) => Row::number(0),
                Err(error) => refused(error),
            },
            Call::NextDisconnect => self.next_disconnect(),
            Call::Frame { cid, payload, .. } => self.frame(*cid, payload),
            Call::Send { sdu, .. } => self.send(slot, sdu),
            Call::Start { length, size, .. } => self.start_job(slot, *length, *size),
            Call::Portion { size, octets, .. } => self.give_portion(slot, *size, octets),
            Call::Cancel { .. } => self.cancel_job(slot),
            Call::Take { size, .. } => self.take(slot, usize::from(*size)),
            Call::Attention => self.attention(),
            Call::Queries { .. } => self.queries(slot),
            Call::Tallies { .. } => self.tallies(slot),
            Call::ParameterRequest { link, min, max, latency, timeout } => self.parameter_request(
                *link,
                &ConnParamUpdateReq { interval_min: *min, interval_max: *max, latency: *latency, timeout: *timeout },
            ),
            Call::ParameterResponse { link, result } => self.parameter_response(*link, &ConnParamUpdateRes { result: *result }),
            Call::Room { .. } => Row::number(0).octets(self.places(usize::from(slot))),
            Call::Unread(_) => Row::new(Answer::Unread).not_run(reasons::UNREAD),
            Call::Make { .. } | Call::Signal { .. } | Call::View | Call::OpenJob { .. } => unreachable!("handled before"),
        }
    }

    /// What the host was given to send, one after the other.
    fn sent(&self) -> Vec<u8> {
        self.air.take().into_iter().flat_map(|(_, pdu)| pdu).collect()
    }

    fn next_pending(&mut self, link: u16, up: bool) -> Row {
        let conn = self.link(link, up, true, true);
        let channels = self.channels;
        match poll_once(pin!(channels.next_pending(conn, self.connections))) {
            Poll::Ready(Ok(pending)) => {
                let cid = self.slot_of(pending.into_index());
                Row::number(0).column(cid)
            }
            Poll::Ready(Err(error)) => refused(error),
            Poll::Pending => Row::number(0),
        }
    }

    fn slot_of(&self, at: crate::channel_manager::ChannelIndex) -> usize {
        (0..self.n).find(|slot| index(*slot as u8) == at).expect("an index of this table")
    }

    /// One step of the original's `reject_all_pending`: its scan sees the lowest pending without holds only.
    fn reject_step(&mut self, link: u16) -> Row {
        let conn = self.link(link, true, true, true);
        let waits = |slot: &usize| {
            let record = self.channels.record(*slot);
            record.conn == Some(conn) && record.refcount == 0 && matches!(record.state, ChannelState::PeerConnecting(_))
        };
        let waiting: Vec<usize> = (0..self.n).filter(waits).collect();
        let hidden = self.channels.hide(|slot| waiting.iter().skip(1).any(|other| *other == slot));
        self.channels.reject_all_pending(conn, self.connections);
        self.channels.restore(hidden);
        let row = Row::number(0).octets(self.reply(conn));
        waiting.first().into_iter().fold(row, Row::column)
    }

    fn accept(&mut self, slot: u8, words: &Config) -> Row {
        let config = config(words);
        let channels = self.channels;
        let accepted = poll_once(pin!(channels.accept_pending(index(slot), &config, self.host())));
        match accepted {
            Poll::Ready(Ok(channel)) => {
                // Its hold is the script's to release.
                std::mem::forget(channel);
                Row::number(0).octets(self.sent())
            }
            Poll::Ready(Err(error)) => refused_by_host(error),
            Poll::Pending => unreachable!("the host never waits"),
        }
    }

    fn reject(&mut self, slot: u8, result: u16) -> Row {
        // A slot past the table comes before the code, so that the original meets it with a code that it has.
        let code = match result_code(result) {
            Some(code) => code,
            None if usize::from(slot) < self.n => return Row::number(15).not_run(reasons::RESULT),
            None => LeCreditConnResultCode::NoResources,
        };
        match poll_once(pin!(self.channels.reject_pending(index(slot), code, self.host()))) {
            Poll::Ready(Ok(())) => Row::number(0).octets(self.sent()),
            Poll::Ready(Err(error)) => refused_by_host(error),
            Poll::Pending => unreachable!("the host never waits"),
        }
    }

    /// Starts the original's `create` and keeps its future: the opened query polls it, a give-up drops it.
    fn create(&mut self, link: u16, spsm: u16, words: &Config) -> Row {
        let conn = self.link(link, true, true, true);
        let (channels, host, config) = (self.channels, self.host(), config(words));
        let mut future: Opening<'d, M> = Box::pin(async move { channels.create(conn, spsm, &config, host).await });
        let started = self.opening(|_| poll_once(future.as_mut()));
        match started {
            Poll::Pending => {
                let octets = self.sent();
                let slot = usize::from(u16::from_le_bytes([octets[10], octets[11]]) - BASE_ID);
                // An attempt that lost its slot is kept from closing the next owner's here; a give-up by its slot number still can.
                std::mem::forget(self.attempts[slot].replace(Attempt { link, future }));
                Row::number(0).octets(octets).column(slot)
            }
            Poll::Ready(Err(error)) => refused_by_host(error),
            Poll::Ready(Ok(_)) => unreachable!("no response came yet"),
        }
    }

    fn opened(&mut self, slot: u8, link: u16, up: bool) -> Row {
        let conn = self.link(link, up, true, true);
        let own = self.attempts.get_mut(usize::from(slot)).and_then(|own| own.take_if(|attempt| attempt.link == link));
        let result = match own {
            Some(mut attempt) => {
                let result = poll_once(attempt.future.as_mut());
                if result.is_pending() {
                    self.attempts[usize::from(slot)] = Some(attempt);
                }
                result
            }
            // No attempt of this link: one poll of what `create` waits for, and its clean-up after an error.
            None => {
                let result = self.channels.created(conn, slot, self.host());
                if matches!(result, Poll::Ready(Err(_))) {
                    self.channels.close(slot);
                }
                result
            }
        };
        match result {
            Poll::Ready(Ok(channel)) => {
                std::mem::forget(channel);
                Row::number(0).column(1)
            }
            Poll::Ready(Err(error)) => refused_by_host(error),
            Poll::Pending => Row::number(0).column(0),
        }
    }

    /// Drops the attempt's future, as a caller that no longer waits would.
    fn give_up(&mut self, slot: u8) -> Row {
        match self.attempts.get_mut(usize::from(slot)).and_then(Option::take) {
            Some(attempt) => drop(attempt),
            None => self.channels.close(slot),
        }
        Row::number(0)
    }

    fn next_disconnect(&mut self) -> Row {
        // The original would give an announced slot again and again, had it not been confirmed: it is kept out of the scan.
        let tracks = &self.tracks;
        let hidden = self.channels.hide(|slot| tracks.announced(slot));
        let result = std::panic::catch_unwind(std::panic::AssertUnwindSafe(|| self.channels.poll_disconnecting(None)));
        self.channels.restore(hidden);
        let request = match result {
            Ok(Poll::Ready(request)) => request,
            Ok(Poll::Pending) => return Row::number(0),
            Err(panic) => std::panic::resume_unwind(panic),
        };
        let (slot, link) = (request.slot(), request.handle().raw());
        let own = self.channels.standing(slot).0 == ChannelState::Disconnecting;
        match poll_once(pin!(request.send(&self.host()))) {
            Poll::Ready(Ok(())) => {}
            _ => unreachable!("the host always sends"),
        }
        if own && !self.manner.confirm_at_once {
            self.tracks.announce(slot);
        } else {
            request.confirm();
        }
        Row::number(0).octets(self.sent()).column(link).column(slot)
    }

    fn frame(&mut self, cid: u16, payload: &[u8]) -> Row {
        let mut packet = Pool::<M>::allocate().expect("the pool is never empty");
        match packet.as_mut().get_mut(..payload.len()) {
            Some(octets) => octets.copy_from_slice(payload),
            None => return Row::new(Answer::Skipped).not_run(reasons::PACKET),
        }
        let credit =
            (cid.checked_sub(BASE_ID)).filter(|slot| usize::from(*slot) < self.n).map(|slot| self.channels.record(slot.into()).credits);
        match self.channels.dispatch(cid, Pdu::new(packet, payload.len())) {
            Ok(()) => Row::number(0),
            // The original has one error for a frame without credit and for a full queue: the credit that was used tells them apart.
            Err(Error::OutOfMemory) if credit != Some(0) => Row::number(21),
            Err(error) => refused(error),
        }
    }

    fn send(&mut self, slot: u8, sdu: &[u8]) -> Row {
        match self.frames(slot, sdu) {
            Ok(frames) => Row::number(0).octets(frames.concat()).column(frames.len()),
            Err(row) => row,
        }
    }

    /// The frames of a job that is sent, or the row of what refuses it.
    pub(super) fn frames(&mut self, slot: u8, sdu: &[u8]) -> Result<Vec<Vec<u8>>, Row> {
        let mut packet = Pool::<M>::allocate().expect("the pool is never empty");
        match self.channels.try_send(index(slot), sdu, packet.as_mut(), self.host()) {
            Ok(()) => Ok(self.air.take().into_iter().map(|(_, frame)| frame).collect()),
            Err(error) => {
                let row = refused_by_host(error);
                Err(row.octets(self.sent()))
            }
        }
    }

    /// The original reports the octets copied. The job's own length is seen before, and is another where the original cuts.
    fn take(&mut self, slot: u8, size: usize) -> Row {
        let job = if usize::from(slot) < self.n { self.channels.job_lengths(slot.into()).first().copied() } else { None };
        let mut buffer = vec![0; size];
        let result = poll_once(pin!(self.channels.receive(index(slot), &mut buffer, self.host())));
        match result {
            Poll::Ready(Ok(copied)) => {
                buffer.truncate(copied);
                let length = job.expect("a job waited");
                Row::number(0).octets(buffer).column(copied).column(length).column(hex(&self.sent()))
            }
            Poll::Ready(Err(error)) => refused_by_host(error),
            Poll::Pending => Row::number(0),
        }
    }

    /// The original has wakers in place of the attention set: this is document 01's rule on the original's records.
    fn attention(&self) -> Row {
        let view = self.view();
        let calls = |slot: &usize| !view.slots[*slot].free() && view.slots[*slot].calls();
        let calling: Vec<usize> = (0..self.n).filter(calls).collect();
        let set: u32 = calling.iter().map(|slot| 1 << slot).sum();
        Row::number(0).column(set).column(calling.len()).column(calling.first().copied().unwrap_or(self.n))
    }

    fn queries(&self, slot: u8) -> Row {
        let (channels, at) = (self.channels, index(slot));
        let row = Row::number(0).column(channels.spsm(at)).column(channels.mtu(at)).column(channels.mps(at));
        row.column(channels.peer_mtu(at)).column(channels.peer_mps(at))
    }

    fn tallies(&self, slot: u8) -> Row {
        match self.channels.told_tallies(slot) {
            Some(tallies) => tallies.numbers().iter().fold(Row::number(0), Row::column),
            None => Row::new(Answer::Skipped).not_run(reasons::METRICS),
        }
    }

    fn parameter_request(&mut self, link: u16, param: &ConnParamUpdateReq) -> Row {
        let conn = self.link(link, true, true, false);
        let host = self.host();
        let sent = poll_once(pin!(host.send_conn_param_update_req(conn, param)));
        match sent {
            Poll::Ready(Ok(())) => Row::number(0).octets(self.sent()),
            _ => unreachable!("the host always sends"),
        }
    }

    fn parameter_response(&mut self, link: u16, param: &ConnParamUpdateRes) -> Row {
        let conn = self.link(link, true, true, true);
        let host = self.host();
        let sent = poll_once(pin!(host.send_conn_param_update_res(conn, param)));
        match sent {
            Poll::Ready(Ok(())) => Row::number(0).octets(self.sent()),
            _ => unreachable!("the host always sends"),
        }
    }
}
