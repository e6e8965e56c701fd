//! The `S` line. The original handles a whole PDU in one call; document 01 one signal a call. The PDU is cut at its headers and each
//! signal is handed over by itself, which the original cannot tell from its own loop (a test runs both). A PDU that fails the header
//! check is handed over whole.

use super::answers::{refused, result_code};
use super::{reasons, Driver};
use crate::connection::ConnectionEvent;
use crate::log;
use bt_hci::param::ConnHandle;
use language::{signals, Answer, Eyes, Reply, Row, HIGHEST_LINK};

const LE_CREDIT_CONN_RES: u8 = 0x15;

/// True for a connect response that decodes, but whose result is no value of the original's enum. Letting it in would be undefined.
fn undefined(signal: &[u8]) -> bool {
    signal[0] == LE_CREDIT_CONN_RES && signal.len() == 14 && result_code(u16::from_le_bytes([signal[12], signal[13]])).is_none()
}

/// What document 01 says of such a response: refusal 15 and a reject reply.
fn decode_refused(signal: &[u8]) -> Row {
    let reply = vec![0x06, 0x00, 0x05, 0x00, 0x01, signal[1], 0x02, 0x00, 0x00, 0x00];
    Row::number(15).octets(reply).not_run(reasons::RESULT)
}

impl<const M: usize> Driver<'_, M> {
    pub(super) fn signal(&mut self, link: u16, listening: bool, central: bool, pdu: &[u8]) -> Reply {
        let parts = match signals(pdu) {
            Some(parts) if !parts.is_empty() => parts,
            _ => vec![pdu],
        };
        if link > HIGHEST_LINK {
            let rows = vec![Row::number(4).not_run(reasons::LINK); parts.len()];
            return Reply { rows, view: None, between: vec![self.sight(); parts.len() - 1] };
        }
        let whole = signals(pdu).is_some();
        let (mut rows, mut between) = (Vec::<Row>::new(), Vec::new());
        for part in &parts {
            if !rows.is_empty() {
                between.push(self.sight());
            }
            if rows.last().is_some_and(|row| row.answer == Answer::Panic) {
                rows.push(Row::new(Answer::Panic));
            } else if whole && !part.is_empty() && undefined(part) {
                rows.push(decode_refused(part));
            } else {
                rows.push(self.ask(|this| this.hand_over(link, listening, central, part)));
            }
        }
        Reply { rows, view: None, between }
    }

    fn hand_over(&mut self, link: u16, listening: bool, central: bool, part: &[u8]) -> Row {
        let conn = self.link(link, true, listening, central);
        let _ = log::swallowed();
        let result = self.opening(|this| this.channels.signal(conn, part, this.connections));
        let row = match result.err().or_else(log::swallowed) {
            Some(error) => refused(error),
            None => Row::number(0),
        };
        let row = row.octets(self.reply(conn));
        self.event().into_iter().fold(row, Row::column)
    }

    /// What the original put into its outbound queue for this link.
    pub(super) fn reply(&self, conn: ConnHandle) -> Vec<u8> {
        let mut octets = Vec::new();
        while let std::task::Poll::Ready((to, pdu)) = super::poll_once(std::pin::pin!(self.connections.outbound())) {
            assert_eq!(to, conn, "a reply goes to the link that asked");
            octets.extend_from_slice(pdu.as_ref());
        }
        octets
    }

    /// The numbers of a parameter request that the original handed on as an event.
    fn event(&self) -> Vec<u64> {
        let mut numbers = Vec::new();
        while let Some(event) = self.connections.connection(0).events.take() {
            if let ConnectionEvent::RequestConnectionParams(request) = event {
                let params = request.params();
                numbers.push(params.min_connection_interval.as_micros() / 1_250);
                numbers.push(params.max_connection_interval.as_micros() / 1_250);
                numbers.push(u64::from(params.max_latency));
                numbers.push(params.supervision_timeout.as_micros() / 10_000);
            }
        }
        numbers
    }
}
