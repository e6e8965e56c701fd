//! What the entries are lent and leave: the table and the room, which stay from call to call, and the buffers of one call.

use crate::archive;
use crate::layout::{read, spell, TABLE_OCTETS};
use crate::lent::Lent;
use language::{Call, Config, Policy, Sight, SlotView, View, BUFFER, SLOTS};

const ANSWER_OCTETS: usize = 16;
const SIGNAL_OCTETS: usize = 18;
/// A frame output that always suffices, as `chanrun` lends it.
const OUT_OCTETS: usize = 76_935;
/// A setting above 65,535 is the default.
const DEFAULT: u32 = u32::MAX;

/// One call of an entry. A line of the language is one of them but for three: `S` is one for each signal, with what is left of its PDU, `U`
/// asks five questions and `t` four.
#[derive(Clone, Copy)]
pub struct Asked<'a> {
    pub call: &'a Call,
    pub pdu: &'a [u8],
    pub question: usize,
}

pub struct Memory {
    pub table: Lent,
    pub room: Lent,
    /// What the entry returned, and what it was lent besides.
    pub number: u32,
    pub answer: Lent,
    pub signal: Lent,
    pub out: Lent,
    pub job: Lent,
    /// By slot: the buffer of its open job, which stays from call to call too. It is lent as far as the line says.
    pub buffers: Vec<Lent>,
}

impl Memory {
    /// Before the first table.
    pub fn new() -> Self {
        let none = || Lent::new(0);
        let table = Lent::new(TABLE_OCTETS);
        Self { table, room: none(), number: 0, answer: none(), signal: none(), out: none(), job: none(), buffers: Vec::new() }
    }

    /// Calls an entry, with buffers that are painted anew.
    pub fn enter(&mut self, asked: Asked<'_>) {
        self.answer = Lent::new(ANSWER_OCTETS);
        self.signal = Lent::new(SIGNAL_OCTETS);
        match asked.call {
            Call::Send { .. } => self.out = Lent::new(OUT_OCTETS),
            Call::Take { size, .. } => self.job = Lent::new(usize::from(*size)),
            // Table and room are painted too: a making has to write the one and to zero the other.
            Call::Make { n, d, m } => {
                let place = usize::from(m.saturating_sub(6));
                self.table = Lent::new(TABLE_OCTETS);
                self.room = Lent::new(usize::from(*n) * (usize::from(*d) + 1) * place);
                self.buffers = vec![Lent::new(BUFFER); usize::from(SLOTS)];
            }
            _ => {}
        }
        let Self { table, room, number, answer, signal, out, job, buffers } = self;
        let (table, room, answer, signal) = (table.lend(), room.lend(), answer.lend(), signal.lend());
        // A slot number above 255 is past every table, as 255 is.
        let slot = asked.call.slot().unwrap_or(0).min(255) as u8;
        // One past the table has a buffer to be lent, and to be left alone.
        let buffer = buffers.get_mut(usize::from(slot).min(usize::from(SLOTS) - 1));
        let lend = |size: &u16| buffer.map_or(&mut [][..], |buffer| &mut buffer.lend()[..usize::from(*size)]);
        *number = match asked.call {
            Call::Make { n, d, m } => archive::make(table, answer, room, *n, *d, *m),
            Call::Register { spsm } => archive::register_spsm(table, answer, *spsm),
            Call::Signal { link, listening, central, .. } => {
                archive::signal(table, answer, room, signal, *link, (*listening).into(), (*central).into(), asked.pdu)
            }
            Call::NextPending { link, up } => archive::next_pending(table, answer, *link, (*up).into()),
            Call::RejectStep { link } => archive::reject_all_pending(table, answer, room, signal, *link),
            Call::Accept { config, .. } => {
                let (mtu, mps, kind, value, credits) = numbers(config);
                archive::accept_pending(table, answer, signal, slot, mtu, mps, kind, value, credits)
            }
            Call::Reject { result, .. } => archive::reject_pending(table, answer, room, signal, slot, *result),
            Call::DropPending { .. } => archive::drop_pending(table, answer, room, slot),
            Call::Create { link, spsm, config } => {
                let (mtu, mps, kind, value, credits) = numbers(config);
                archive::create(table, answer, signal, *link, *spsm, mtu, mps, kind, value, credits)
            }
            Call::Opened { link, up, .. } => archive::opened(table, answer, room, slot, *link, (*up).into()),
            Call::GiveUp { .. } => archive::give_up(table, answer, room, slot),
            Call::AddHold { .. } => archive::inc_ref(table, answer, slot),
            Call::Release { .. } => archive::dec_ref(table, answer, room, slot),
            Call::Disconnect { .. } => archive::disconnect(table, answer, room, slot),
            Call::DisconnectByCid { cid } => archive::disconnect_by_cid(table, answer, room, *cid),
            Call::LinkDown { link } => archive::disconnected(table, answer, room, *link),
            Call::NextDisconnect => archive::next_disconnect(table, answer, room, signal),
            Call::Frame { link, cid, payload } => {
                let head = [link.to_le_bytes(), cid.to_le_bytes()].concat();
                match item(&head, payload).map(|frames| archive::dispatch_run(table, &mut [0; ANSWER_OCTETS], room, &frames, answer)) {
                    Some(0) => answer[1].into(),
                    _ => archive::dispatch(table, answer, room, *link, *cid, payload),
                }
            }
            Call::Send { sdu, .. } => {
                match item(&[slot], sdu).map(|jobs| archive::send_run(table, &mut [0; ANSWER_OCTETS], out.lend(), &jobs, answer)) {
                    Some(0) => answer[1].into(),
                    _ => archive::send(table, answer, out.lend(), slot, sdu),
                }
            }
            Call::Start { length, size, .. } => archive::start_job(table, answer, lend(size), slot, usize::from(*length)),
            Call::Portion { size, octets, .. } => archive::give_portion(table, answer, lend(size), slot, octets),
            Call::Cancel { .. } => archive::cancel_job(table, answer, room, slot),
            Call::Take { .. } => archive::receive(table, answer, room, signal, job.lend(), slot),
            Call::Attention => archive::attention(table, answer),
            Call::Queries { .. } => {
                let questions = [archive::spsm, archive::mtu, archive::mps, archive::peer_mtu, archive::peer_mps];
                questions[asked.question](table, answer, slot)
            }
            Call::Tallies { .. } => {
                use archive::{tally_blocked_receives, tally_blocked_sends, tally_received, tally_sent};
                [tally_sent, tally_received, tally_blocked_sends, tally_blocked_receives][asked.question](table, answer, slot)
            }
            Call::ParameterRequest { link, min, max, latency, timeout } => {
                archive::send_conn_param_update_req(table, answer, signal, *link, *min, *max, *latency, *timeout)
            }
            Call::ParameterResponse { link, result } => archive::send_conn_param_update_res(table, answer, signal, *link, *result),
            Call::View | Call::Room { .. } | Call::OpenJob { .. } | Call::Unread(_) => unreachable!("no entry is asked"),
        };
    }

    pub fn table(&self) -> &[u8; TABLE_OCTETS] {
        self.table.octets().try_into().expect("a table's octets")
    }

    pub fn view(&self) -> View {
        read(self.table())
    }

    /// Without the buffers, which a planted fault changes where they stand.
    pub fn sight(&self) -> Sight {
        Sight { view: self.view(), room: self.room.octets().to_vec(), buffers: Vec::new() }
    }

    /// Has another table and room stand here, for a planted fault.
    pub fn put(&mut self, sight: &Sight) {
        self.table.lend().copy_from_slice(&spell(&sight.view));
        self.room.lend().copy_from_slice(&sight.room);
    }

    /// Where table and room aren't what must stand here: what must, and what does.
    pub fn differs(&self, sight: &Sight) -> Option<(String, String)> {
        let table = spell(&sight.view);
        if *self.table() != table {
            let (must, does) = (lines(&sight.view), lines(&self.view()));
            let line = must.into_iter().zip(does).find(|(must, does)| must != does);
            return line.or_else(|| counted(&sight.view, &self.view())).or_else(|| octet("table", &table, self.table()));
        }
        if !(self.table.untouched_behind() && self.room.untouched_behind()) {
            return Some(("nothing written behind table and room".to_string(), "octets behind them".to_string()));
        }
        // Of a slot's buffer what was never written is as it was painted.
        let touched = |(buffer, must): &(&Lent, &Vec<u8>)| buffer.octets()[..must.len()] != must[..] || !buffer.untouched_from(must.len());
        if let Some((buffer, must)) = self.buffers.iter().zip(&sight.buffers).find(touched) {
            let written = || Some(("nothing written behind an open job's octets".to_string(), "octets behind them".to_string()));
            return octet("buffer", must, &buffer.octets()[..must.len()]).or_else(written);
        }
        octet("room", &sight.room, self.room.octets())
    }
}

/// A frame or a job as the one of a run, where its octets are odd in number: so both ways are gone. (What refuses a run of one is its table or its room: the single call says it then.)
fn item(head: &[u8], body: &[u8]) -> Option<Vec<u8>> {
    let length = u16::try_from(body.len()).ok().filter(|length| length % 2 == 1)?;
    Some([head, &length.to_le_bytes(), body].concat())
}

/// A configuration as it crosses: MTU, MPS, the policy's kind and its number, credits.
fn numbers(config: &Config) -> (u32, u32, u8, u16, u32) {
    let setting = |number: Option<u16>| number.map_or(DEFAULT, u32::from);
    let (kind, value) = match config.policy.unwrap_or(Policy::Every(1)) {
        Policy::Every(count) => (0, count),
        Policy::MinThreshold(threshold) => (1, threshold),
    };
    (setting(config.mtu), setting(config.mps), kind, value, setting(config.credits))
}

/// What `V` prints.
pub fn lines(view: &View) -> Vec<String> {
    language::Reply::from(view.clone()).lines()
}

/// The first slot whose tallies differ, as `t` prints them.
fn counted(must: &View, does: &View) -> Option<(String, String)> {
    let (slot, (must, does)) = must.slots.iter().zip(&does.slots).enumerate().find(|(_, (must, does))| must.tallies != does.tallies)?;
    let shown = |record: &SlotView| format!("slot {slot} counted {:?}", record.tallies.numbers());
    Some((shown(must), shown(does)))
}

/// The first octet that differs.
fn octet(of: &str, must: &[u8], does: &[u8]) -> Option<(String, String)> {
    if must == does {
        return None;
    }
    let at = must.iter().zip(does).position(|(must, does)| must != does).unwrap_or(0);
    let shown = |octets: &[u8]| format!("{of} octet {at} of {}: {:02x}", octets.len(), octets.get(at).copied().unwrap_or(0));
    Some((shown(must), shown(does)))
}
