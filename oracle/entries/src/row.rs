//! The row of a call from what its entry left. Row and answer say the same: an answer with another octet than the row asks for, and a buffer with
//! an octet behind what was written, show in the row.

use crate::lent::Lent;
use crate::memory::{Asked, Memory};
use language::{hex, Call, Row};

const DONE: u8 = 0;
const REFUSED: u8 = 1;
const AT: u8 = 2;
const LINK: u8 = 3;
const OPENED: u8 = 4;
const DUE: u8 = 5;
const FRAMES: u8 = 6;
pub const JOB: u8 = 7;
const ATTENTION: u8 = 8;
const NUMBER: u8 = 9;
const EVENT: u8 = 10;
const PORTION: u8 = 12;
const CONNECT_ERROR: u32 = 17;

/// The row. `link` is that of the slot that the call names, from before the call: some answers carry it and no row shows it.
pub fn row(memory: &Memory, asked: Asked<'_>, link: u16) -> Row {
    let answer = memory.answer.octets();
    let numbers = [6, 8, 10, 12].map(|at| u16::from_le_bytes([answer[at], answer[at + 1]]));
    // A take's signal is the grant of a job that was taken: its row has a column for it, and no other row of a take.
    let silent = matches!(asked.call, Call::Take { .. }) && answer[0] != JOB;
    let written = if silent { 0 } else { u32::from_le_bytes([answer[2], answer[3], answer[4], answer[5]]) };
    let taken = if answer[0] == JOB { usize::from(numbers[1]) } else { 0 };
    let none = Lent::new(0);
    let slot = usize::from(asked.call.slot().unwrap_or(0));
    let (buffer, in_buffer, in_signal) = match asked.call {
        // What stands behind in a buffer that stays is looked at with the table: `Memory::differs`.
        Call::Start { .. } | Call::Portion { .. } => (memory.buffers.get(slot).unwrap_or(&none), written as usize, 0),
        Call::Send { .. } => (&memory.out, written as usize, 0),
        Call::Take { .. } => (&memory.job, taken, written as usize),
        _ => (&memory.signal, written as usize, written as usize),
    };
    let told = told(asked.call, memory.number, answer[0], numbers, link);
    let (columns, carried) = told.clone().unwrap_or_default();
    let mut row = Row::number(memory.number as u16).octets(start(buffer.octets(), in_buffer));
    row = columns.into_iter().fold(row, Row::column);
    if answer[0] == JOB {
        row = row.column(hex(&start(memory.signal.octets(), in_signal)));
    }
    let mut exact = vec![answer[0], memory.number as u8];
    exact.extend(written.to_le_bytes());
    carried.iter().for_each(|number| exact.extend(number.to_le_bytes()));
    exact.extend([0, 0]);
    if told.is_none() || exact != answer || !memory.answer.untouched_behind() {
        row = row.column(format!("answer:{}", hex(answer)));
    }
    let stays = matches!(asked.call, Call::Start { .. } | Call::Portion { .. });
    if !(memory.signal.untouched_from(in_signal) && (stays || buffer.untouched_from(in_buffer))) {
        row = row.column("behind-what-was-written");
    }
    row
}

/// The columns of the row and the four numbers of the answer; none where the answer is of a kind that this call never has.
fn told(call: &Call, refusal: u32, kind: u8, numbers: [u16; 4], link: u16) -> Option<(Vec<u64>, [u16; 4])> {
    let [first, second, third, _] = numbers;
    let columns = |numbers: &[u16]| numbers.iter().map(|number| u64::from(*number)).collect();
    if refusal != 0 {
        let code = if refusal == CONNECT_ERROR { vec![first] } else { vec![] };
        let carried = [code.first().copied().unwrap_or(0), 0, 0, 0];
        return (kind == REFUSED).then_some((columns(&code), carried));
    }
    match (call, kind) {
        (Call::NextPending { .. } | Call::RejectStep { .. } | Call::Create { .. }, AT) => Some((columns(&[first]), [first, 0, 0, 0])),
        (Call::Accept { .. } | Call::Reject { .. }, LINK) => Some((vec![], [link, 0, 0, 0])),
        (Call::Opened { .. }, OPENED) => Some((vec![1], [0; 4])),
        (Call::Opened { .. }, DONE) => Some((vec![0], [0; 4])),
        (Call::NextDisconnect, DUE) => Some((columns(&[first, second]), [first, second, 0, 0])),
        (Call::Send { .. }, FRAMES) => Some((columns(&[second]), [link, second, 0, 0])),
        (Call::Start { .. }, FRAMES) => Some((columns(&[second]), [link, second, 0, 0])),
        (Call::Portion { .. }, PORTION) => Some((columns(&[second, third]), [link, second, third, 0])),
        (Call::Start { .. } | Call::Portion { .. }, DONE) => None,
        // One length, which the row has twice.
        (Call::Take { .. }, JOB) => Some((columns(&[second, second]), [link, second, 0, 0])),
        (Call::Attention, ATTENTION) => Some((columns(&[first, second, third]), [first, second, third, 0])),
        (Call::Queries { .. }, NUMBER) => Some((columns(&[first]), [first, 0, 0, 0])),
        // One number of 64 bits: its lowest 16 first.
        (Call::Tallies { .. }, NUMBER) => Some((vec![numbers.iter().rev().fold(0, |high, low| high << 16 | u64::from(*low))], numbers)),
        (Call::Signal { .. }, EVENT) => Some((columns(&numbers), numbers)),
        (Call::Accept { .. } | Call::Reject { .. } | Call::Create { .. } | Call::Send { .. }, DONE) => None,
        (Call::Attention | Call::Queries { .. } | Call::Tallies { .. }, DONE) => None,
        (_, DONE) => Some((vec![], [0; 4])),
        _ => None,
    }
}

/// The first octets of a buffer.
fn start(octets: &[u8], count: usize) -> Vec<u8> {
    octets[..count.min(octets.len())].to_vec()
}
