//! Every call that reads a table, made by its name.

use super::*;

pub const HIGH: ConnHandle = ConnHandle(0x0F00);
pub const BUFFER: [u8; SIGNAL_OCTETS] = [0x77; SIGNAL_OCTETS];

fn wish() -> ConnParamUpdateReq {
    ConnParamUpdateReq { interval_min: 6, interval_max: 6, latency: 0, timeout: 10 }
}

/// The calls that read a table.
pub const CALLS: [&str; 36] = [
    "register_spsm",
    "signal",
    "send_conn_param_update_req",
    "send_conn_param_update_res",
    "next_pending",
    "accept_pending",
    "reject_pending",
    "reject_all_pending",
    "drop_pending",
    "create",
    "opened",
    "give_up",
    "inc_ref",
    "dec_ref",
    "disconnect",
    "disconnect_by_cid",
    "disconnected",
    "next_disconnect",
    "dispatch",
    "send",
    "start_job",
    "give_portion",
    "cancel_job",
    "receive",
    "dispatch_run",
    "send_run",
    "attention",
    "spsm",
    "mtu",
    "mps",
    "peer_mtu",
    "peer_mps",
    "tally_sent",
    "tally_received",
    "tally_blocked_sends",
    "tally_blocked_receives",
];

/// A run of one frame, or of one job, in octets that have a place for it.
pub fn one_frame(octets: &mut [u8], link: ConnHandle) -> FrameRun<'_> {
    let mut run = FrameRun::new(octets);
    run.push(link, Cid(0x40), &[0, 0]).expect("a place");
    run
}

pub fn one_job(octets: &mut [u8], index: ChannelIndex) -> JobRun<'_> {
    let mut run = JobRun::new(octets);
    run.push(index, &[]).expect("a place");
    run
}

/// One of them, with what it refuses by.
pub fn call(name: &str, channels: &mut ChannelManager<'_>, link: ConnHandle, index: ChannelIndex, signal: &mut [u8]) -> Option<Refusal> {
    let usual = L2capChannelConfig::default();
    let (mut job, mut out) = ([0; PLACE], [0; 64]);
    match name {
        "register_spsm" => channels.register_spsm(SPSM).err(),
        "signal" => channels.signal(link, true, LeConnRole::Central, &[], signal).outcome.err(),
        "send_conn_param_update_req" => channels.send_conn_param_update_req(link, &wish(), signal).err(),
        "send_conn_param_update_res" => channels.send_conn_param_update_res(link, 0, signal).err(),
        "next_pending" => channels.next_pending(link, true).map(|hold| hold.map(Hold::into_index)).err(),
        "accept_pending" => channels.accept_pending(index, &usual, signal).err(),
        "reject_pending" => ended(channels.reject_pending(Hold::of(index), LeCreditConnResultCode::NoResources, signal)).err(),
        "reject_all_pending" => channels.reject_all_pending(link, signal).err(),
        "drop_pending" => ended(channels.drop_pending(Hold::of(index))).map(|hold| hold.map(Hold::into_index)).err(),
        "create" => channels.create(link, SPSM, &usual, signal).err(),
        "opened" => channels.opened(index, link, true).map(|hold| hold.map(Hold::into_index)).err(),
        "give_up" => channels.give_up(index).err(),
        "inc_ref" => channels.inc_ref(index).map(Hold::into_index).err(),
        "dec_ref" => ended(channels.dec_ref(Hold::of(index))).err(),
        "disconnect" => channels.disconnect(index).err(),
        "disconnect_by_cid" => channels.disconnect_by_cid(Cid(0x40)).err(),
        "disconnected" => channels.disconnected(link).err(),
        "next_disconnect" => channels.next_disconnect(signal).err(),
        "dispatch" => channels.dispatch(link, Cid(0x40), &[0, 0]).err(),
        "send" => channels.send(index, &[], &mut out).err(),
        "start_job" => channels.start_job(index, 0, &mut out).map(|_| ()).err(),
        "give_portion" => channels.give_portion(index, &[], &mut out).err(),
        "cancel_job" => channels.cancel_job(index).err(),
        "receive" => channels.receive(index, &mut job, signal).err(),
        "dispatch_run" => channels.dispatch_run(&mut one_frame(&mut [0; 8], link), &mut [[0; ANSWER_OCTETS]]).err(),
        "send_run" => channels.send_run(&mut one_job(&mut [0; 3], index), &mut out, &mut [[0; ANSWER_OCTETS]]).err(),
        "attention" => channels.attention().err(),
        "spsm" => channels.spsm(index).err(),
        "mtu" => channels.mtu(index).err(),
        "mps" => channels.mps(index).err(),
        "peer_mtu" => channels.peer_mtu(index).err(),
        "peer_mps" => channels.peer_mps(index).err(),
        // One call asks all four.
        "tally_sent" | "tally_received" | "tally_blocked_sends" | "tally_blocked_receives" => channels.tallies(index).err(),
        other => panic!("no call has the name {other}"),
    }
}

/// A table with an open channel in slot 0, a waiting job and half of another.
pub fn busy() -> (Table, Vec<u8>) {
    let mut room = [0; ROOM];
    let mut channels = made(&mut room);
    let index = opened(&mut channels);
    channels.dispatch(PHONE, index.cid(), &[2, 0, 1, 2]).unwrap();
    channels.dispatch(PHONE, index.cid(), &[4, 0, 3]).unwrap();
    state(&channels)
}
