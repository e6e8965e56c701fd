// The entries' rows. A call (`fn`): its name, the entry, and behind table and answer the slices that it is lent; its numbers; the slices that it reads; and of a run the answers, which it is lent too. A question
// (`ask`), which reads the table and is lent the answer alone: its name, the entry, its numbers. They stand here once, for the macro that makes functions of them: `entries!` of entries.rs, the one of the
// tests, and the oracle's, which calls the archive beside the original.
macro_rules! rows {
    ($of:ident) => {
        $of! {
            fn make = l2cap_make(room; channels: u16, queue: u16, packet: u16;);
            fn register_spsm = l2cap_register_spsm(; spsm: u16;);
            fn signal = l2cap_signal(room, signal; link: u16, listening: u8, central: u8; pdu);
            fn next_pending = l2cap_next_pending(; link: u16, up: u8;);
            fn accept_pending = l2cap_accept_pending(signal; slot: u8, mtu: u32, mps: u32, kind: u8, value: u16, credits: u32;);
            fn reject_pending = l2cap_reject_pending(room, signal; slot: u8, result: u16;);
            fn reject_all_pending = l2cap_reject_all_pending(room, signal; link: u16;);
            fn drop_pending = l2cap_drop_pending(room; slot: u8;);
            fn create = l2cap_create(signal; link: u16, spsm: u16, mtu: u32, mps: u32, kind: u8, value: u16, credits: u32;);
            fn opened = l2cap_opened(room; slot: u8, link: u16, up: u8;);
            fn give_up = l2cap_give_up(room; slot: u8;);
            fn inc_ref = l2cap_inc_ref(; slot: u8;);
            fn dec_ref = l2cap_dec_ref(room; slot: u8;);
            fn disconnect = l2cap_disconnect(room; slot: u8;);
            fn disconnect_by_cid = l2cap_disconnect_by_cid(room; cid: u16;);
            fn disconnected = l2cap_disconnected(room; link: u16;);
            fn next_disconnect = l2cap_next_disconnect(room, signal;;);
            fn dispatch = l2cap_dispatch(room; link: u16, cid: u16; payload);
            fn send = l2cap_send(out; slot: u8; sdu);
            fn start_job = l2cap_start_job(buffer; slot: u8, length: usize;);
            fn give_portion = l2cap_give_portion(buffer; slot: u8; octets);
            fn cancel_job = l2cap_cancel_job(room; slot: u8;);
            fn receive = l2cap_receive(room, signal, job; slot: u8;);
            fn dispatch_run = l2cap_dispatch_run(room;; frames; answers);
            fn send_run = l2cap_send_run(out;; jobs; answers);
            fn send_conn_param_update_req = l2cap_send_conn_param_update_req(signal; link: u16, min: u16, max: u16, latency: u16, timeout: u16;);
            fn send_conn_param_update_res = l2cap_send_conn_param_update_res(signal; link: u16, result: u16;);
            ask attention = l2cap_attention();
            ask spsm = l2cap_spsm(slot: u8);
            ask mtu = l2cap_mtu(slot: u8);
            ask mps = l2cap_mps(slot: u8);
            ask peer_mtu = l2cap_peer_mtu(slot: u8);
            ask peer_mps = l2cap_peer_mps(slot: u8);
            ask tally_sent = l2cap_tally_sent(slot: u8);
            ask tally_received = l2cap_tally_received(slot: u8);
            ask tally_blocked_sends = l2cap_tally_blocked_sends(slot: u8);
            ask tally_blocked_receives = l2cap_tally_blocked_receives(slot: u8);
        }
    };
}
