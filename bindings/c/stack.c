/* What a call takes of the stack: the calls are made on a stack that is painted before each, and the deepest octet that has lost its colour is told. It is no test: nothing is asserted.
 * gcc -O2 -static -o stack bindings/c/stack.c target/staticlib/libentries.a && ./stack */
#define _XOPEN_SOURCE 600
#include "l2cap_channels.h"
#include <stdio.h>
#include <string.h>
#include <ucontext.h>

/* The largest table, and a stack of many times what a call takes. Right below its caller's frame nothing is painted: the painter stands there. */
enum { N = 16, D = 4, M = 1024, STACK = 65536, PAINT = 0xA5, PAINTER = 64, SIGNALS = 250 };

static uint8_t table[L2CAP_TABLE_OCTETS], answer[L2CAP_ANSWER_OCTETS], room[L2CAP_ROOM_OCTETS(N, D, M)], signal[L2CAP_SIGNAL_OCTETS], out[4096], job[M], many[4 * SIGNALS], run[M], answers[2 * L2CAP_ANSWER_OCTETS];
static uint8_t stack[STACK] __attribute__((aligned(16)));
static ucontext_t here, there;
static const uint8_t *caller;

static __attribute__((noinline)) void paint(void) {
    uint8_t *own = (uint8_t *)__builtin_frame_address(0);
    caller = own + 2 * sizeof(void *);
    for (volatile uint8_t *p = stack; p < own - PAINTER; p++) *p = PAINT;
}

/* How far below its caller's frame a call has written. */
static __attribute__((noinline)) unsigned depth(void) {
    const volatile uint8_t *p = stack;
    while (*p == PAINT) p++;
    return (unsigned)(caller - p);
}

/* One call, made for good. */
#define CALL(what, call)                                                           \
    do {                                                                           \
        paint(), call;                                                             \
        printf("| %s | %u | %u |\n", what, l2cap_answer_refusal(answer), depth()); \
    } while (0)

#define LENT table, sizeof table, answer, sizeof answer
#define IN(octets) octets, sizeof octets
#define SIGNAL(octets) l2cap_signal(LENT, IN(room), IN(signal), 1, 1, 1, IN(octets))
#define DEFAULTS L2CAP_DEFAULT, L2CAP_DEFAULT, L2CAP_EVERY, 1, L2CAP_DEFAULT

/* Our attempt, which takes the lowest free slot, and the response that opens it. */
static uint8_t opens[] = {0x15, 0, 10, 0, 0x60, 0, 0, 4, 23, 0, 5, 0, 0, 0};
static void answered(void) { opens[1] = signal[5]; }

static void calls(void) {
    static const uint8_t request[] = {0x14, 7, 10, 0, 0x80, 0, 0x50, 0, 0, 4, 23, 0, 200, 0}, another[] = {0x14, 8, 10, 0, 0x80, 0, 0x51, 0, 0, 4, 23, 0, 200, 0};
    static const uint8_t stranger[] = {0x15, 99, 10, 0, 0, 0, 0, 0, 0, 0, 0, 0, 0, 0};
    static const uint8_t credits[] = {0x16, 8, 4, 0, 0x50, 0, 3, 0}, wish[] = {0x12, 9, 8, 0, 6, 0, 12, 0, 3, 0, 200, 0}, unknown[] = {0x30, 9, 0, 0};
    static const uint8_t ends[] = {0x06, 9, 4, 0, 0x41, 0, 0x50, 0}, ended[] = {0x07, 9, 4, 0, 0x50, 0, 0x40, 0};
    static const uint8_t whole[1002] = {0xE8, 3}, start[] = {0xE8, 3, 1};
    size_t n;

    CALL("make", l2cap_make(LENT, IN(room), N, D, M));
    CALL("register_spsm", l2cap_register_spsm(LENT, 0x80));
    CALL("signal, a connect request", SIGNAL(request));
    CALL("next_pending", l2cap_next_pending(LENT, 1, 1));
    CALL("accept_pending", l2cap_accept_pending(LENT, IN(signal), 0, DEFAULTS));
    SIGNAL(another);
    CALL("reject_all_pending", l2cap_reject_all_pending(LENT, IN(room), IN(signal), 1));
    SIGNAL(another), l2cap_next_pending(LENT, 1, 1);
    CALL("reject_pending", l2cap_reject_pending(LENT, IN(room), IN(signal), 1, L2CAP_RESULT_NO_RESOURCES));
    SIGNAL(another), l2cap_next_pending(LENT, 1, 1);
    CALL("drop_pending", l2cap_drop_pending(LENT, IN(room), 1));
    CALL("signal, credits", SIGNAL(credits));
    CALL("signal, a parameter request", SIGNAL(wish));
    CALL("signal, unknown", SIGNAL(unknown));
    CALL("signal, 250 in a PDU", SIGNAL(many));
    CALL("signal_rest", (void)l2cap_signal_rest(IN(many)));
    CALL("dispatch, a whole job", l2cap_dispatch(LENT, IN(room), 1, 0x40, IN(whole)));
    CALL("dispatch, a job's start", l2cap_dispatch(LENT, IN(room), 1, 0x40, IN(start)));
    CALL("attention", l2cap_attention(LENT));
    CALL("spsm", l2cap_spsm(LENT, 0));
    CALL("mtu", l2cap_mtu(LENT, 0));
    CALL("mps", l2cap_mps(LENT, 0));
    CALL("peer_mtu", l2cap_peer_mtu(LENT, 0));
    CALL("peer_mps", l2cap_peer_mps(LENT, 0));
    CALL("tally_sent", l2cap_tally_sent(LENT, 0));
    CALL("tally_received", l2cap_tally_received(LENT, 0));
    CALL("tally_blocked_sends", l2cap_tally_blocked_sends(LENT, 0));
    CALL("tally_blocked_receives", l2cap_tally_blocked_receives(LENT, 0));
    n = l2cap_run_frame(run, sizeof run, 1, 0x7F, IN(start));
    n += l2cap_run_frame(run + n, sizeof run - n, 1, 0x40, IN(start));
    CALL("dispatch_run, two frames", l2cap_dispatch_run(LENT, IN(room), run, n, IN(answers)));
    CALL("receive", l2cap_receive(LENT, IN(room), IN(signal), IN(job), 0));
    CALL("send, 44 frames", l2cap_send(LENT, IN(out), 0, whole, 1000));
    n = l2cap_run_job(run, sizeof run, 0, whole, 1000);
    CALL("send_run, a job of 44 frames", l2cap_send_run(LENT, IN(out), run, n, IN(answers)));
    CALL("start_job", l2cap_start_job(LENT, IN(out), 0, 1000));
    CALL("cancel_job, before a frame", l2cap_cancel_job(LENT, IN(room), 0));
    l2cap_start_job(LENT, IN(out), 0, 1000);
    CALL("give_portion, a frame's start", l2cap_give_portion(LENT, IN(out), 0, whole, 10));
    CALL("give_portion, a frame's end", l2cap_give_portion(LENT, IN(out), 0, whole, 990));
    CALL("give_portion, more than stated", l2cap_give_portion(LENT, IN(out), 0, whole, 1000));
    CALL("dispatch, a bad frame", l2cap_dispatch(LENT, IN(room), 1, 0x40, IN(whole)));
    CALL("next_disconnect, ours", l2cap_next_disconnect(LENT, IN(room), IN(signal)));
    CALL("signal, a disconnect response", SIGNAL(ended));
    CALL("inc_ref", l2cap_inc_ref(LENT, 0));
    CALL("dec_ref", l2cap_dec_ref(LENT, IN(room), 0));
    CALL("send_conn_param_update_req", l2cap_send_conn_param_update_req(LENT, IN(signal), 1, 6, 12, 0, 200));
    CALL("send_conn_param_update_res", l2cap_send_conn_param_update_res(LENT, IN(signal), 1, 0));
    CALL("create", l2cap_create(LENT, IN(signal), 1, 0x80, DEFAULTS));
    answered();
    CALL("signal, a connect response", SIGNAL(opens));
    CALL("opened", l2cap_opened(LENT, IN(room), 1, 1, 1));
    CALL("disconnect", l2cap_disconnect(LENT, IN(room), 1));
    CALL("signal, a disconnect request", SIGNAL(ends));
    CALL("next_disconnect, the peer's", l2cap_next_disconnect(LENT, IN(room), IN(signal)));
    l2cap_create(LENT, IN(signal), 1, 0x80, DEFAULTS), answered(), SIGNAL(opens);
    l2cap_start_job(LENT, IN(out), 2, 30), l2cap_give_portion(LENT, IN(out), 2, whole, 30);
    CALL("cancel_job, behind a frame", l2cap_cancel_job(LENT, IN(room), 2));
    l2cap_create(LENT, IN(signal), 1, 0x80, DEFAULTS), answered(), SIGNAL(opens);
    CALL("disconnect_by_cid", l2cap_disconnect_by_cid(LENT, IN(room), 0x43));
    l2cap_create(LENT, IN(signal), 1, 0x80, DEFAULTS);
    CALL("give_up", l2cap_give_up(LENT, IN(room), 4));
    l2cap_create(LENT, IN(signal), 1, 0x80, DEFAULTS);
    CALL("signal, an unmatched response", SIGNAL(stranger));
    CALL("disconnected", l2cap_disconnected(LENT, IN(room), 1));
    CALL("version_4", (void)l2cap_version_4());
}

int main(void) {
    for (int k = 0; k < SIGNALS; k++) many[4 * k] = 0x30;
    puts("| call | answer | octets of stack |\n|---|---|---|");
    getcontext(&there);
    there.uc_stack.ss_sp = stack;
    there.uc_stack.ss_size = sizeof stack;
    there.uc_link = &here;
    makecontext(&there, calls, 0);
    swapcontext(&here, &there);
    return 0;
}
