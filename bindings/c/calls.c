/* What a call costs through the archive: its time, and how often it copies a whole table; what a PDU of many signals costs, fed one by one; and a send, a job in portions and a frame in on the largest table. It is no test: nothing is asserted.
 * gcc -O2 -Wl,--wrap=memcpy -o calls bindings/c/calls.c target/staticlib/libentries.a && ./calls */
#include "l2cap_channels.h"
#include <stdio.h>
#include <string.h>
#include <time.h>

enum { N = 4, D = 1, M = 64, ROOM = N * (D + 1) * (M - 6), TABLE = 1200, TURNS = 1000, SAMPLES = 101, SIGNALS = 16383 };

static uint8_t kept[L2CAP_TABLE_OCTETS], table[L2CAP_TABLE_OCTETS], answer[L2CAP_ANSWER_OCTETS], room[ROOM], signal[L2CAP_SIGNAL_OCTETS], out[64], job[64], pdu[4 * SIGNALS];
static uint8_t large[L2CAP_ROOM_OCTETS(16, 4, 1024)], frames[2048], sdu[1020];
static unsigned copies;

/* A copy of so many octets is one of a table: nothing else in a call on these sizes is as long. */
void *__real_memcpy(void *to, const void *from, size_t n);
void *__wrap_memcpy(void *to, const void *from, size_t n) {
    copies += n >= TABLE;
    return __real_memcpy(to, from, n);
}

static double now(void) {
    struct timespec t;
    clock_gettime(CLOCK_MONOTONIC, &t);
    return t.tv_sec * 1e9 + t.tv_nsec;
}

/* The table as it was before the call: every turn starts from it. */
static void again(void) { __real_memcpy(table, kept, sizeof table); }

/* The call on the table as it stands, timed and counted; then made once more for good. */
#define CALL(what, call)                                                      \
    do {                                                                      \
        double best = 1e18;                                                   \
        unsigned refusal, n;                                                  \
        again(), copies = 0, refusal = call, n = copies;                      \
        for (int s = 0; s < SAMPLES; s++) {                                   \
            double from = now(), took;                                        \
            for (int k = 0; k < TURNS; k++) again(), call;                    \
            took = (now() - from) / TURNS;                                    \
            if (took < best) best = took;                                     \
        }                                                                     \
        printf("| %s | %u | %u | %.0f |\n", what, refusal, n, best);          \
        __real_memcpy(kept, table, sizeof kept);                              \
    } while (0)

#define LENT table, sizeof table, answer, sizeof answer
#define IN(octets) octets, sizeof octets

/* A PDU of so many signals, the shortest that there are, fed one by one: the fastest of some samples, in all and for each signal. */
static void fed(unsigned signals) {
    double best = 1e18;
    for (unsigned k = 0; k < signals; k++) pdu[4 * k] = 0x30, pdu[4 * k + 1] = 1;
    for (int s = 0; s < 21 + 1000 / (int)signals; s++) {
        double from = now(), took;
        for (size_t left = 4 * signals; left;) {
            const uint8_t *rest = pdu + 4 * signals - left;
            l2cap_signal(LENT, IN(room), IN(signal), 1, 1, 0, rest, left);
            left = l2cap_signal_rest(rest, left);
        }
        took = now() - from;
        if (took < best) best = took;
    }
    printf("| %u | %u | %.1f | %.2f |\n", signals, 4 * signals, best / 1e3, best / 1e3 / signals);
}

/* A job of so many octets, in one frame: sent; and in one portion, by a start and the portion that gives out its frame. Each tells how often it was refused. */
static unsigned whole(uint8_t slot, size_t octets) {
    return l2cap_send(LENT, IN(frames), slot, sdu, octets) != 0;
}

static unsigned portioned(uint8_t slot, size_t octets) {
    return (l2cap_start_job(LENT, IN(frames), slot, octets) != 0) + (l2cap_give_portion(LENT, IN(frames), slot, sdu, octets) != 0);
}

/* Such jobs on the largest table, every slot open, one slot after the other: the fastest of some samples. */
static void sends(unsigned (*job)(uint8_t, size_t), size_t octets) {
    double best = 1e18;
    unsigned refusals = 0;
    for (int s = 0; s < SAMPLES; s++) {
        double from, took;
        again(), from = now();
        for (int k = 0; k < TURNS; k++) refusals += job(k % 16, octets);
        took = (now() - from) / TURNS;
        if (took < best) best = took;
    }
    printf("| %zu | %u | %.0f |\n", octets, refusals, best);
}

/* A payload of so many octets that brings a whole job, on that table, one slot after the other: where no place is free any more, the table as it was. */
static void arrives(uint16_t octets) {
    double best = 1e18;
    unsigned refusals = 0;
    sdu[0] = (octets - 2) & 255, sdu[1] = (octets - 2) >> 8;
    for (int s = 0; s < SAMPLES; s++) {
        double from = now(), took;
        for (int k = 0; k < TURNS; k++) {
            if (k % 64 == 0) again();
            refusals += l2cap_dispatch(LENT, IN(large), 1, 0x40 + k % 16, sdu, octets) != 0;
        }
        took = (now() - from) / TURNS;
        if (took < best) best = took;
    }
    printf("| %u | %u | %.0f |\n", octets, refusals, best);
}

static void open_all(void) {
    uint8_t request[] = {0x14, 7, 10, 0, 0x80, 0, 0x50, 0, 0xFC, 3, 0xFE, 3, 0xFF, 0xFF};
    l2cap_make(LENT, IN(large), 16, 4, 1024);
    l2cap_register_spsm(LENT, 0x80);
    for (uint8_t k = 0; k < 16; k++) {
        request[6] = 0x50 + k;
        l2cap_signal(LENT, IN(large), IN(signal), 1, 1, 0, IN(request));
        l2cap_next_pending(LENT, 1, 1);
        l2cap_accept_pending(LENT, IN(signal), k, L2CAP_DEFAULT, L2CAP_DEFAULT, L2CAP_EVERY, 1, L2CAP_DEFAULT);
    }
    __real_memcpy(kept, table, sizeof kept);
}

int main(void) {
    static const uint8_t request[] = {0x14, 7, 10, 0, 0x80, 0, 0x50, 0, 100, 0, 23, 0, 5, 0};
    static const uint8_t credits[] = {0x16, 8, 4, 0, 0x50, 0, 3, 0};
    static const uint8_t unknown[] = {0x30, 9, 0, 0};
    static const uint8_t frame[] = {3, 0, 1, 2, 3};

    puts("| call | answer | copies of the table | ns |\n|---|---|---|---|");
    CALL("make", l2cap_make(LENT, IN(room), N, D, M));
    CALL("register_spsm", l2cap_register_spsm(LENT, 0x80));
    CALL("signal, a connect request", l2cap_signal(LENT, IN(room), IN(signal), 1, 1, 0, IN(request)));
    CALL("next_pending", l2cap_next_pending(LENT, 1, 1));
    CALL("accept_pending", l2cap_accept_pending(LENT, IN(signal), 0, L2CAP_DEFAULT, L2CAP_DEFAULT, L2CAP_EVERY, 1, L2CAP_DEFAULT));
    CALL("signal, credits", l2cap_signal(LENT, IN(room), IN(signal), 1, 1, 0, IN(credits)));
    CALL("signal, unknown", l2cap_signal(LENT, IN(room), IN(signal), 1, 1, 0, IN(unknown)));
    CALL("dispatch, a whole job", l2cap_dispatch(LENT, IN(room), 1, 0x40, IN(frame)));
    CALL("dispatch, no such CID", l2cap_dispatch(LENT, IN(room), 1, 0x50, IN(frame)));
    CALL("attention", l2cap_attention(LENT));
    CALL("mtu", l2cap_mtu(LENT, 0));
    CALL("tally_received", l2cap_tally_received(LENT, 0));
    CALL("receive", l2cap_receive(LENT, IN(room), IN(signal), IN(job), 0));
    CALL("send", l2cap_send(LENT, IN(out), 0, IN(frame)));
    CALL("start_job", l2cap_start_job(LENT, IN(out), 0, 40));
    CALL("give_portion, a frame's start", l2cap_give_portion(LENT, IN(out), 0, frame, 1));
    CALL("give_portion, a frame's end", l2cap_give_portion(LENT, IN(out), 0, sdu, 39));
    CALL("give_portion, the last frame", l2cap_give_portion(LENT, IN(out), 0, sdu, 19));
    CALL("start_job, another", l2cap_start_job(LENT, IN(out), 0, 21));
    CALL("cancel_job", l2cap_cancel_job(LENT, IN(room), 0));
    CALL("inc_ref", l2cap_inc_ref(LENT, 0));
    CALL("dec_ref", l2cap_dec_ref(LENT, IN(room), 0));
    CALL("create", l2cap_create(LENT, IN(signal), 1, 0x80, L2CAP_DEFAULT, L2CAP_DEFAULT, L2CAP_EVERY, 1, L2CAP_DEFAULT));
    CALL("opened, no answer yet", l2cap_opened(LENT, IN(room), 1, 1, 1));
    CALL("give_up", l2cap_give_up(LENT, IN(room), 1));
    CALL("disconnect", l2cap_disconnect(LENT, IN(room), 0));
    CALL("next_disconnect", l2cap_next_disconnect(LENT, IN(room), IN(signal)));
    CALL("disconnected", l2cap_disconnected(LENT, IN(room), 1));
    kept[0] = 99;
    CALL("attention, no table", l2cap_attention(LENT));

    puts("\n| signals | octets | µs in all | µs a signal |\n|---|---|---|---|");
    l2cap_make(LENT, IN(room), N, D, M);
    fed(1), fed(5), fed(20), fed(100), fed(250), fed(1000), fed(SIGNALS);

    puts("\n| octets of a job | refused | ns a send |\n|---|---|---|");
    open_all();
    sends(whole, 23), sends(whole, 247), sends(whole, 1020);

    puts("\n| octets of a job | refused | ns a start and a portion |\n|---|---|---|");
    sends(portioned, 23), sends(portioned, 247), sends(portioned, 1020);

    puts("\n| octets of a payload | refused | ns a frame in |\n|---|---|---|");
    arrives(23), arrives(247), arrives(1020);
    return 0;
}
