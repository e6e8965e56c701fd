/* The archive from C and from C++: a phone connects, a job comes in and is taken, the link goes down; a channel of our own; runs of frames and jobs; jobs in portions; Core's least MTU and MPS, and frames at our own; buffers that are too short for a job; tallies; then the refusals that no script reaches. Every reader of an answer is used. */
#include "l2cap_channels.h"
#include <stdio.h>
#include <string.h>

enum { N = 2, D = 2, M = 64, ROOM = N * (D + 1) * (M - 6) };

static uint8_t table[L2CAP_TABLE_OCTETS], answer[L2CAP_ANSWER_OCTETS], room[ROOM], signal[L2CAP_SIGNAL_OCTETS], job[64], out[256];
static int passed, failed;

#define LENT table, sizeof table, answer, sizeof answer
#define IN(octets) octets, sizeof octets
#define NONE NULL, 0

static void check(int ok, const char *what) {
    if (ok) {
        passed++;
    } else {
        failed++;
        printf("failed: %s\n", what);
    }
}

static int is(enum l2cap_answer kind) { return l2cap_answer_kind(answer) == (unsigned)kind && l2cap_answer_refusal(answer) == 0; }

/* The number that was returned, and the answer, are this refusal's. */
static int refused(uint32_t returned, enum l2cap_refusal refusal) {
    return returned == (uint32_t)refusal && l2cap_answer_kind(answer) == L2CAP_ANSWER_REFUSED && l2cap_answer_refusal(answer) == returned;
}

static int wrote(const uint8_t *in, const uint8_t *octets, size_t n) { return l2cap_answer_written(answer) == n && !memcmp(in, octets, n); }

/* What a question of slot 0 answers: it is lent the table to read alone. A value has 16 bits, and zeros behind it. */
static int asked(uint32_t (*question)(const uint8_t *, size_t, uint8_t *, size_t, uint8_t), unsigned value) {
    return question(LENT, 0) == 0 && is(L2CAP_ANSWER_NUMBER) && l2cap_answer_value(answer) == value && l2cap_answer_tally(answer) == value;
}

static int zeros(const uint8_t *p, size_t n) {
    while (n--)
        if (*p++) return 0;
    return 1;
}

/* From a phone's connect request to its job, and ours to it. */
static void a_phone(void) {
    static const uint8_t request[] = {0x14, 7, 10, 0, 0x80, 0, 0x50, 0, 100, 0, 23, 0, 5, 0};
    static const uint8_t response[] = {14, 0, 5, 0, 0x15, 7, 10, 0, 0x40, 0, 58, 0, 60, 0, 2, 0, 0, 0};
    static const uint8_t frame[] = {3, 0, 1, 2, 3};
    static const uint8_t grant[] = {8, 0, 5, 0, 0x16, 1, 4, 0, 0x40, 0, 1, 0};
    static const uint8_t sent[] = {5, 0, 0x50, 0, 3, 0, 1, 2, 3};

    check(l2cap_version_4() == L2CAP_CHANNELS_VERSION, "the version is the header's");
    memset(room, 7, sizeof room);
    check(ROOM == L2CAP_ROOM_OCTETS(N, D, M) && l2cap_make(LENT, IN(room), N, D, M) == 0 && is(L2CAP_ANSWER_DONE), "make");
    check(zeros(IN(room)), "making zeroes the room");
    check(l2cap_register_spsm(LENT, 128) == 0, "register");
    check(refused(l2cap_register_spsm(LENT, 256), L2CAP_BAD_SPSM), "SPSM 256 is refusal 5");

    check(l2cap_signal(LENT, IN(room), IN(signal), 1, 1, 1, IN(request)) == 0, "a connect request");
    check(is(L2CAP_ANSWER_DONE) && l2cap_answer_written(answer) == 0, "nothing is written yet");
    check(l2cap_signal_rest(IN(request)) == 0, "one signal in the PDU");
    check(l2cap_next_pending(LENT, 1, 1) == 0 && is(L2CAP_ANSWER_AT) && l2cap_answer_slot(answer) == 0, "slot 0 pends");
    check(l2cap_accept_pending(LENT, IN(signal), 0, L2CAP_DEFAULT, L2CAP_DEFAULT, L2CAP_EVERY, 1, L2CAP_DEFAULT) == 0, "accept");
    check(is(L2CAP_ANSWER_LINK) && l2cap_answer_link(answer) == 1, "the response goes out on link 1");
    check(wrote(signal, IN(response)), "the response");
    check(asked(l2cap_spsm, 128) && asked(l2cap_mtu, 58) && asked(l2cap_mps, 60), "our numbers");
    check(asked(l2cap_peer_mtu, 100) && asked(l2cap_peer_mps, 23), "the peer's");

    check(l2cap_dispatch(LENT, IN(room), 1, L2CAP_CID_BASE, IN(frame)) == 0, "a frame");
    check(l2cap_attention(LENT) == 0 && is(L2CAP_ANSWER_ATTENTION), "attention");
    check(l2cap_answer_attention_set(answer) == 1 && l2cap_answer_attention_count(answer) == 1 && l2cap_answer_attention_lowest(answer) == 0, "slot 0 calls");
    check(refused(l2cap_receive(LENT, IN(room), IN(signal), job, 2, 0), L2CAP_INSUFFICIENT_SPACE), "a job of three octets into two is refusal 12");
    check(l2cap_receive(LENT, IN(room), IN(signal), job, 3, 0) == 0 && is(L2CAP_ANSWER_JOB), "take");
    check(l2cap_answer_link(answer) == 1 && l2cap_answer_job_length(answer) == 3, "three octets");
    check(!memcmp(job, frame + 2, 3) && wrote(signal, IN(grant)), "the job, and the phone's credit");
    check(zeros(IN(room)), "a take leaves nothing");
    check(l2cap_attention(LENT) == 0 && l2cap_answer_attention_count(answer) == 0 && l2cap_answer_attention_lowest(answer) == N, "nobody calls");
    check(l2cap_send(LENT, IN(out), 0, frame + 2, 3) == 0 && is(L2CAP_ANSWER_FRAMES), "send");
    check(l2cap_answer_link(answer) == 1 && l2cap_answer_frame_count(answer) == 1 && wrote(out, IN(sent)), "the frame that is sent");
    check(refused(l2cap_send(LENT, out, 8, 0, frame + 2, 3), L2CAP_NO_ROOM), "a short output is refusal 3");
}

/* Refusals that leave everything as it was. */
static void nothing_changes(void) {
    uint8_t before[L2CAP_TABLE_OCTETS];
    memcpy(before, table, sizeof table);
    check(refused(l2cap_reject_pending(LENT, IN(room), IN(signal), 0, 3), L2CAP_DECODE), "3 is no result code: refusal 15");
    check(refused(l2cap_create(LENT, signal, 17, 1, 128, L2CAP_DEFAULT, L2CAP_DEFAULT, L2CAP_EVERY, 1, L2CAP_DEFAULT), L2CAP_NO_ROOM), "a short signal buffer is refusal 3");
    check(refused(l2cap_disconnect(LENT, room, sizeof room - 1, 0), L2CAP_BAD_ROOM), "a short room is refusal 2");
    check(refused(l2cap_mtu(LENT, N), L2CAP_BAD_SLOT), "slot 2 of 2 is refusal 6");
    check(refused(l2cap_disconnected(table, sizeof table - 1, answer, sizeof answer, IN(room), 1), L2CAP_BAD_TABLE), "a short table is refusal 1");
    check(!memcmp(before, table, sizeof table), "and nothing has changed");

    table[6] = before[6] = 1;
    check(refused(l2cap_disconnected(LENT, IN(room), 1), L2CAP_BAD_TABLE), "a forged table is refusal 1");
    check(!memcmp(before, table, sizeof table), "and stays as it is");
    table[6] = 0;
}

/* Memories of no octets are null pointers. */
static void nothing_lent(void) {
    check(refused(l2cap_attention(NONE, answer, sizeof answer), L2CAP_BAD_TABLE), "no table is refusal 1");
    check(l2cap_mtu(table, sizeof table, NONE, 0) == 0, "a question without an answer");
    check(refused(l2cap_dispatch(LENT, NONE, 1, L2CAP_CID_BASE, NONE), L2CAP_BAD_ROOM), "no room is refusal 2");
    check(refused(l2cap_next_disconnect(LENT, IN(room), NONE), L2CAP_NO_ROOM), "no signal buffer is refusal 3");
    check(l2cap_signal(LENT, IN(room), IN(signal), 1, 1, 0, NONE) == 0 && is(L2CAP_ANSWER_DONE) && l2cap_signal_rest(NONE) == 0, "an empty PDU does nothing");
    check(l2cap_send(LENT, IN(out), 0, NONE) == 0 && l2cap_answer_frame_count(answer) == 1 && l2cap_answer_written(answer) == 6, "a job of no octets is one frame");
    check(l2cap_dispatch(LENT, IN(room), 1, L2CAP_CID_BASE, out + 4, 2) == 0, "and comes in as one");
    check(l2cap_receive(LENT, IN(room), IN(signal), NONE, 0) == 0 && is(L2CAP_ANSWER_JOB) && l2cap_answer_job_length(answer) == 0, "and is taken");
    check(refused(l2cap_dispatch(LENT, IN(room), 1, L2CAP_CID_BASE, NONE), L2CAP_SHORT_FRAME), "an empty frame is refusal 19");
}

/* The ends of the phone's channel, which is disconnecting. */
static void an_end(void) {
    static const uint8_t request[] = {8, 0, 5, 0, 6, 3, 4, 0, 0x50, 0, 0x40, 0};
    check(l2cap_next_disconnect(LENT, IN(room), IN(signal)) == 0 && is(L2CAP_ANSWER_DUE), "a disconnect is due");
    check(l2cap_answer_link(answer) == 1 && l2cap_answer_slot(answer) == 0 && wrote(signal, IN(request)), "its request");
    check(l2cap_disconnected(table, sizeof table, answer, 1, IN(room), 1) == 0, "link down, with an answer of one octet");
    check(l2cap_mtu(LENT, 0) == 0 && l2cap_answer_value(answer) == 0, "the slot is free");
    check(l2cap_create(LENT, IN(signal), 2, 128, 58, 60, L2CAP_MIN_THRESHOLD, 1, 1) == 0 && is(L2CAP_ANSWER_AT) && l2cap_answer_slot(answer) == 1, "but held: a create gets slot 1");
    check(l2cap_dec_ref(LENT, IN(room), 0) == 0, "released");
    check(l2cap_create(LENT, IN(signal), 3, 128, 58, 60, L2CAP_MIN_THRESHOLD, 1, 1) == 0 && l2cap_answer_slot(answer) == 0, "and used again");
}

/* Two attempts of our own, on links 2 and 3: one opens, one is refused; and a central is asked for other parameters. */
static void our_own(void) {
    static const uint8_t opens[] = {0x15, 4, 10, 0, 0x60, 0, 100, 0, 23, 0, 5, 0, 0, 0};
    static const uint8_t refuses[] = {0x15, 5, 10, 0, 0, 0, 0, 0, 0, 0, 0, 0, 4, 0};
    static const uint8_t wish[] = {0x12, 9, 8, 0, 6, 0, 12, 0, 3, 0, 200, 0};
    static const uint8_t unknown[] = {0x30, 9, 0, 0};
    static const uint8_t reject[] = {6, 0, 5, 0, 1, 9, 2, 0, 0, 0};

    check(l2cap_opened(LENT, IN(room), 1, 2, 1) == 0 && is(L2CAP_ANSWER_DONE), "no answer yet");
    check(l2cap_signal(LENT, IN(room), IN(signal), 2, 0, 0, IN(opens)) == 0, "the peer opens");
    check(l2cap_opened(LENT, IN(room), 1, 2, 1) == 0 && is(L2CAP_ANSWER_OPENED), "opened");
    check(refused(l2cap_signal(LENT, IN(room), IN(signal), 3, 0, 0, IN(refuses)), L2CAP_CONNECT_ERROR), "the peer refuses");
    check(l2cap_answer_result(answer) == L2CAP_RESULT_NO_RESOURCES, "with result 4");
    check(refused(l2cap_opened(LENT, IN(room), 0, 3, 1), L2CAP_CONNECT_ERROR) && l2cap_answer_result(answer) == L2CAP_RESULT_NO_RESOURCES, "the attempt failed with it");
    check(refused(l2cap_opened(LENT, IN(room), 0, 3, 1), L2CAP_DISCONNECTED), "and its slot is free");

    check(l2cap_signal(LENT, IN(room), IN(signal), 2, 0, 1, IN(wish)) == 0 && is(L2CAP_ANSWER_EVENT), "the peer wishes other parameters");
    check(l2cap_answer_interval_min(answer) == 6 && l2cap_answer_interval_max(answer) == 12 && l2cap_answer_latency(answer) == 3 && l2cap_answer_timeout(answer) == 200, "its wish");
    check(refused(l2cap_signal(LENT, IN(room), IN(signal), 2, 0, 1, IN(unknown)), L2CAP_NOT_SUPPORTED) && wrote(signal, IN(reject)), "an unknown signal is refusal 16, and a reject goes back");
}

/* Two slots of one phone, and runs of frames and jobs for them. */
static void runs(void) {
    static const uint8_t first[] = {0x14, 7, 10, 0, 0x80, 0, 0x50, 0, 100, 0, 23, 0, 2, 0}, second[] = {0x14, 8, 10, 0, 0x80, 0, 0x51, 0, 100, 0, 23, 0, 2, 0};
    static const uint8_t whole[] = {3, 0, 1, 2, 3}, half[] = {4, 0, 5, 6}, rest[] = {7, 8}, told[] = {L2CAP_ANSWER_RUN, 0, 0, 0, 0, 0, 4, 0, 0, 0, 35, 0, 0, 0, 0, 0};
    static const uint8_t out_first[] = {4, 0, 0x50, 0, 2, 0, 7, 8}, out_second[] = {6, 0, 0x51, 0, 4, 0, 4, 0, 5, 6};
    uint8_t run[64], answers[4 * L2CAP_ANSWER_OCTETS], before[L2CAP_TABLE_OCTETS];
    size_t n = 0, cut;
    uint8_t slot;

    check(l2cap_make(LENT, IN(room), N, D, M) == 0 && l2cap_register_spsm(LENT, 128) == 0, "a new table");
    check(l2cap_signal(LENT, IN(room), IN(signal), 1, 1, 0, IN(first)) == 0 && l2cap_signal(LENT, IN(room), IN(signal), 1, 1, 0, IN(second)) == 0, "two requests");
    for (slot = 0; slot < N; slot++)
        check(l2cap_next_pending(LENT, 1, 1) == 0 && l2cap_accept_pending(LENT, IN(signal), slot, L2CAP_DEFAULT, L2CAP_DEFAULT, L2CAP_EVERY, 1, L2CAP_DEFAULT) == 0, "accepted");

    n += l2cap_run_frame(run + n, sizeof run - n, 1, L2CAP_CID_BASE + 1, IN(half));
    n += l2cap_run_frame(run + n, sizeof run - n, 1, L2CAP_CID_BASE, IN(whole));
    n += l2cap_run_frame(run + n, sizeof run - n, 1, L2CAP_CID_BASE + N, NONE);
    n += l2cap_run_frame(run + n, sizeof run - n, 1, L2CAP_CID_BASE + 1, IN(rest));
    check(n == 4 * L2CAP_RUN_FRAME_HEAD + sizeof whole + sizeof half + sizeof rest, "a run of four frames");
    check(l2cap_run_frame(run, L2CAP_RUN_FRAME_HEAD + 1, 1, L2CAP_CID_BASE, IN(rest)) == 0 && run[6] == half[0], "a frame without a place is not written");
    memcpy(before, table, sizeof table);
    for (cut = 0; cut < sizeof answers; cut += 7) {
        memcpy(table, before, sizeof table);
        memset(room, 0, sizeof room);
        check(l2cap_dispatch_run(LENT, IN(room), run, n, answers, cut) == L2CAP_NO_ROOM && l2cap_answer_run_count(answer) == cut / L2CAP_ANSWER_OCTETS, "answers that are full are refusal 3");
    }
    memcpy(table, before, sizeof table);
    memset(room, 0, sizeof room);
    check(l2cap_dispatch_run(LENT, IN(room), run, n - 1, IN(answers)) == L2CAP_DECODE && l2cap_answer_run_count(answer) == 3 && l2cap_answer_run_used(answer) == n - 8, "a cut frame is refusal 15");
    memcpy(table, before, sizeof table);
    memset(room, 0, sizeof room);
    check(l2cap_dispatch_run(LENT, IN(room), run, n, IN(answers)) == 0 && !memcmp(answer, told, sizeof told) && is(L2CAP_ANSWER_RUN), "four frames");
    check(l2cap_answer_refusal(l2cap_run_answer(answers, 2)) == L2CAP_INVALID_CHANNEL_ID && l2cap_answer_refusal(l2cap_run_answer(answers, 3)) == 0, "one of no channel, and the next is taken in");
    check(l2cap_receive(LENT, IN(room), IN(signal), IN(job), 0) == 0 && l2cap_answer_job_length(answer) == 3 && !memcmp(job, whole + 2, 3), "a job in one frame");
    check(l2cap_receive(LENT, IN(room), IN(signal), IN(job), 1) == 0 && l2cap_answer_job_length(answer) == 4 && !memcmp(job, half + 2, 2) && !memcmp(job + 2, rest, 2), "and one in two");

    n = l2cap_run_job(IN(run), 0, IN(rest));
    n += l2cap_run_job(run + n, sizeof run - n, 0, job, 45); /* three frames, and slot 0 has one credit left */
    n += l2cap_run_job(run + n, sizeof run - n, 1, IN(half));
    check(n == 3 * L2CAP_RUN_JOB_HEAD + 51 && l2cap_run_job(run, 4, 0, IN(rest)) == 0, "a run of three jobs");
    memset(out, 9, sizeof out);
    check(l2cap_send_run(LENT, IN(out), run, n, IN(answers)) == 0 && is(L2CAP_ANSWER_RUN) && l2cap_answer_run_count(answer) == 3 && l2cap_answer_run_used(answer) == n, "three jobs");
    check(l2cap_answer_written(answer) == 18 && l2cap_answer_written(answers) == 8 && l2cap_answer_written(l2cap_run_answer(answers, 2)) == 10, "two of them are written");
    check(l2cap_answer_refusal(l2cap_run_answer(answers, 1)) == L2CAP_BUSY && l2cap_answer_link(l2cap_run_answer(answers, 2)) == 1, "the second needs more credits, and the third goes out");
    check(!memcmp(out, out_first, 8) && !memcmp(out + 8, out_second, 10) && out[18] == 9, "their frames, one behind the other");

    check(l2cap_dispatch_run(LENT, IN(room), NONE, NONE) == 0 && is(L2CAP_ANSWER_RUN) && l2cap_send_run(LENT, NONE, NONE, NONE) == 0 && l2cap_answer_run_used(answer) == 0, "an empty run");
    check(l2cap_dispatch_run(LENT, room, 1, NONE, NONE) == L2CAP_BAD_ROOM && l2cap_dispatch_run(NONE, answer, sizeof answer, NONE, NONE, NONE) == L2CAP_BAD_TABLE, "a bad room, and no table");
}

/* Hands over a job in portions of at most so many octets. Gives how many octets of frames came out, one behind the other in `frames`, or 0 where a call was refused. */
static size_t in_portions(uint8_t slot, uint8_t *buffer, size_t buffer_len, const uint8_t *sdu, size_t n, size_t most, uint8_t *frames) {
    size_t at = 0, wrote = 0;
    unsigned k, count;
    if (l2cap_start_job(LENT, buffer, buffer_len, slot, n) || !is(L2CAP_ANSWER_FRAMES) || l2cap_answer_written(answer)) return 0;
    for (k = 0, count = l2cap_answer_frame_count(answer); k < count;) {
        if (l2cap_give_portion(LENT, buffer, buffer_len, slot, sdu + at, n - at < most ? n - at : most) || !is(L2CAP_ANSWER_PORTION) || l2cap_answer_link(answer) != 1) return 0;
        if (!l2cap_answer_portion_full(answer) != !l2cap_answer_written(answer)) return 0;
        at += l2cap_answer_portion_taken(answer), k += l2cap_answer_portion_full(answer) ? 1u : 0u;
        memcpy(frames + wrote, buffer, l2cap_answer_written(answer));
        wrote += l2cap_answer_written(answer);
    }
    return at == n ? wrote : 0;
}

/* Two slots of one phone, and jobs in portions for them. */
static void portions(void) {
    static const uint8_t first[] = {0x14, 7, 10, 0, 0x80, 0, 0x50, 0, 100, 0, 23, 0, 5, 0}, second[] = {0x14, 8, 10, 0, 0x80, 0, 0x51, 0, 100, 0, 23, 0, 0xFD, 0xFF};
    static const uint8_t credits[] = {0x16, 9, 4, 0, 0x51, 0, 3, 0}, begun[] = {7, 0, 0x50, 0, 5, 0, 9, 9, 9, 9, 9, 9}, empty[] = {2, 0, 0x50, 0, 0, 0}, shared[] = {7, 0, 0x51, 0, 5, 0, 1, 2, 3, 4, 5};
    uint8_t sdu[60], before[L2CAP_TABLE_OCTETS], after[L2CAP_TABLE_OCTETS], buffer[40], other[27], was[27], frames[256];
    size_t n, most, whole;
    uint8_t slot;

    for (n = 0; n < sizeof sdu; n++) sdu[n] = (uint8_t)(n + 1);
    check(l2cap_make(LENT, IN(room), N, D, M) == 0 && l2cap_register_spsm(LENT, 128) == 0, "a new table");
    check(l2cap_signal(LENT, IN(room), IN(signal), 1, 1, 0, IN(first)) == 0 && l2cap_signal(LENT, IN(room), IN(signal), 1, 1, 0, IN(second)) == 0, "two requests");
    for (slot = 0; slot < N; slot++)
        check(l2cap_next_pending(LENT, 1, 1) == 0 && l2cap_accept_pending(LENT, IN(signal), slot, L2CAP_DEFAULT, L2CAP_DEFAULT, L2CAP_EVERY, 1, L2CAP_DEFAULT) == 0, "accepted");
    memcpy(before, table, sizeof table);

    for (n = 0; n <= sizeof sdu; n++) { /* of every length, in portions of every length: the frames and the table of one send */
        int same = L2CAP_JOB_BUFFER_OCTETS(23, n) == 4 + (n < 21 ? n + 2 : 23);
        memcpy(table, before, sizeof table);
        same = same && l2cap_send(LENT, IN(out), 0, sdu, n) == 0;
        whole = l2cap_answer_written(answer);
        memcpy(after, table, sizeof table);
        for (most = 1; most <= n + 1; most++) {
            memcpy(table, before, sizeof table);
            memset(buffer, 9, sizeof buffer);
            same = same && in_portions(0, buffer, L2CAP_JOB_BUFFER_OCTETS(23, n), sdu, n, most, frames) == whole && !memcmp(frames, out, whole) && !memcmp(table, after, sizeof table);
            same = same && buffer[L2CAP_JOB_BUFFER_OCTETS(23, n)] == 9;
        }
        check(same, "portions give the frames of one send");
    }

    memcpy(table, before, sizeof table);
    memset(buffer, 9, sizeof buffer);
    check(refused(l2cap_start_job(LENT, buffer, 10, 0, 5), L2CAP_NO_ROOM) && refused(l2cap_start_job(LENT, IN(buffer), 0, 101), L2CAP_INSUFFICIENT_SPACE) && refused(l2cap_start_job(LENT, IN(buffer), 0, (size_t)1 << 40), L2CAP_INSUFFICIENT_SPACE), "a short buffer, and jobs above the peer's MTU");
    check(refused(l2cap_give_portion(LENT, IN(buffer), 0, IN(sdu)), L2CAP_NOT_FOUND) && refused(l2cap_cancel_job(LENT, IN(room), 0), L2CAP_NOT_FOUND), "no job is open: refusal 8");
    check(!memcmp(table, before, sizeof table) && buffer[0] == 9, "and nothing has changed");
    check(l2cap_start_job(LENT, buffer, 12, 0, 5) == 0 && l2cap_answer_link(answer) == 1 && l2cap_answer_frame_count(answer) == 1 && l2cap_answer_written(answer) == 0, "a start, of one frame");
    check(!memcmp(buffer, begun, sizeof begun), "its header and length stand in the buffer");
    check(refused(l2cap_send(LENT, IN(out), 0, sdu, 1), L2CAP_JOB_OPEN) && refused(l2cap_start_job(LENT, IN(other), 0, 1), L2CAP_JOB_OPEN), "a second job is refusal 24");
    check(l2cap_send(LENT, IN(out), 1, sdu, 1) == 0, "but in another slot it goes out");
    memcpy(after, table, sizeof table);
    check(refused(l2cap_give_portion(LENT, IN(buffer), 0, sdu, 6), L2CAP_WRONG_LENGTH) && refused(l2cap_give_portion(LENT, buffer, 10, 0, sdu, 6), L2CAP_NO_ROOM), "more octets than stated is refusal 25, behind 3");
    check(l2cap_give_portion(LENT, IN(buffer), 0, NONE) == 0 && is(L2CAP_ANSWER_PORTION) && l2cap_answer_portion_taken(answer) == 0 && !l2cap_answer_portion_full(answer), "an empty portion");
    check(!memcmp(table, after, sizeof table) && !memcmp(buffer, begun, sizeof begun), "and nothing has changed");
    check(refused(l2cap_cancel_job(LENT, room, sizeof room - 1, 0), L2CAP_BAD_ROOM) && refused(l2cap_cancel_job(LENT, IN(room), N), L2CAP_BAD_SLOT), "a cancel's room and slot");
    check(l2cap_give_portion(LENT, IN(buffer), 0, sdu, 2) == 0 && l2cap_answer_portion_taken(answer) == 2 && l2cap_cancel_job(LENT, IN(room), 0) == 0 && is(L2CAP_ANSWER_DONE), "cancelled before its frame");
    check(l2cap_start_job(LENT, buffer, 6, 0, 0) == 0 && l2cap_give_portion(LENT, IN(buffer), 0, NONE) == 0 && l2cap_answer_portion_full(answer) && wrote(buffer, IN(empty)), "a job of no octets is one empty portion");
    /* Two open jobs share a buffer: nobody finds it out, and the first one's frame has what the second's start wrote. */
    check(l2cap_start_job(LENT, IN(other), 0, 5) == 0 && l2cap_start_job(LENT, IN(other), 1, 5) == 0, "two starts in one buffer");
    check(l2cap_give_portion(LENT, IN(other), 0, sdu, 5) == 0 && wrote(other, IN(shared)) && l2cap_give_portion(LENT, IN(other), 1, sdu, 5) == 0 && wrote(other, IN(shared)), "and both frames name the second's CID");
    check(l2cap_send(LENT, IN(out), 0, sdu, 60) == 0 && l2cap_answer_frame_count(answer) == 3 && refused(l2cap_send(LENT, IN(out), 0, sdu, 0), L2CAP_BUSY), "of five credits the cancelled job's came back");

    check(l2cap_start_job(LENT, IN(other), 1, 30) == 0 && l2cap_give_portion(LENT, IN(other), 1, sdu, 30) == 0 && l2cap_answer_portion_taken(answer) == 21, "a frame of the second slot's job");
    memcpy(was, other, sizeof other);
    check(l2cap_give_portion(LENT, IN(other), 1, sdu + 21, 4) == 0 && other[0] == 9 && !memcmp(other + 4, sdu + 21, 4), "the next frame's octets stand behind its header");
    check(!memcmp(other + 8, was + 8, sizeof other - 8), "and what stood behind them stays");
    /* It had 65,533 credits: 65,529 are left of them, and 1 is set aside. */
    memcpy(after, table, sizeof table);
    check(l2cap_cancel_job(LENT, IN(room), 1) == 0 && refused(l2cap_give_portion(LENT, IN(other), 1, sdu, 1), L2CAP_CHANNEL_CLOSED) && refused(l2cap_cancel_job(LENT, IN(room), 1), L2CAP_CHANNEL_CLOSED), "a later cancel ends the channel");
    memcpy(table, after, sizeof table);
    check(l2cap_signal(LENT, IN(room), IN(signal), 1, 1, 0, IN(credits)) == 0 && refused(l2cap_signal(LENT, IN(room), IN(signal), 1, 1, 0, IN(credits)), L2CAP_INVALID_VALUE), "credits set aside count");
    check(refused(l2cap_give_portion(LENT, IN(other), 1, sdu, 1), L2CAP_CHANNEL_CLOSED), "and the job went with the channel");
}

/* ---- the least MTU and MPS of a peer, and our own MPS: what a call leaves is compared with the octets that it must leave, in table, room and buffers */

static uint8_t expected[L2CAP_TABLE_OCTETS], places[ROOM], payload[64];

/* Where a column of a slot's row stands in a table. */
static size_t cell(uint8_t slot, unsigned column) { return 48 + 16 * (size_t)column + slot; }

static void put(uint8_t *in, uint8_t slot, unsigned column, size_t n) { in[cell(slot, column)] = (uint8_t)n, in[cell(slot, column + 1)] = (uint8_t)(n >> 8); }

/* Where a tally stands: in eight columns, the lowest octet first. */
enum { SENT = 47, BLOCKED_SENDS = 55, RECEIVED = 63, BLOCKED_RECEIVES = 71 };
static void put_tally(uint8_t *in, uint8_t slot, unsigned column, uint64_t n) {
    unsigned k;
    for (k = 0; k < 8; k++) in[cell(slot, column + k)] = (uint8_t)(n >> 8 * k);
}
static void put_tallies(uint8_t *in, uint8_t slot, uint64_t sent, uint64_t received, uint64_t blocked_sends, uint64_t blocked_receives) {
    put_tally(in, slot, SENT, sent), put_tally(in, slot, RECEIVED, received), put_tally(in, slot, BLOCKED_SENDS, blocked_sends), put_tally(in, slot, BLOCKED_RECEIVES, blocked_receives);
}
static void put_state(uint8_t *in, uint8_t slot, uint8_t state, uint8_t value) { in[cell(slot, 0)] = state, in[cell(slot, 1)] = value; }
static void put_peer(uint8_t *in, uint8_t slot, uint16_t cid, uint16_t mps, uint16_t mtu, uint16_t credits) { put(in, slot, 18, cid), put(in, slot, 20, mps), put(in, slot, 22, mtu), put(in, slot, 24, credits); }

static int all(const uint8_t *p, size_t n, uint8_t octet) {
    while (n--)
        if (*p++ != octet) return 0;
    return 1;
}

/* From here on these are what must be left. */
static void expect(void) { memcpy(expected, table, sizeof table), memcpy(places, room, sizeof room); }
static int as_expected(void) { return !memcmp(table, expected, sizeof table) && !memcmp(room, places, sizeof room); }

/* A new table; what is lent is painted. */
static int anew(void) {
    int made = l2cap_make(LENT, IN(room), N, D, M) == 0 && l2cap_register_spsm(LENT, 128) == 0;
    memset(room, 7, sizeof room), memset(signal, 9, sizeof signal), memset(out, 9, sizeof out);
    return expect(), made;
}

/* An attempt of ours on link 1, in slot 0. */
static int attempt(void) {
    int made = l2cap_create(LENT, IN(signal), 1, 128, L2CAP_DEFAULT, L2CAP_DEFAULT, L2CAP_EVERY, 1, L2CAP_DEFAULT) == 0 && l2cap_answer_slot(answer) == 0;
    memset(signal, 9, sizeof signal);
    return expect(), made;
}

/* A request or a response on link 1, whose MTU and MPS stand `at` octets behind its header. */
static uint32_t says(const uint8_t *pdu, size_t at, uint16_t mtu, uint16_t mps) {
    uint8_t octets[14];
    memcpy(octets, pdu, sizeof octets);
    octets[4 + at] = (uint8_t)mtu, octets[5 + at] = (uint8_t)(mtu >> 8), octets[6 + at] = (uint8_t)mps, octets[7 + at] = (uint8_t)(mps >> 8);
    return l2cap_signal(LENT, IN(room), IN(signal), 1, 1, 0, IN(octets));
}

static const uint16_t edge[] = {10, L2CAP_SIZE_LEAST - 1, L2CAP_SIZE_LEAST, L2CAP_SIZE_LEAST + 1};
enum { EDGES = sizeof edge / sizeof *edge };

/* A request below the least is told so, and leaves nothing; at the least it waits. */
static void least_requests(void) {
    static const uint8_t request[] = {0x14, 7, 10, 0, 0x80, 0, 0x50, 0, 0, 0, 0, 0, 5, 0}, second[] = {0x14, 8, 10, 0, 0x80, 0, 0x51, 0, 0, 0, 0, 0, 5, 0};
    uint8_t small[] = {0x14, 7, 10, 0, 0x81, 0, 0x50, 0, 100, 0, 10, 0, 5, 0}, told[] = {14, 0, 5, 0, 0x15, 7, 10, 0, 0, 0, 0, 0, 0, 0, 0, 0, L2CAP_RESULT_UNACCEPTABLE_PARAMETERS, 0};
    unsigned i, k;
    for (i = 0; i < EDGES; i++)
        for (k = 0; k < EDGES; k++) {
            int below = edge[i] < 23 || edge[k] < 23, made = anew();
            if (!below) put_state(expected, 0, 2, 7), put(expected, 0, 2, 1), put(expected, 0, 4, 128), put_peer(expected, 0, 0x50, edge[k], edge[i], 5);
            check(made && says(request, 4, edge[i], edge[k]) == 0 && is(L2CAP_ANSWER_DONE) && as_expected() && (below ? wrote(signal, IN(told)) : !l2cap_answer_written(answer) && all(IN(signal), 9)), "a request waits, or is told result 11");
        }

    /* Which result is told first: 2, 4, 11, 10, 4. */
    check(anew() && (told[16] = 2, l2cap_signal(LENT, IN(room), IN(signal), 1, 0, 0, IN(small)) == 0) && wrote(signal, IN(told)) && as_expected(), "an SPSM that isn't registered");
    check((told[16] = 4, small[4] = 0x80, l2cap_signal(LENT, IN(room), IN(signal), 1, 0, 0, IN(small)) == 0) && wrote(signal, IN(told)) && as_expected(), "nobody listens");
    check(says(request, 4, 100, 23) == 0 && says(second, 4, 23, 100) == 0 && !l2cap_answer_written(answer), "both slots are pending");
    check((expect(), told[16] = 11, says(request, 4, 22, 23) == 0) && wrote(signal, IN(told)) && as_expected(), "below the least, a CID in use, and no slot free: 11");
    check((told[16] = 10, says(request, 4, 23, 23) == 0) && wrote(signal, IN(told)) && as_expected(), "at the least: 10");
}

/* A response that accepts below the least leaves the slot disconnecting, with the peer's numbers in it. */
static void least_responses(void) {
    static const uint8_t accepts[] = {0x15, 1, 10, 0, 0x50, 0, 0, 0, 0, 0, 5, 0, 0, 0}, refuses[] = {0x15, 1, 10, 0, 0x50, 0, 0, 0, 0, 0, 5, 0, 4, 0}, unread[] = {0x15, 1, 10, 0, 0x50, 0, 0, 0, 0, 0, 5, 0, 3, 0};
    static const uint8_t request[] = {8, 0, 5, 0, 6, 2, 4, 0, 0x50, 0, 0x40, 0}, response[] = {7, 2, 4, 0, 0x50, 0, 0x40, 0};
    unsigned i, k, forged;
    for (i = 0; i < EDGES; i++)
        for (k = 0; k < EDGES; k++)
            for (forged = 0; forged < 2; forged++) {
                int below = edge[i] < 23 || edge[k] < 23, made = anew() && attempt();
                /* An attempt has no half job and none that waits. Where octets say so, a response leaves them alone. */
                if (forged) put(table, 0, 26, 3), put(table, 0, 28, 4), table[cell(0, 30)] = 1, put(table, 0, 31, 2), expect();
                put_state(expected, 0, below ? 6 : 3, 0), put_peer(expected, 0, 0x50, edge[k], edge[i], 5);
                check(made && (below ? refused(says(accepts, 2, edge[i], edge[k]), L2CAP_INVALID_VALUE) : says(accepts, 2, edge[i], edge[k]) == 0 && is(L2CAP_ANSWER_DONE)) && as_expected() && !l2cap_answer_written(answer) && all(IN(signal), 9), "a response opens the slot, or leaves it disconnecting");
                if (!below || forged) continue;
                expected[5] = 3, put_state(expected, 0, 6, 1);
                check(l2cap_next_disconnect(LENT, IN(room), IN(signal)) == 0 && is(L2CAP_ANSWER_DUE) && l2cap_answer_link(answer) == 1 && wrote(signal, IN(request)) && as_expected(), "our request names the peer's CID");
                check(l2cap_signal(LENT, IN(room), IN(signal), 1, 0, 0, IN(response)) == 0 && l2cap_spsm(LENT, 0) == 0 && !l2cap_answer_value(answer) && zeros(room, ROOM / N), "the peer's response frees the slot");
            }

    /* The opened query first: our request is never written. */
    check(anew() && attempt() && refused(says(accepts, 2, 100, 22), L2CAP_INVALID_VALUE) && refused(l2cap_give_up(LENT, IN(room), 0), L2CAP_NOT_FOUND), "it is no attempt to give up any more");
    check(refused(l2cap_opened(LENT, IN(room), 0, 1, 1), L2CAP_DISCONNECTED) && l2cap_next_disconnect(LENT, IN(room), IN(signal)) == 0 && is(L2CAP_ANSWER_DONE), "opened frees it, and no disconnect is due");

    /* Decoding, matching and a refused result come first. */
    check(anew() && attempt() && refused(says(unread, 2, 22, 22), L2CAP_DECODE) && as_expected(), "a result that is none");
    check(refused(says(refuses, 2, 0, 0), L2CAP_CONNECT_ERROR) && l2cap_answer_result(answer) == L2CAP_RESULT_NO_RESOURCES, "a peer that refuses is believed");
    check(refused(says(accepts, 2, 22, 22), L2CAP_NOT_FOUND), "no attempt is left that a response answers");
}

/* A phone's channel in slot 0, with this MPS of ours. A job of 4 octets waits there, put by hand: an MPS of 0 lets no frame in. */
static int accepted(uint16_t mps, uint16_t credits) {
    static const uint8_t request[] = {0x14, 7, 10, 0, 0x80, 0, 0x50, 0, 100, 0, 23, 0, 5, 0};
    int made = anew() && l2cap_signal(LENT, IN(room), IN(signal), 1, 1, 0, IN(request)) == 0 && l2cap_next_pending(LENT, 1, 1) == 0 && l2cap_accept_pending(LENT, IN(signal), 0, L2CAP_DEFAULT, mps, L2CAP_EVERY, 1, credits) == 0;
    memset(room, 0, sizeof room), memset(room + M - 6, 0xAA, 4);
    table[cell(0, 30)] = 1, put(table, 0, 31, 4);
    return expect(), made;
}

/* A payload of n octets, which is a whole job where it is a job's first. */
static uint32_t comes(uint16_t link, uint16_t cid, size_t n) {
    memset(payload, 0xCC, sizeof payload), payload[0] = (uint8_t)(n < 2 ? 0 : n - 2), payload[1] = 0;
    return l2cap_dispatch(LENT, IN(room), link, cid, payload, n);
}

/* A frame uses a credit of 9, and is counted; and one that ends the channel leaves nothing of the job that arrives, and no tally. */
static void used(void) { put(expected, 0, 13, 8), put(expected, 0, 15, 1), put_tally(expected, 0, RECEIVED, 1); }
static void ended(void) { used(), put_tallies(expected, 0, 0, 0, 0, 0), put_state(expected, 0, 6, 0), put(expected, 0, 26, 0), put(expected, 0, 28, 0), memset(places, 0, M - 6); }

/* Frames of our own MPS, of one octet less and of one more: a job's first, and a later one. */
static void own_mps(void) {
    static const uint16_t own[] = {0, 1, 2, 22, 23, 24, 40};
    uint8_t run[160], answers[3 * L2CAP_ANSWER_OCTETS];
    size_t i, n, at = 0;
    for (i = 0; i < sizeof own / sizeof *own; i++)
        for (n = own[i] ? own[i] - 1u : 0u; n <= own[i] + 1u; n++) {
            int above = n > own[i], made = accepted(own[i], 9);
            if (above || n < 2) ended();
            else used(), expected[cell(0, 30)] = 2, put(expected, 0, 33, n - 2), memset(places + 2 * (M - 6), 0xCC, n - 2);
            check(made && comes(1, L2CAP_CID_BASE, n) == (uint32_t)(above ? 9 : n < 2 ? 19 : 0) && as_expected(), "a job's first frame above our MPS is refusal 9, before 19");

            made = accepted(own[i], 9); /* 1 octet of 58 is here */
            put(table, 0, 26, 1), put(table, 0, 28, M - 6), room[0] = 0xBB, expect();
            if (above) ended();
            else used(), put(expected, 0, 26, 1 + n), memset(places + 1, 0xCC, n), places[1] = (uint8_t)(n < 2 ? 0 : n - 2), places[2] = 0;
            check(made && comes(1, L2CAP_CID_BASE, n) == (uint32_t)(above ? 9 : 0) && as_expected(), "so is a later one");
        }

    /* Behind a CID of no slot, another link's channel and a missing credit; before a full queue. */
    check(accepted(23, 0) && comes(1, L2CAP_CID_BASE + N, 24) == L2CAP_INVALID_CHANNEL_ID && comes(2, L2CAP_CID_BASE, 24) == L2CAP_NOT_FOUND && as_expected(), "7 and 8 come first, and nothing changes");
    check((put_tally(expected, 0, BLOCKED_RECEIVES, 1), comes(1, L2CAP_CID_BASE, 24) == L2CAP_OUT_OF_MEMORY) && as_expected(), "so does 10, and its tally alone changes");
    check(accepted(23, 9) && (table[cell(0, 30)] = 2, expect(), ended(), comes(1, L2CAP_CID_BASE, 24) == L2CAP_INVALID_VALUE) && as_expected(), "9 where the queue is full");
    check(comes(1, L2CAP_CID_BASE, 24) == 0 && as_expected(), "then the channel isn't open, and a frame is gone");

    /* In a run it is that frame's own answer. */
    check(accepted(23, 9) && (ended(), payload[0] = 22, 1), "a channel for a run");
    at += l2cap_run_frame(run + at, sizeof run - at, 1, L2CAP_CID_BASE + N, payload, 24);
    at += l2cap_run_frame(run + at, sizeof run - at, 1, L2CAP_CID_BASE, payload, 24);
    at += l2cap_run_frame(run + at, sizeof run - at, 1, L2CAP_CID_BASE, payload, 24);
    check(l2cap_dispatch_run(LENT, IN(room), run, at, IN(answers)) == 0 && l2cap_answer_run_count(answer) == 3 && as_expected(), "a run of three frames above our MPS");
    check(l2cap_answer_refusal(answers) == L2CAP_INVALID_CHANNEL_ID && l2cap_answer_refusal(l2cap_run_answer(answers, 1)) == L2CAP_INVALID_VALUE && l2cap_answer_refusal(l2cap_run_answer(answers, 2)) == 0, "7, 9, and a frame that is gone");
}

/* Refusal 20 is of octets that no call wrote: no peer gets a channel with an MPS below the least. */
static void forged_mps(void) {
    uint8_t run[8], answers[L2CAP_ANSWER_OCTETS];
    size_t n = l2cap_run_job(IN(run), 0, payload, 3);
    check(accepted(60, 9) && (put(table, 0, 20, 22), expect(), 1) && refused(l2cap_send(LENT, IN(out), 0, payload, 3), L2CAP_BAD_MPS) && as_expected() && all(IN(out), 9), "a send to a peer whose MPS is 22");
    check(refused(l2cap_start_job(LENT, IN(out), 0, 3), L2CAP_BAD_MPS) && as_expected() && all(IN(out), 9), "a start");
    check(l2cap_send_run(LENT, IN(out), run, n, IN(answers)) == 0 && l2cap_answer_refusal(answers) == L2CAP_BAD_MPS && as_expected() && all(IN(out), 9), "a run of one job");
    check((put(table, 0, 24, 0), refused(l2cap_send(LENT, IN(out), 0, payload, 3), L2CAP_BAD_MPS)) && refused(l2cap_start_job(LENT, IN(out), 0, 3), L2CAP_BAD_MPS), "20 comes before 14");
    check((put(table, 0, 20, 23), refused(l2cap_send(LENT, IN(out), 0, payload, 3), L2CAP_BUSY)) && refused(l2cap_start_job(LENT, IN(out), 0, 3), L2CAP_BUSY), "23 is enough");
}

/* Our own numbers below the least are written all the same. The peer is a table as ours, and refuses them. */
static void own_offers(void) {
    static const uint8_t request[] = {14, 0, 5, 0, 0x14, 1, 10, 0, 0x80, 0, 0x40, 0, 22, 0, 22, 0, 1, 0};
    static uint8_t peer[L2CAP_TABLE_OCTETS], its_answer[L2CAP_ANSWER_OCTETS], its_room[ROOM], its_signal[L2CAP_SIGNAL_OCTETS];
    check(anew() && l2cap_make(IN(peer), IN(its_answer), IN(its_room), N, D, M) == 0 && l2cap_register_spsm(IN(peer), IN(its_answer), 128) == 0, "a peer");
    check(l2cap_create(LENT, IN(signal), 1, 128, 22, 22, L2CAP_EVERY, 1, 1) == 0 && wrote(signal, IN(request)), "we ask with 22 and 22");
    check(l2cap_signal(IN(peer), IN(its_answer), IN(its_room), IN(its_signal), 1, 1, 0, signal + 4, 14) == 0 && l2cap_answer_written(its_answer) == 18, "and are answered");
    check(refused(l2cap_signal(LENT, IN(room), IN(signal), 1, 1, 0, its_signal + 4, 14), L2CAP_CONNECT_ERROR) && l2cap_answer_result(answer) == L2CAP_RESULT_UNACCEPTABLE_PARAMETERS, "with result 11");
    check(l2cap_create(IN(peer), IN(its_answer), IN(its_signal), 1, 128, L2CAP_DEFAULT, L2CAP_DEFAULT, L2CAP_EVERY, 1, L2CAP_DEFAULT) == 0 && l2cap_signal(LENT, IN(room), IN(signal), 1, 1, 0, its_signal + 4, 14) == 0, "the peer asks");
    check(l2cap_next_pending(LENT, 1, 1) == 0 && l2cap_answer_slot(answer) == 1 && l2cap_accept_pending(LENT, IN(signal), 1, 22, 22, L2CAP_EVERY, 1, 1) == 0, "we accept with 22 and 22");
    check(l2cap_signal(IN(peer), IN(its_answer), IN(its_room), IN(its_signal), 1, 1, 0, signal + 4, 14) == L2CAP_INVALID_VALUE && l2cap_next_disconnect(IN(peer), IN(its_answer), IN(its_room), IN(its_signal)) == 0, "and the peer disconnects");
    check(l2cap_signal(LENT, IN(room), IN(signal), 1, 1, 0, its_signal + 4, 8) == 0 && l2cap_next_disconnect(LENT, IN(room), IN(signal)) == 0 && l2cap_answer_slot(answer) == 1, "we respond");
    check(l2cap_signal(IN(peer), IN(its_answer), IN(its_room), IN(its_signal), 1, 1, 0, signal + 4, 8) == 0 && l2cap_spsm(IN(peer), IN(its_answer), 0) == 0 && l2cap_answer_value(its_answer) == 0, "and both slots have no channel any more");
}

/* ---- a buffer shorter than the job */

static const uint8_t asks[] = {0x14, 7, 10, 0, 0x80, 0, 0x50, 0, 100, 0, 23, 0, 5, 0};

/* A whole job of n octets, of this one. */
static uint32_t brings(size_t n, uint8_t octet) {
    memset(payload, octet, sizeof payload), payload[0] = (uint8_t)n, payload[1] = 0;
    return l2cap_dispatch(LENT, IN(room), 1, L2CAP_CID_BASE, payload, n + 2);
}

/* A phone's channel in slot 0, on which every take grants credits, with this MTU of ours. Two jobs wait there, of 0xA1 and of 0xB2. What is lent is painted. */
static int waits(uint16_t mtu, size_t first, size_t second) {
    int made = anew() && l2cap_signal(LENT, IN(room), IN(signal), 1, 1, 0, IN(asks)) == 0 && l2cap_next_pending(LENT, 1, 1) == 0 && l2cap_accept_pending(LENT, IN(signal), 0, mtu, 60, L2CAP_EVERY, 1, 9) == 0;
    memset(room, 0, ROOM / N), made = made && brings(first, 0xA1) == 0 && brings(second, 0xB2) == 0;
    memset(signal, 9, sizeof signal), memset(job, 9, sizeof job);
    return expect(), made;
}

static uint32_t take(size_t size) { return l2cap_receive(LENT, IN(room), IN(signal), job, size, 0); }

/* Nothing but the answer was written, and the answer has the refusal alone. */
static int nothing_written(uint32_t returned, enum l2cap_refusal refusal) {
    uint8_t told[L2CAP_ANSWER_OCTETS] = {L2CAP_ANSWER_REFUSED};
    told[1] = (uint8_t)refusal;
    return refused(returned, refusal) && !memcmp(answer, told, sizeof told) && as_expected() && all(IN(signal), 9) && all(IN(job), 9);
}

/* The whole job was taken, of this length and octet, and no octet behind it was written. */
static int took(uint32_t returned, size_t n, uint8_t octet) {
    int whole = returned == 0 && is(L2CAP_ANSWER_JOB) && l2cap_answer_link(answer) == 1 && l2cap_answer_job_length(answer) == n && all(job, n, octet) && all(job + n, sizeof job - n, 9);
    memset(job, 9, sizeof job);
    return whole;
}

/* What a take must leave of two jobs, of which the second moves up; `granted` of two credits that go back. */
static void moved_up(size_t second, int granted) {
    if (granted) expected[5]++, put(expected, 0, 13, 9), put(expected, 0, 15, 0);
    expected[cell(0, 30)] = 1, put(expected, 0, 31, second), put(expected, 0, 33, 0);
    memset(places, 0, ROOM / N), memset(places + M - 6, 0xB2, second);
}

static const uint8_t two_credits[] = {8, 0, 5, 0, 0x16, 1, 4, 0, 0x40, 0, 2, 0};

/* Jobs of every length into buffers of every length. */
static void short_buffers(void) {
    size_t n, size;
    for (n = 0; n <= M - 6; n++) {
        int same = 1;
        for (size = 0; size <= sizeof job; size++) {
            same = same && waits(M - 6, n, 3);
            if (size < n) {
                same = same && nothing_written(take(size), L2CAP_INSUFFICIENT_SPACE);
            } else {
                moved_up(3, 1);
                same = same && took(take(size), n, 0xA1) && as_expected() && wrote(signal, IN(two_credits)) && all(signal + 12, sizeof signal - 12, 9);
            }
        }
        check(same, "a buffer that holds the job gets it whole, and a shorter one is refusal 12 and gets nothing");
    }
    check(waits(M - 6, 3, 0) && nothing_written(l2cap_receive(LENT, IN(room), IN(signal), NONE, 0), L2CAP_INSUFFICIENT_SPACE), "a null pointer of length 0 is a short buffer too");
}

/* A buffer of the slot's MTU is never short. */
static void mtu_suffices(void) {
    static const uint16_t ours[] = {0, 1, 23, 24, 57, M - 6};
    unsigned i;
    for (i = 0; i < sizeof ours / sizeof *ours; i++) {
        check(waits(ours[i], ours[i], 0) && l2cap_mtu(LENT, 0) == 0 && took(take(l2cap_answer_value(answer)), ours[i], 0xA1), "the longest job into a buffer of the MTU");
        check(waits(ours[i], ours[i], 0) && l2cap_disconnect(LENT, IN(room), 0) == 0 && l2cap_mtu(LENT, 0) == 0 && took(take(l2cap_answer_value(answer)), ours[i], 0xA1), "also while it disconnects");
        check(!ours[i] || (waits(ours[i], ours[i], 0) && nothing_written(take(ours[i] - 1u), L2CAP_INSUFFICIENT_SPACE)), "one octet less is refusal 12");
    }
}

/* What 12 leaves: the job is the oldest still, its place is taken, the slot calls, and no identifier is used. */
static void kept(void) {
    static const uint8_t wish[] = {12, 0, 5, 0, 0x12, 2, 8, 0, 6, 0, 12, 0, 0, 0, 100, 0}, first_wish[] = {12, 0, 5, 0, 0x12, 1, 8, 0, 6, 0, 12, 0, 0, 0, 100, 0};
    unsigned k;
    check(waits(M - 6, 6, 2), "jobs of six and of two octets wait");
    for (k = 0; k < 300; k++) /* more often than there are identifiers */
        if (!nothing_written(take(k % 6), L2CAP_INSUFFICIENT_SPACE)) break;
    check(k == 300, "refused as often as it is asked, though the second job would fit");
    check(l2cap_attention(LENT) == 0 && l2cap_answer_attention_set(answer) == 1 && l2cap_answer_attention_count(answer) == 1 && l2cap_answer_attention_lowest(answer) == 0, "the slot goes on calling");
    check(brings(1, 0xC3) == L2CAP_QUEUE_FULL && (expect(), 1), "the job keeps its place: a third is refusal 21");
    check(nothing_written(take(5), L2CAP_INSUFFICIENT_SPACE) && l2cap_send_conn_param_update_req(LENT, IN(signal), 1, 6, 12, 0, 100) == 0 && wrote(signal, IN(first_wish)), "the next identifier is the first");
    memcpy(table, expected, sizeof table);
    check(took(take(6), 6, 0xA1) && l2cap_answer_written(answer) == 12 && signal[5] == 1 && signal[10] == 3, "then it is taken whole, and grants three credits");
    check(l2cap_send_conn_param_update_req(LENT, IN(signal), 1, 6, 12, 0, 100) == 0 && wrote(signal, IN(wish)), "the grant used that identifier");
    check(took(take(2), 2, 0xB2) && l2cap_answer_written(answer) == 0, "the second behind it; no frame came since, and nothing is granted");
    memset(signal, 9, sizeof signal), expect();
    check(take(0) == 0 && is(L2CAP_ANSWER_DONE) && take(sizeof job) == 0 && is(L2CAP_ANSWER_DONE) && l2cap_receive(LENT, IN(room), IN(signal), NONE, 0) == 0 && is(L2CAP_ANSWER_DONE), "no job waits: Done, whatever the buffer");
    check(as_expected() && all(IN(signal), 9) && all(IN(job), 9) && !l2cap_answer_written(answer), "and nothing is written");
    check(l2cap_attention(LENT) == 0 && l2cap_answer_attention_count(answer) == 0, "the slot doesn't call any more");
}

/* While the channel disconnects, at our wish and at the peer's: the same, and nothing is granted. */
static void short_while_disconnecting(void) {
    static const uint8_t request[] = {0x06, 8, 4, 0, 0x40, 0, 0x50, 0};
    int ours;
    for (ours = 0; ours < 2; ours++) {
        check(waits(M - 6, 3, 1) && (ours ? l2cap_disconnect(LENT, IN(room), 0) : l2cap_signal(LENT, IN(room), IN(signal), 1, 1, 0, IN(request))) == 0, "the channel disconnects");
        expect();
        check(nothing_written(take(2), L2CAP_INSUFFICIENT_SPACE) && nothing_written(take(0), L2CAP_INSUFFICIENT_SPACE), "a short buffer is refusal 12");
        moved_up(1, 0);
        check(took(take(3), 3, 0xA1) && as_expected() && !l2cap_answer_written(answer) && all(IN(signal), 9), "the job is taken, and nothing is granted");
        check(took(take(1), 1, 0xB2) && take(0) == 0 && is(L2CAP_ANSWER_DONE), "and the next; then none waits");
        check(waits(M - 6, 3, 1) && (ours ? l2cap_disconnect(LENT, IN(room), 0) : l2cap_signal(LENT, IN(room), IN(signal), 1, 1, 0, IN(request))) == 0 && refused(take(2), L2CAP_INSUFFICIENT_SPACE), "a job that was refused so");
        check(l2cap_next_disconnect(LENT, IN(room), IN(signal)) == 0 && is(L2CAP_ANSWER_DUE) && (ours ? took(take(3), 3, 0xA1) : refused(take(3), L2CAP_CHANNEL_CLOSED) && zeros(room, ROOM / N)), "waits on behind our request, and is wiped with our response");
    }
}

/* 12 is the last: 1, 2, 3, 6 and 11 come first. */
static void short_comes_last(void) {
    check(waits(M - 6, 3, 1) && nothing_written(l2cap_receive(LENT, IN(room), signal, 17, job, 2, 0), L2CAP_NO_ROOM), "3 before 12");
    check(nothing_written(l2cap_receive(LENT, room, sizeof room - 1, IN(signal), job, 2, 0), L2CAP_BAD_ROOM) && nothing_written(l2cap_receive(LENT, IN(room), IN(signal), job, 2, N), L2CAP_BAD_SLOT), "2 and 6 before 12");
    check((table[6] = 1, expect(), nothing_written(take(2), L2CAP_BAD_TABLE)) && (table[6] = 0, expect(), 1), "1 before 12");
    check(nothing_written(l2cap_receive(LENT, IN(room), IN(signal), NONE, 1), L2CAP_CHANNEL_CLOSED), "a slot without a channel is refusal 11");
    /* A job waits in an open or disconnecting slot alone. Where octets say otherwise, 11 is given all the same. */
    check((put_state(table, 0, 0, 0), expect(), nothing_written(take(2), L2CAP_CHANNEL_CLOSED)) && nothing_written(take(sizeof job), L2CAP_CHANNEL_CLOSED), "11 before 12");
    check(waits(M - 6, 3, 1) && l2cap_disconnected(LENT, IN(room), 1) == 0 && (expect(), nothing_written(take(0), L2CAP_CHANNEL_CLOSED)) && l2cap_mtu(LENT, 0) == 0 && !l2cap_answer_value(answer), "a freed slot is refusal 11, and its MTU is 0");
}

/* ---- tallies: every octet of table, room and buffers is looked at after every call */

typedef uint32_t (*question)(const uint8_t *, size_t, uint8_t *, size_t, uint8_t);
static const question tally[] = {l2cap_tally_sent, l2cap_tally_received, l2cap_tally_blocked_sends, l2cap_tally_blocked_receives};

/* The four entries say so of a slot, and write nothing but their answers. */
static int tallies(uint8_t slot, uint64_t sent, uint64_t received, uint64_t blocked_sends, uint64_t blocked_receives) {
    const uint64_t said[] = {sent, received, blocked_sends, blocked_receives};
    uint8_t before[L2CAP_TABLE_OCTETS];
    unsigned k;
    int same = 1;
    memcpy(before, table, sizeof table);
    for (k = 0; k < 4; k++) same = same && tally[k](LENT, slot) == 0 && is(L2CAP_ANSWER_NUMBER) && l2cap_answer_tally(answer) == said[k] && !l2cap_answer_written(answer) && zeros(answer + 14, 2);
    return same && !memcmp(before, table, sizeof table);
}

/* A phone's channel in slot 0, with 2 credits of ours, and one on another link in slot 1, each with 5 of its own. */
static int two_talk(void) {
    uint8_t slot;
    int made = anew();
    for (slot = 0; slot < N; slot++) made = made && l2cap_signal(LENT, IN(room), IN(signal), (uint16_t)(1 + slot), 1, 0, IN(asks)) == 0 && l2cap_next_pending(LENT, (uint16_t)(1 + slot), 1) == 0 && l2cap_accept_pending(LENT, IN(signal), slot, L2CAP_DEFAULT, L2CAP_DEFAULT, L2CAP_EVERY, 1, L2CAP_DEFAULT) == 0;
    memset(room, 0, sizeof room), memset(signal, 9, sizeof signal);
    return expect(), made;
}

/* Nothing was written but what is expected of table and room: out is as it was painted. */
static int only_expected(void) { return as_expected() && all(IN(out), 9); }

/* What is counted of sends, and what isn't. */
static void sends_are_counted(void) {
    uint8_t run[200], answers[3 * L2CAP_ANSWER_OCTETS], buffer[32];
    static uint8_t longest[65535];
    size_t n = 0;
    check(two_talk() && tallies(0, 0, 0, 0, 0) && tallies(1, 0, 0, 0, 0), "a new channel begins at zeros");
    put(expected, 0, 24, 4), put_tally(expected, 0, SENT, 1);
    check(l2cap_send(LENT, IN(out), 0, payload, 3) == 0 && as_expected() && tallies(0, 1, 0, 0, 0), "a send of one frame adds 1");
    put(expected, 0, 24, 2), put_tally(expected, 0, SENT, 3);
    check(l2cap_send(LENT, IN(out), 0, payload, 22) == 0 && as_expected() && tallies(0, 3, 0, 0, 0) && tallies(1, 0, 0, 0, 0), "one of two frames adds 2, in its own slot");
    memset(out, 9, sizeof out), put_tally(expected, 0, BLOCKED_SENDS, 1);
    check(refused(l2cap_send(LENT, IN(out), 0, payload, 60), L2CAP_BUSY) && only_expected() && tallies(0, 3, 0, 1, 0), "one of three frames is refusal 14: blocked once, and not one other octet");
    put_tally(expected, 0, BLOCKED_SENDS, 2);
    check(refused(l2cap_start_job(LENT, IN(out), 0, 60), L2CAP_BUSY) && only_expected() && tallies(0, 3, 0, 2, 0), "a start that is refused so is a blocked send too");
    put_tally(expected, 0, BLOCKED_SENDS, 3);
    check(refused(l2cap_send(LENT, NONE, 0, payload, 60), L2CAP_BUSY) && refused(l2cap_start_job(LENT, NONE, 0, 60), L2CAP_BUSY) && (put_tally(expected, 0, BLOCKED_SENDS, 4), only_expected()), "14 comes before 3, and counts");

    /* Other refusals change nothing. */
    check(refused(l2cap_send(LENT, out, 7, 0, payload, 2), L2CAP_NO_ROOM) && refused(l2cap_start_job(LENT, out, 7, 0, 2), L2CAP_NO_ROOM) && only_expected(), "3 counts nothing, neither as sent nor as blocked");
    check(refused(l2cap_send(LENT, IN(out), 0, longest, 101), L2CAP_INSUFFICIENT_SPACE) && refused(l2cap_start_job(LENT, IN(out), 0, 101), L2CAP_INSUFFICIENT_SPACE) && only_expected(), "12");
    check(refused(l2cap_send(LENT, IN(out), N, payload, 60), L2CAP_BAD_SLOT) && refused(l2cap_start_job(LENT, IN(out), N, 60), L2CAP_BAD_SLOT) && only_expected(), "6");
    check((put(table, 0, 22, 65535), expect(), refused(l2cap_send(LENT, IN(out), 0, longest, 65534), L2CAP_TOO_LONG)) && refused(l2cap_start_job(LENT, IN(out), 0, 65535), L2CAP_TOO_LONG) && only_expected(), "23");
    check((put(table, 0, 20, 22), expect(), refused(l2cap_send(LENT, IN(out), 0, payload, 60), L2CAP_BAD_MPS)) && refused(l2cap_start_job(LENT, IN(out), 0, 60), L2CAP_BAD_MPS) && only_expected(), "20");
    check((table[6] = 1, expect(), refused(l2cap_send(LENT, IN(out), 0, payload, 60), L2CAP_BAD_TABLE)) && refused(l2cap_start_job(LENT, IN(out), 0, 60), L2CAP_BAD_TABLE) && only_expected(), "1");
    check(anew() && refused(l2cap_send(LENT, IN(out), 0, payload, 60), L2CAP_CHANNEL_CLOSED) && refused(l2cap_start_job(LENT, IN(out), 0, 60), L2CAP_CHANNEL_CLOSED) && only_expected() && tallies(0, 0, 0, 0, 0), "11");

    /* In portions: the start adds all, portions add nothing, a cancel takes nothing back. */
    memset(buffer, 9, sizeof buffer);
    check(two_talk() && (put(expected, 0, 24, 3), put(expected, 0, 39, 30), put(expected, 0, 43, 2), put(expected, 0, 45, 2), put_tally(expected, 0, SENT, 2), l2cap_start_job(LENT, IN(buffer), 0, 30) == 0) && as_expected() && tallies(0, 2, 0, 0, 0), "a start adds its frames");
    check(refused(l2cap_send(LENT, IN(out), 0, payload, 60), L2CAP_JOB_OPEN) && refused(l2cap_start_job(LENT, IN(out), 0, 60), L2CAP_JOB_OPEN) && only_expected(), "24 counts nothing, though 14 would be due");
    check(l2cap_give_portion(LENT, IN(buffer), 0, payload, 5) == 0 && l2cap_give_portion(LENT, IN(buffer), 0, NONE) == 0 && tallies(0, 2, 0, 0, 0), "portions add nothing");
    check(refused(l2cap_give_portion(LENT, IN(buffer), 0, payload, 26), L2CAP_WRONG_LENGTH) && refused(l2cap_give_portion(LENT, buffer, 26, 0, payload, 1), L2CAP_NO_ROOM) && tallies(0, 2, 0, 0, 0), "nor do their refusals");
    check(l2cap_cancel_job(LENT, IN(room), 0) == 0 && (expect(), put(expected, 0, 24, 5), as_expected()) && tallies(0, 2, 0, 0, 0), "a cancel before the first frame gives credits back, and no tally");
    check(refused(l2cap_cancel_job(LENT, IN(room), 0), L2CAP_NOT_FOUND) && refused(l2cap_give_portion(LENT, IN(buffer), 0, payload, 1), L2CAP_NOT_FOUND) && as_expected(), "8 counts nothing");
    check(in_portions(0, buffer, 27, payload, 30, 7, out) == 40 && tallies(0, 4, 0, 0, 0), "a whole job in portions adds its frames once");
    check(l2cap_start_job(LENT, IN(buffer), 1, 30) == 0 && l2cap_give_portion(LENT, IN(buffer), 1, payload, 30) == 0 && l2cap_answer_portion_full(answer) && tallies(1, 2, 0, 0, 0), "a frame of another job is out");
    check(l2cap_cancel_job(LENT, IN(room), 1) == 0 && tallies(1, 0, 0, 0, 0) && tallies(0, 4, 0, 0, 0), "a later cancel ends the channel, and its tallies");

    /* A run: as so many sends. */
    n = l2cap_run_job(IN(run), 0, payload, 60), n += l2cap_run_job(run + n, sizeof run - n, 1, payload, 3), n += l2cap_run_job(run + n, sizeof run - n, 0, payload, 60);
    check(two_talk() && l2cap_send_run(LENT, IN(out), run, n, IN(answers)) == 0 && l2cap_answer_refusal(l2cap_run_answer(answers, 2)) == L2CAP_BUSY, "a run of three jobs, the last of which is refused");
    put(expected, 0, 24, 2), put(expected, 1, 24, 4), put_tallies(expected, 0, 3, 0, 1, 0), put_tallies(expected, 1, 1, 0, 0, 0);
    check(as_expected() && tallies(0, 3, 0, 1, 0) && tallies(1, 1, 0, 0, 0), "is counted as three sends");
}

/* What is counted of frames, and what isn't. */
static void frames_are_counted(void) {
    static const uint8_t closes[] = {0x06, 8, 4, 0, 0x40, 0, 0x50, 0};
    uint8_t run[64], answers[4 * L2CAP_ANSWER_OCTETS];
    size_t n = 0;
    check(two_talk() && brings(3, 0xA1) == 0 && tallies(0, 0, 1, 0, 0), "a frame adds 1");
    check(two_talk() && (payload[0] = 9, payload[1] = 0, l2cap_dispatch(LENT, IN(room), 1, L2CAP_CID_BASE, payload, 5)) == 0 && l2cap_dispatch(LENT, IN(room), 1, L2CAP_CID_BASE, payload, 1) == 0 && tallies(0, 0, 2, 0, 0), "frames of a half job too");
    expect(), put_tally(expected, 0, BLOCKED_RECEIVES, 1);
    check(l2cap_dispatch(LENT, IN(room), 1, L2CAP_CID_BASE, payload, 1) == L2CAP_OUT_OF_MEMORY && as_expected() && tallies(0, 0, 2, 0, 1) && tallies(1, 0, 0, 0, 0), "one without a credit is refusal 10: blocked, and not one other octet");
    put_tally(expected, 0, BLOCKED_RECEIVES, 2);
    check(l2cap_dispatch(LENT, IN(room), 1, L2CAP_CID_BASE, NONE) == L2CAP_OUT_OF_MEMORY && as_expected(), "an empty one too");
    check(l2cap_dispatch(LENT, IN(room), 1, L2CAP_CID_BASE + N, payload, 5) == L2CAP_INVALID_CHANNEL_ID && l2cap_dispatch(LENT, IN(room), 2, L2CAP_CID_BASE, payload, 5) == L2CAP_NOT_FOUND && as_expected(), "7 and 8 count nothing");
    check(l2cap_dispatch(LENT, IN(room), 0x0F00, L2CAP_CID_BASE, payload, 5) == L2CAP_BAD_HANDLE && l2cap_dispatch(LENT, room, 1, 1, L2CAP_CID_BASE, payload, 5) == L2CAP_BAD_ROOM && as_expected(), "nor do 4 and 2");
    check(l2cap_signal(LENT, IN(room), IN(signal), 1, 1, 0, IN(closes)) == 0 && (expect(), brings(3, 0xA1) == 0) && as_expected(), "nor does a frame that is dropped, since the channel isn't open");
    check(waits(M - 6, 1, 2) && tallies(0, 0, 2, 0, 0) && brings(3, 0xC3) == L2CAP_QUEUE_FULL && tallies(0, 0, 3, 0, 0), "one whose job is dropped used its credit: 21 adds 1");

    payload[0] = 0, payload[1] = 0; /* jobs of no octets, and two credits */
    n = l2cap_run_frame(IN(run), 1, L2CAP_CID_BASE, payload, 2), n += l2cap_run_frame(run + n, sizeof run - n, 2, L2CAP_CID_BASE + 1, payload, 2), n += l2cap_run_frame(run + n, sizeof run - n, 1, L2CAP_CID_BASE, payload, 2), n += l2cap_run_frame(run + n, sizeof run - n, 1, L2CAP_CID_BASE, payload, 2);
    check(two_talk() && l2cap_dispatch_run(LENT, IN(room), run, n, IN(answers)) == 0 && l2cap_answer_refusal(l2cap_run_answer(answers, 3)) == L2CAP_OUT_OF_MEMORY && tallies(0, 0, 2, 0, 1) && tallies(1, 0, 1, 0, 0), "a run is counted as its frames");
}

/* Numbers of 64 bits in both slots, of which every octet shows; table and room are what is expected. */
static const uint64_t MARK = 0x0102030405060708;
static void mark(void) {
    uint8_t slot;
    for (slot = 0; slot < N; slot++) put_tallies(table, slot, MARK, 2 * MARK, 3 * MARK, 4 * MARK);
    expect();
}
static int marked(uint8_t slot) { return tallies(slot, MARK, 2 * MARK, 3 * MARK, 4 * MARK); }
static int reset(uint32_t returned, uint32_t refusal) { return returned == refusal && tallies(0, 0, 0, 0, 0) && marked(1); }
static int two_marked(void) { return two_talk() ? (mark(), 1) : 0; }

/* Our side ends an open channel: its tallies are zeros at once, and no other slot's. */
static void ours_resets(void) {
    static const uint8_t overflow[] = {0x16, 9, 4, 0, 0x50, 0, 0xFF, 0xFF};
    uint8_t buffer[32];
    check(two_marked() && marked(0) && reset(l2cap_disconnect(LENT, IN(room), 0), 0), "disconnect");
    put_state(expected, 0, 6, 0), put_tallies(expected, 0, 0, 0, 0, 0);
    check(as_expected(), "state and tallies alone");
    check(two_marked() && reset(l2cap_disconnect_by_cid(LENT, IN(room), L2CAP_CID_BASE), 0), "disconnect by CID");
    check(two_marked() && l2cap_inc_ref(LENT, 0) == 0 && l2cap_dec_ref(LENT, IN(room), 0) == 0 && marked(0) && reset(l2cap_dec_ref(LENT, IN(room), 0), 0), "the last release, and none before it");
    check(two_marked() && reset(comes(1, L2CAP_CID_BASE, 61), L2CAP_INVALID_VALUE), "a frame above our MPS");
    check(two_marked() && (memset(payload, 0xFF, sizeof payload), reset(l2cap_dispatch(LENT, IN(room), 1, L2CAP_CID_BASE, payload, 5), L2CAP_INVALID_VALUE)), "a job above our MTU");
    check(two_marked() && (payload[0] = 1, payload[1] = 0, reset(l2cap_dispatch(LENT, IN(room), 1, L2CAP_CID_BASE, payload, 5), L2CAP_INVALID_VALUE)), "more octets than the job has");
    check(two_marked() && reset(l2cap_dispatch(LENT, IN(room), 1, L2CAP_CID_BASE, payload, 1), L2CAP_SHORT_FRAME), "a short frame");
    check(two_marked() && reset(l2cap_signal(LENT, IN(room), IN(signal), 1, 1, 0, IN(overflow)), L2CAP_INVALID_VALUE), "credits above 65,535");
    check(two_marked() && l2cap_start_job(LENT, IN(buffer), 0, 30) == 0 && l2cap_give_portion(LENT, IN(buffer), 0, payload, 30) == 0 && tallies(0, MARK + 2, 2 * MARK, 3 * MARK, 4 * MARK) && reset(l2cap_cancel_job(LENT, IN(room), 0), 0), "a cancel behind a frame");
    check(two_marked() && l2cap_disconnect(LENT, IN(room), 0) == 0 && (mark(), l2cap_disconnect(LENT, IN(room), 0) == 0) && l2cap_disconnect_by_cid(LENT, IN(room), L2CAP_CID_BASE) == 0 && as_expected(), "a disconnect of what isn't open resets nothing");
}

/* What frees a slot leaves zeros; the peer's disconnect alone doesn't. */
static void frees_reset(void) {
    static const uint8_t closes[] = {0x06, 8, 4, 0, 0x40, 0, 0x50, 0}, stranger[] = {0x15, 99, 10, 0, 0, 0, 0, 0, 0, 0, 0, 0, 0, 0}, responds[] = {0x07, 1, 4, 0, 0x50, 0, 0x40, 0}, fails[] = {0x15, 1, 10, 0, 0, 0, 0, 0, 0, 0, 0, 0, 4, 0}, opens[] = {0x15, 1, 10, 0, 0x50, 0, 100, 0, 23, 0, 5, 0, 0, 0};
    check(two_marked() && l2cap_signal(LENT, IN(room), IN(signal), 1, 1, 0, IN(closes)) == 0 && marked(0) && marked(1), "the peer's disconnect keeps them");
    put_state(expected, 0, 5, 8);
    check(as_expected(), "the state alone has changed");
    check(l2cap_disconnect(LENT, IN(room), 0) == 0 && l2cap_dec_ref(LENT, IN(room), 0) == 0 && marked(0), "and so does what we do then, but for a free");
    check(reset(l2cap_next_disconnect(LENT, IN(room), IN(signal)), 0), "our response frees the slot");
    check(l2cap_signal(LENT, IN(room), IN(signal), 3, 1, 0, IN(asks)) == 0 && l2cap_next_pending(LENT, 3, 1) == 0 && l2cap_answer_slot(answer) == 0 && l2cap_accept_pending(LENT, IN(signal), 0, L2CAP_DEFAULT, L2CAP_DEFAULT, L2CAP_EVERY, 1, 9) == 0 && tallies(0, 0, 0, 0, 0), "its next owner begins at zeros");
    check(two_marked() && l2cap_signal(LENT, IN(room), IN(signal), 1, 1, 0, IN(closes)) == 0 && reset(l2cap_opened(LENT, IN(room), 0, 1, 1), L2CAP_DISCONNECTED), "the opened query frees it");
    check(two_marked() && l2cap_signal(LENT, IN(room), IN(signal), 1, 1, 0, IN(closes)) == 0 && reset(l2cap_disconnected(LENT, IN(room), 1), 0), "link down frees it");
    check(two_marked() && reset(l2cap_disconnected(LENT, IN(room), 1), 0), "link down of an open channel");
    check(two_marked() && reset(l2cap_opened(LENT, IN(room), 0, 1, 0), L2CAP_DISCONNECTED), "the opened query of a link that is down");
    check(two_marked() && l2cap_disconnect(LENT, IN(room), 0) == 0 && l2cap_next_disconnect(LENT, IN(room), IN(signal)) == 0 && (mark(), reset(l2cap_signal(LENT, IN(room), IN(signal), 1, 1, 0, IN(responds)), 0)), "the peer's response");
    check(two_marked() && (table[cell(0, 17)] = 0, reset(l2cap_give_up(LENT, IN(room), 0), 0)), "an open channel that is given up");
    check(anew() && attempt() && (mark(), reset(l2cap_give_up(LENT, IN(room), 0), 0)), "an attempt that is given up");
    check(anew() && attempt() && (mark(), reset(l2cap_signal(LENT, IN(room), IN(signal), 1, 1, 0, IN(stranger)), L2CAP_NOT_FOUND)), "a response that fits no attempt");
    check(anew() && attempt() && l2cap_signal(LENT, IN(room), IN(signal), 1, 1, 0, IN(fails)) == L2CAP_CONNECT_ERROR && (mark(), reset(l2cap_opened(LENT, IN(room), 0, 1, 1), L2CAP_CONNECT_ERROR)), "an attempt that failed");
    check(anew() && attempt() && l2cap_signal(LENT, IN(room), IN(signal), 1, 1, 0, IN(opens)) == 0 && brings(3, 0xA1) == 0 && tallies(0, 0, 1, 0, 0) && l2cap_opened(LENT, IN(room), 0, 1, 1) == 0 && tallies(0, 0, 1, 0, 0), "an attempt that opens counts from its response on");
    check(anew() && l2cap_signal(LENT, IN(room), IN(signal), 1, 1, 0, IN(asks)) == 0 && (mark(), reset(l2cap_reject_all_pending(LENT, IN(room), IN(signal), 1), 0)), "a pending that is rejected with all");
    check(anew() && l2cap_signal(LENT, IN(room), IN(signal), 1, 1, 0, IN(asks)) == 0 && l2cap_next_pending(LENT, 1, 1) == 0 && (mark(), reset(l2cap_reject_pending(LENT, IN(room), IN(signal), 0, 4), 0)), "one that is rejected");
    check(anew() && l2cap_signal(LENT, IN(room), IN(signal), 1, 1, 0, IN(asks)) == 0 && l2cap_next_pending(LENT, 1, 1) == 0 && (mark(), reset(l2cap_drop_pending(LENT, IN(room), 0), 0)), "one that is dropped");
    check(two_marked() && l2cap_make(LENT, IN(room), N, D, M) == 0 && tallies(0, 0, 0, 0, 0) && tallies(1, 0, 0, 0, 0), "a new table");
}

/* Each wraps by itself, and a carry goes through its own eight octets alone. */
static void tallies_wrap(void) {
    static const uint8_t credits[] = {0x16, 9, 4, 0, 0x50, 0, 3, 0};
    const uint64_t most = ~(uint64_t)0;
    unsigned k;
    for (k = 0; k < 8; k++) {
        uint64_t at = most >> 8 * k; /* the tallies beside it are full: a carry into one would show */
        two_talk(), put_tallies(table, 0, most, at, most, most), put_tallies(table, 1, most, most, most, most);
        check(brings(3, 0xA1) == 0 && tallies(0, most, at + 1, most, most), "a frame");
        put_tallies(table, 0, at - 1, most, most, most);
        check(l2cap_send(LENT, IN(out), 0, payload, 60) == 0 && tallies(0, at + 2, most, most, most), "a send of three frames");
        put_tallies(table, 0, most, most, at, most);
        check(l2cap_send(LENT, IN(out), 0, payload, 60) == L2CAP_BUSY && tallies(0, most, most, at + 1, most), "a send that is blocked");
        put_tallies(table, 0, most, most, at, most);
        check(l2cap_start_job(LENT, IN(out), 0, 60) == L2CAP_BUSY && tallies(0, most, most, at + 1, most), "a start that is blocked");
        put_tallies(table, 0, at, most, most, most);
        check(l2cap_start_job(LENT, IN(out), 0, 30) == 0 && tallies(0, at + 2, most, most, most) && l2cap_cancel_job(LENT, IN(room), 0) == 0 && tallies(0, at + 2, most, most, most), "a start");
        put(table, 0, 13, 0), put_tallies(table, 0, most, most, most, at);
        check(brings(3, 0xA1) == L2CAP_OUT_OF_MEMORY && tallies(0, most, most, most, at + 1), "a frame that is blocked");
        check(l2cap_signal(LENT, IN(room), IN(signal), 1, 1, 0, IN(credits)) == 0 && take(sizeof job) == 0 && tallies(0, most, most, most, at + 1) && tallies(1, most, most, most, most), "credits and a take leave them");
    }
}

/* Any octets are a tally: refusal 1 looks at none of them, in slots of the table and past them. */
static void any_tally(void) {
    unsigned column, slot, octet;
    int same = two_talk();
    for (column = SENT; column < BLOCKED_RECEIVES + 8; column++)
        for (slot = 0; slot < 16; slot++)
            for (octet = 0; octet < 256; octet += 51) {
                memcpy(table, expected, sizeof table), table[cell((uint8_t)slot, column)] = (uint8_t)octet;
                same = same && l2cap_attention(LENT) == 0 && l2cap_send(LENT, IN(out), 0, payload, 3) == 0 && l2cap_register_spsm(LENT, 129) == 0;
            }
    check(same, "no tally makes a table none");
    memcpy(table, expected, sizeof table), mark();
    for (slot = 0; slot < 4; slot++) {
        check(refused(tally[slot](LENT, N), L2CAP_BAD_SLOT) && refused(tally[slot](table, sizeof table - 1, answer, sizeof answer, 0), L2CAP_BAD_TABLE) && refused(tally[slot](NONE, answer, sizeof answer, 0), L2CAP_BAD_TABLE) && as_expected(), "a tally's refusals: 1 and 6");
        check((table[6] = 1, refused(tally[slot](LENT, N), L2CAP_BAD_TABLE)) && (table[6] = 0, tally[slot](table, sizeof table, NONE, 0) == 0) && as_expected(), "1 before 6, and a question without an answer");
    }
}

/* The octets of an answer, each number above what one octet holds. */
static void readers(void) {
    static const uint8_t octets[L2CAP_ANSWER_OCTETS] = {L2CAP_ANSWER_DUE, 2, 0x01, 0x02, 0x03, 0x84, 0x11, 0x12, 0x13, 0x14, 0x15, 0x16, 0x17, 0x98, 0, 0};
    check(l2cap_answer_written(octets) == 0x84030201, "four octets of what was written");
    check(l2cap_answer_number(octets, 0) == 0x1211 && l2cap_answer_number(octets, 3) == 0x9817, "numbers of two octets");
    check(l2cap_answer_attention_set(octets) == 0x1211, "a set of sixteen slots");
    check(l2cap_answer_slot(octets) == 0x13, "a slot behind its link");
    check(l2cap_answer_job_length(octets) == 0x1413 && l2cap_answer_frame_count(octets) == 0x1413, "a job's length behind its link");
    check(l2cap_answer_portion_taken(octets) == 0x1413 && l2cap_answer_portion_full(octets) == 1, "a portion's numbers");
    check(l2cap_answer_run_count(octets) == 0x14131211 && l2cap_answer_run_used(octets) == 0x98171615, "a run's numbers, of four octets");
    check(l2cap_answer_tally(octets) == 0x9817161514131211, "a tally, of eight octets");
    check(l2cap_run_answer(octets, 1) == octets + 16, "the next answer of a run");
}

int main(void) {
    a_phone();
    nothing_changes();
    nothing_lent();
    an_end();
    our_own();
    runs();
    portions();
    least_requests();
    least_responses();
    own_mps();
    forged_mps();
    own_offers();
    short_buffers();
    mtu_suffices();
    kept();
    short_while_disconnecting();
    short_comes_last();
    sends_are_counted();
    frames_are_counted();
    ours_resets();
    frees_reset();
    tallies_wrap();
    any_tally();
    readers();
    printf("%d passed, %d failed\n", passed, failed);
    return failed != 0;
}
