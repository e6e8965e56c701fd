/* A small printer. `packet` takes a whole L2CAP packet that came on a link, and sends and prints all that it calls for: responses, credits, disconnects, jobs; `reply` sends a sheet of the printer's own, a line at a time; `service` is a slot's row of a service screen. It needs no heap and no C library, so that a firmware can take
 * it over; `main` plays two phones and an old handset with it, and looks at what comes out. */
#include "l2cap_channels.h"
#include <stdio.h>
#include <string.h>

/* Frames of 23 octets: the longest job, of PACKET - 6 octets, is three of them, and a phone gets credits for so many (the header, Credits). */
enum { SLOTS = 4, WAITING = 1, PACKET = 64, MPS = 23, CREDITS = 3, SPSM = 0x80, SIGNALLING = 5, LINE = 16 };

static uint8_t table[L2CAP_TABLE_OCTETS], answer[L2CAP_ANSWER_OCTETS], room[L2CAP_ROOM_OCTETS(SLOTS, WAITING, PACKET)], signal[L2CAP_SIGNAL_OCTETS];

/* What a job is taken into: as long as the longest that a phone may send, our MTU. So a take never finds it too short. */
static uint8_t job[PACKET - 6];

/* The frame that is being filled in each slot: no two open jobs may share one. It holds the frames of a phone whose MPS is at most PACKET - 4; for a longer one a start is refused by 3. */
static uint8_t filling[SLOTS][PACKET];

/* The slots that we hold, each once: from a phone's request on until we give them back. */
static uint8_t held[SLOTS];

#define LENT table, sizeof table, answer, sizeof answer
#define IN(octets) octets, sizeof octets

/* What leaves the printer: a packet for the controller, with its L2CAP header, and a job that is whole. */
static void send_packet(uint16_t link, const uint8_t *octets, size_t n);
static void print_job(uint16_t link, const uint8_t *octets, size_t n);

/* What the printer renders: line k of a reply sheet. */
static void render(unsigned k, uint8_t line[LINE]);

static uint32_t start(void) {
    uint32_t refusal = l2cap_make(LENT, IN(room), SLOTS, WAITING, PACKET);
    return refusal ? refusal : l2cap_register_spsm(LENT, SPSM);
}

/* Every signal of a PDU, whether one before it was refused or not; then every phone that asks for a channel gets one. */
static void signals(uint16_t link, const uint8_t *pdu, size_t n) {
    size_t rest;
    do {
        l2cap_signal(LENT, IN(room), IN(signal), link, 1, 0, pdu, n);
        if (l2cap_answer_written(answer)) send_packet(link, signal, l2cap_answer_written(answer));
        rest = l2cap_signal_rest(pdu, n);
        pdu += n - rest, n = rest;
    } while (rest);
    while (l2cap_next_pending(LENT, link, 1) == 0 && l2cap_answer_kind(answer) == L2CAP_ANSWER_AT) {
        uint8_t slot = l2cap_answer_slot(answer);
        if (l2cap_accept_pending(LENT, IN(signal), slot, L2CAP_DEFAULT, MPS, L2CAP_EVERY, 1, CREDITS)) {
            l2cap_drop_pending(LENT, IN(room), slot);
        } else {
            held[slot] = 1;
            send_packet(l2cap_answer_link(answer), signal, l2cap_answer_written(answer));
        }
    }
}

/* All that is due: jobs that wait, until there is none or a take is refused (a refused one would be refused again); then disconnects, with which waiting jobs would go, then the holds on slots whose channel has ended: these have no SPSM any more. */
static void settle(void) {
    uint8_t slot;
    uint16_t set = l2cap_attention(LENT) ? 0 : l2cap_answer_attention_set(answer);
    for (slot = 0; slot < SLOTS; slot++)
        while (set >> slot & 1 && l2cap_receive(LENT, IN(room), IN(signal), IN(job), slot) == 0 && l2cap_answer_kind(answer) == L2CAP_ANSWER_JOB) {
            print_job(l2cap_answer_link(answer), job, l2cap_answer_job_length(answer));
            if (l2cap_answer_written(answer)) send_packet(l2cap_answer_link(answer), signal, l2cap_answer_written(answer));
        }
    while (l2cap_next_disconnect(LENT, IN(room), IN(signal)) == 0 && l2cap_answer_kind(answer) == L2CAP_ANSWER_DUE)
        send_packet(l2cap_answer_link(answer), signal, l2cap_answer_written(answer));
    for (slot = 0; slot < SLOTS; slot++)
        if (held[slot] && l2cap_spsm(LENT, slot) == 0 && l2cap_answer_value(answer) == 0 && l2cap_dec_ref(LENT, IN(room), slot) == 0) held[slot] = 0;
}

/* A whole packet, as long as its header says: who puts packets together from the controller's pieces sees to that. Returns what a frame was refused by, or 0. */
static uint32_t packet(uint16_t link, const uint8_t *octets, size_t n) {
    uint16_t cid = (uint16_t)(octets[2] | octets[3] << 8);
    uint32_t refusal = 0;
    if (cid == SIGNALLING && n <= PACKET) signals(link, octets + 4, n - 4); /* a phone mustn't choose how long a PDU of signals is */
    if (cid >= L2CAP_CID_BASE) refusal = l2cap_dispatch(LENT, IN(room), link, cid, octets + 4, n - 4);
    if (refusal == L2CAP_OUT_OF_MEMORY) l2cap_disconnect_by_cid(LENT, IN(room), cid); /* a phone that sends without a credit loses its channel (Core, Vol 3 Part A, 10.1) */
    settle();
    return refusal;
}

/* Frames of any links that came together, as a run: handed over as far as the answers reach, and on from there. What a frame was refused by stands in its own answer; here they are counted. */
static unsigned frames(const uint8_t *run, size_t n) {
    static uint8_t answers[2 * L2CAP_ANSWER_OCTETS];
    unsigned refused = 0;
    uint32_t refusal, count, used, k;
    do {
        refusal = l2cap_dispatch_run(LENT, IN(room), run, n, IN(answers));
        count = l2cap_answer_run_count(answer), used = l2cap_answer_run_used(answer);
        for (k = 0; k < count; k++) refused += l2cap_answer_refusal(l2cap_run_answer(answers, k)) != 0;
        run += used, n -= used;
        settle();
    } while (refusal == L2CAP_NO_ROOM && count);
    return refused;
}

/* A reply sheet of one line or more, rendered while it is sent: no more of it than a line and a frame is ever in memory. Returns what it was refused by, or 0. By the start: nothing was sent (14: try again after the phone's next
 * credits). Later by 11 alone, as the slot is held: the channel has ended meanwhile, and the job with it. */
static uint32_t reply(uint8_t slot, unsigned lines) {
    uint8_t line[LINE];
    unsigned k;
    size_t at;
    uint32_t refusal = l2cap_start_job(LENT, IN(filling[slot]), slot, (size_t)lines * LINE);
    for (k = 0; k < lines && !refusal; k++) {
        render(k, line);
        for (at = 0; at < LINE && !refusal; at += l2cap_answer_portion_taken(answer)) {
            refusal = l2cap_give_portion(LENT, IN(filling[slot]), slot, line + at, LINE - at);
            if (l2cap_answer_written(answer)) send_packet(l2cap_answer_link(answer), filling[slot], l2cap_answer_written(answer));
        }
    }
    return refusal;
}

/* A slot's tallies for a service screen: frames sent and received, sends and frames that were blocked. Zeros of a slot without a channel. */
static void service(uint8_t slot, uint64_t row[4]) {
    row[0] = l2cap_tally_sent(LENT, slot) ? 0 : l2cap_answer_tally(answer);
    row[1] = l2cap_tally_received(LENT, slot) ? 0 : l2cap_answer_tally(answer);
    row[2] = l2cap_tally_blocked_sends(LENT, slot) ? 0 : l2cap_answer_tally(answer);
    row[3] = l2cap_tally_blocked_receives(LENT, slot) ? 0 : l2cap_answer_tally(answer);
}

static void link_down(uint16_t link) {
    l2cap_disconnected(LENT, IN(room), link);
    settle();
}

/* ---- the scene: what left the printer last, on which link, and how many there were */

static uint8_t sent[PACKET], printed[PACKET];
static size_t sent_length, printed_length;
static unsigned sent_link, printed_link, packets, jobs, passed, failed;

static void send_packet(uint16_t link, const uint8_t *octets, size_t n) {
    memcpy(sent, octets, n);
    sent_length = n, sent_link = link, packets++;
}

static void print_job(uint16_t link, const uint8_t *octets, size_t n) {
    memcpy(printed, octets, n);
    printed_length = n, printed_link = link, jobs++;
    printf("link %u: %.*s\n", (unsigned)link, (int)n, (const char *)octets);
}

static void render(unsigned k, uint8_t line[LINE]) {
    static const char *const lines[] = {"2 tickets, row 1", "7, seats 4 and 5", ". Doors at 19:30"};
    memcpy(line, lines[k], LINE);
}

static void check(int holds, const char *what) {
    holds ? passed++ : failed++;
    if (!holds) printf("FAILED: %s\n", what);
}

/* So many packets left, and the last one is this one. */
static int went(unsigned count, unsigned link, const uint8_t *octets, size_t n) {
    int same = packets == count && sent_link == link && sent_length == n && !memcmp(sent, octets, n);
    packets = 0;
    return same;
}

/* A slot's row of the screen is this one; it is printed. */
static int shows(uint8_t slot, unsigned out, unsigned in, unsigned blocked_out, unsigned blocked_in) {
    uint64_t row[4];
    service(slot, row);
    printf("slot %u: %llu frames out, %llu in; blocked: %llu out, %llu in\n", slot, (unsigned long long)row[0], (unsigned long long)row[1], (unsigned long long)row[2], (unsigned long long)row[3]);
    return row[0] == out && row[1] == in && row[2] == blocked_out && row[3] == blocked_in;
}

int main(void) {
    static const uint8_t connect[] = {14, 0, 5, 0, 0x14, 7, 10, 0, SPSM, 0, 0x50, 0, 100, 0, 23, 0, 5, 0}; /* from the phone's CID 0x50 */
    static const uint8_t accepted[] = {14, 0, 5, 0, 0x15, 7, 10, 0, 0x40, 0, 58, 0, MPS, 0, CREDITS, 0, 0, 0}; /* to slot 0, whose CID is 0x40 */
    static const uint8_t first[] = {14, 0, 0x40, 0, 16, 0, 't', 'i', 'c', 'k', 'e', 't', ' ', '1', ',', ' ', 'r', 'o'}, second[] = {4, 0, 0x40, 0, 'w', ' ', '1', '7'};
    static const uint8_t credits[] = {8, 0, 5, 0, 0x16, 1, 4, 0, 0x40, 0, 2, 0};
    static const uint8_t half[] = {6, 0, 0x40, 0, 9, 0, 'h', 'a', 'l', 'f'};
    static const uint8_t closes[] = {8, 0, 5, 0, 0x06, 8, 4, 0, 0x40, 0, 0x50, 0}, closed[] = {8, 0, 5, 0, 0x07, 8, 4, 0, 0x40, 0, 0x50, 0};
    static const uint8_t whole[] = {10, 0, 0x40, 0, 8, 0, 't', 'i', 'c', 'k', 'e', 't', ' ', '2'}, bad[] = {1, 0, 0x40, 0, 9};
    static const uint8_t ours[] = {8, 0, 5, 0, 0x06, 3, 4, 0, 0x50, 0, 0x40, 0}, response[] = {8, 0, 5, 0, 0x07, 3, 4, 0, 0x50, 0, 0x40, 0};
    static const uint8_t last[] = {4, 0, 0x50, 0, '9', ':', '3', '0'};
    static const uint8_t handset[] = {14, 0, 5, 0, 0x14, 7, 10, 0, SPSM, 0, 0x50, 0, 100, 0, 10, 0, 5, 0}, unsuitable[] = {14, 0, 5, 0, 0x15, 7, 10, 0, 0, 0, 0, 0, 0, 0, 0, 0, L2CAP_RESULT_UNACCEPTABLE_PARAMETERS, 0};

    uint8_t run[PACKET];
    size_t at = 0;

    check(start() == 0, "a printer");

    /* The phone on link 1 connects, and sends a job in two frames. */
    packet(1, IN(connect));
    check(went(1, 1, IN(accepted)) && held[0], "it is accepted, and slot 0 is held");
    check(packet(1, IN(first)) == 0 && jobs == 0, "half a job is not printed");
    check(packet(1, IN(second)) == 0 && jobs == 1 && printed_link == 1 && printed_length == 16 && !memcmp(printed, "ticket 1, row 17", 16), "the job is printed, once and whole");
    check(went(1, 1, IN(credits)), "the phone has its two credits back");

    /* It closes its channel in the middle of the next job. The phone on link 2 gets the slot, and its job comes out clean. */
    check(packet(1, IN(half)) == 0 && packets == 0, "half of another job");
    check(shows(0, 0, 3, 0, 0), "three frames came from it");
    packet(1, IN(closes));
    check(went(1, 1, IN(closed)) && !held[0], "a disconnect response, and the hold is given back");
    packet(2, IN(connect));
    check(went(1, 2, IN(accepted)) && held[0], "the next phone has the same slot");
    check(packet(2, IN(whole)) == 0 && jobs == 2 && printed_link == 2 && printed_length == 8 && !memcmp(printed, "ticket 2", 8), "its job, and nothing of the other's");

    /* It sends a bad frame: we disconnect, and its response ends the channel. */
    packets = 0;
    check(packet(2, IN(bad)) == L2CAP_SHORT_FRAME && went(1, 2, IN(ours)) && held[0], "our disconnect request; the slot is still held");
    packet(2, IN(response));
    check(packets == 0 && !held[0], "the phone's response: the hold is given back");

    /* The first phone is back. Three of its frames came together: a job in two of them, and one in the third. */
    packet(1, IN(connect));
    check(went(1, 1, IN(accepted)) && held[0], "the first phone is back");
    /* PACKET octets hold the three: each adds more than 0. */
    at += l2cap_run_frame(run + at, sizeof run - at, 1, 0x40, first + 4, sizeof first - 4);
    at += l2cap_run_frame(run + at, sizeof run - at, 1, 0x40, second + 4, sizeof second - 4);
    at += l2cap_run_frame(run + at, sizeof run - at, 1, 0x40, whole + 4, sizeof whole - 4);
    check(frames(run, at) == 0 && jobs == 4 && printed_link == 1 && printed_length == 8, "a run of three frames, with answers for two at a time");

    /* The printer's own sheet, of three lines: two full frames, and the four octets that are left. */
    packets = 0;
    check(reply(0, 3) == 0 && went(3, 1, IN(last)), "a reply sheet, in three frames");
    check(reply(0, 3) == L2CAP_BUSY && reply(0, 1) == 0 && packets == 1, "of five credits two are left: one line goes out");
    check(shows(0, 4, 3, 1, 0), "the screen has its own frames alone, and the sheet that had to wait");

    /* An old handset asks for a channel, with frames of 10 octets. Core has 23 as the least: it is told so, and gets no slot. */
    packets = 0;
    packet(3, IN(handset));
    check(went(1, 3, IN(unsuitable)) && !held[1], "a phone with frames below 23 octets is turned down");

    /* A link goes down. */
    packets = 0;
    link_down(1);
    check(packets == 0 && !held[0] && jobs == 4 && shows(0, 0, 0, 0, 0), "nothing is left of it");
    printf("%u passed, %u failed\n", passed, failed);
    return failed != 0;
}
