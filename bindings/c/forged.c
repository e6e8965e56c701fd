/* Tables that no call wrote. Every octet of busy tables is changed, and each call that works on the table's octets where they stand is made on what comes of it, beside the same call made by value on the whole table, which the
 * archive of the crate edge_whole has; the calls of a job in portions, beside document 02's words on the same octets. Octets that a question refuses by 1 are refused by 1, and nothing changes; of all others number, answer, table, room and buffers are equal; a take is refused by 12 where its buffer is shorter than the oldest job, and writes nothing; and the tallies are what their octets spell. Then faults are planted, and each is found.
 * gcc -std=c99 -O1 -o forged bindings/c/forged.c target/unproved/libentries.a target/unproved/libedge_whole.a && ./forged */
#include "l2cap_channels.h"
#include <stdio.h>
#include <string.h>

enum { N = 16, D = 4, M = 300, PLACE = M - 6, ROOM = N * (D + 1) * PLACE, SPSM = 0x80, HEAD = 48, SENT = 47, BLOCKED_SENDS = 55, RECEIVED = 63, BLOCKED_RECEIVES = 71, COLUMNS = 79, BEHIND = 16, PAINT = 0xa5, CALLS = 9, MANY = 13000, LONG = 41 };

/* The calls by value, of the same parameters. */
uint32_t whole_dispatch(uint8_t *, size_t, uint8_t *, size_t, uint8_t *, size_t, uint16_t, uint16_t, const uint8_t *, size_t);
uint32_t whole_send(uint8_t *, size_t, uint8_t *, size_t, uint8_t *, size_t, uint8_t, const uint8_t *, size_t);
uint32_t whole_receive(uint8_t *, size_t, uint8_t *, size_t, uint8_t *, size_t, uint8_t *, size_t, uint8_t *, size_t, uint8_t);
uint32_t whole_signal(uint8_t *, size_t, uint8_t *, size_t, uint8_t *, size_t, uint8_t *, size_t, uint16_t, uint8_t, uint8_t, const uint8_t *, size_t);

/* What a call is lent, and octets behind each, in which a write would show. */
typedef struct {
    uint8_t table[L2CAP_TABLE_OCTETS], behind_table[BEHIND], answer[L2CAP_ANSWER_OCTETS], behind_answer[BEHIND], room[ROOM], behind_room[BEHIND], signal[L2CAP_SIGNAL_OCTETS], behind_signal[BEHIND];
    uint8_t job[PLACE], behind_job[BEHIND], out[256], behind_out[BEHIND], buffer[40], behind_buffer[BEHIND], answers[5 * L2CAP_ANSWER_OCTETS], behind_answers[BEHIND];
    uint32_t number;
} memory;

#define LENT(m) (m)->table, table_len, (m)->answer, sizeof (m)->answer
#define IN(octets) octets, sizeof octets

static const char *const names[CALLS] = {"l2cap_dispatch", "l2cap_send", "l2cap_receive", "l2cap_signal", "l2cap_dispatch_run", "l2cap_send_run", "l2cap_start_job", "l2cap_give_portion", "l2cap_cancel_job"};
static memory bases[2], was, placed, whole;
static size_t table_len = L2CAP_TABLE_OCTETS, room_len = ROOM;
static unsigned passed, failed, compared, refused, differing, fault, fault_at, done[CALLS], turned_down[CALLS], above, below, kept, exact, counted, wrapped;

/* How many forms each call has. */
static const unsigned forms[CALLS] = {3, 2, 4, 4, 1, 1, 2, 2, 1};

/* ---- the tables */

static size_t cell(unsigned slot, unsigned column) { return HEAD + 16 * column + slot; }
static uint16_t number(const memory *m, unsigned slot, unsigned column) { return (uint16_t)(m->table[cell(slot, column)] | m->table[cell(slot, column + 1)] << 8); }
static void put(memory *m, unsigned slot, unsigned column, size_t n) { m->table[cell(slot, column)] = (uint8_t)n, m->table[cell(slot, column + 1)] = (uint8_t)(n >> 8); }

/* A tally, in eight columns. */
static uint64_t tally(const memory *m, unsigned slot, unsigned column) {
    uint64_t n = 0;
    unsigned k;
    for (k = 8; k--;) n = n << 8 | m->table[cell(slot, column + k)];
    return n;
}
static void put_tally(memory *m, unsigned slot, unsigned column, uint64_t n) {
    unsigned k;
    for (k = 0; k < 8; k++) m->table[cell(slot, column + k)] = (uint8_t)(n >> 8 * k);
}

/* A request of a peer, from link 1 + slot / 4 and for its CID 0x50 + slot. */
static void connects(memory *m, uint8_t slot) {
    uint8_t pdu[] = {0x14, 7, 10, 0, SPSM, 0, 0x50, 0, 100, 0, 23, 0, 3, 0};
    pdu[6] = (uint8_t)(pdu[6] + slot), pdu[10] = (uint8_t)(pdu[10] + slot), pdu[12] = (uint8_t)(pdu[12] + slot);
    l2cap_signal(LENT(m), IN(m->room), IN(m->signal), (uint16_t)(1 + slot / 4), 1, 0, IN(pdu));
}

/* An open channel with slot % 5 waiting jobs, and of odd slots half a job. */
static void opens(memory *m, uint8_t slot) {
    uint8_t k, job[] = {4, 0, 1, 2, 3, 4};
    uint16_t link = (uint16_t)(1 + slot / 4), cid = (uint16_t)(L2CAP_CID_BASE + slot);
    connects(m, slot);
    l2cap_next_pending(LENT(m), link, 1);
    l2cap_accept_pending(LENT(m), IN(m->signal), slot, L2CAP_DEFAULT, L2CAP_DEFAULT, slot % 2 ? L2CAP_MIN_THRESHOLD : L2CAP_EVERY, (uint16_t)(1 + slot % 3), 9);
    for (k = 0; k < slot % 5; k++) job[2] = (uint8_t)(16 * slot + k), l2cap_dispatch(LENT(m), IN(m->room), link, cid, IN(job));
    if (slot % 2) l2cap_dispatch(LENT(m), IN(m->room), link, cid, job, 4);
}

/* A slot in each state, the open ones most often. */
static void busy(memory *m) {
    static const uint8_t refuses[] = {0x15, 0, 10, 0, 0, 0, 0, 0, 0, 0, 0, 0, 4, 0};
    uint8_t slot, pdu[14], closes[] = {0x06, 9, 4, 0, 0, 0, 0, 0};
    memset(m, PAINT, sizeof *m);
    l2cap_make(LENT(m), IN(m->room), N, D, M);
    l2cap_register_spsm(LENT(m), SPSM);
    for (slot = 0; slot < N; slot++) switch (slot) {
            case 5: connects(m, slot); break;
            case 8:
            case 10:
                l2cap_create(LENT(m), IN(m->signal), 3, SPSM, L2CAP_DEFAULT, L2CAP_DEFAULT, L2CAP_EVERY, 1, L2CAP_DEFAULT);
                memcpy(pdu, refuses, sizeof pdu), pdu[1] = m->signal[5];
                if (slot == 10) l2cap_signal(LENT(m), IN(m->room), IN(m->signal), 3, 0, 0, IN(pdu));
                break;
            case 12:
                opens(m, slot);
                closes[4] = (uint8_t)(L2CAP_CID_BASE + slot), closes[6] = (uint8_t)(0x50 + slot);
                l2cap_signal(LENT(m), IN(m->room), IN(m->signal), 4, 0, 0, IN(closes));
                break;
            default: opens(m, slot);
        }
    l2cap_disconnect(LENT(m), IN(m->room), 14);
    l2cap_next_disconnect(LENT(m), IN(m->room), IN(m->signal));
    l2cap_disconnect(LENT(m), IN(m->room), 2);
    for (slot = 1; slot < N; slot += 2) { /* jobs in portions: begun, with some octets, with a frame given out */
        l2cap_start_job(LENT(m), IN(m->buffer), slot, 30);
        if (slot % 3) l2cap_give_portion(LENT(m), IN(m->buffer), slot, pdu, 10);
        if (slot % 3 == 2) l2cap_give_portion(LENT(m), IN(m->buffer), slot, pdu, 14);
    }
}

/* The same with every number of an open channel and of an open job at its edge: one more is refused; and every tally, where one more carries or wraps. No octet of the room is zero. */
static void full(memory *m) {
    static const uint16_t jobs[2][5][2] = {{{24, 0xFFFD}, {39, 45}, {41, 20}, {43, 22}, {45, 2}}, {{24, 0xFFFE}, {39, 40}, {41, 40}, {43, 19}, {45, 1}}};
    static const uint16_t edge[][2] = {{8, PLACE}, {13, 0xFEFF}, {15, 0x0100}, {26, PLACE - 1}, {28, PLACE}, {31, PLACE}, {33, PLACE}, {35, PLACE}};
    static const uint64_t tallies[] = {UINT64_MAX, 0xFFFF, UINT64_MAX - 1, UINT64_MAX >> 8};
    unsigned slot, k;
    for (slot = 0; slot < N; slot++)
        for (k = 0; k < 4; k++) put_tally(m, slot, SENT + 8 * k, tallies[(slot + k) % 4]);
    for (slot = 0; slot < N; slot++)
        if (m->table[cell(slot, 0)] == 3) {
            m->table[cell(slot, 30)] = D - 1;
            for (k = 0; k < sizeof edge / sizeof *edge; k++) put(m, slot, edge[k][0], edge[k][1]);
            for (k = 0; k < 5 && number(m, slot, 45); k++) put(m, slot, jobs[slot / 4 % 2][k][0], jobs[slot / 4 % 2][k][1]);
        }
    for (k = 0; k < ROOM; k++) m->room[k] = (uint8_t)(1 + k % 251);
}

/* ---- one call, both ways */

static const uint8_t rest[] = {5}, job[] = {3, 0, 1, 2, 3}, sdu[] = {1, 2, 3, 4, 5, 6, 7, 8, 9, 10, 11, 12, 13, 14, 15, 16, 17, 18, 19, 20, 21, 22, 23, 24, 25, 26, 27, 28, 29, 30, 31, 32, 33, 34, 35, 36, 37, 38, 39, 40, 41, 42, 43, 44, 45};

/* The frames of a run, and the jobs: for a slot, for the next, for none, and for the slot again. */
static const struct {
    uint8_t slot, length;
    const uint8_t *octets;
} items[2][5] = {{{0, sizeof rest, rest}, {1, sizeof job, job}, {N, sizeof job, job}, {0, 0, job}, {0, sizeof job, job}}, {{0, 3, sdu}, {0, sizeof sdu, sdu}, {1, 20, sdu}, {N, 3, sdu}, {0, 0, sdu}}};

/* A run's own answer. */
static void told(memory *m, uint32_t refusal, size_t count, size_t used, size_t written) {
    uint8_t octets[L2CAP_ANSWER_OCTETS] = {L2CAP_ANSWER_RUN, 0, 0, 0, 0, 0, 0, 0, 0, 0, 0, 0, 0, 0, 0, 0};
    octets[1] = (uint8_t)refusal, octets[2] = (uint8_t)written, octets[3] = (uint8_t)(written >> 8), octets[6] = (uint8_t)count, octets[10] = (uint8_t)used;
    memcpy(m->answer, octets, sizeof octets);
    m->number = refusal;
}

/* A run of frames, or of jobs. By value it is its calls one after the other. */
static void run_call(memory *m, int by_value, int of_jobs, uint8_t slot, uint16_t link) {
    uint8_t run[256];
    size_t i, used = 0, written = 0;
    for (i = 0; i < 5; i++) {
        const uint8_t *octets = items[of_jobs][i].octets;
        uint8_t n = items[of_jobs][i].length, to = (uint8_t)(items[of_jobs][i].slot == N ? 200 : (slot + items[of_jobs][i].slot) % N), *answer = m->answers + L2CAP_ANSWER_OCTETS * i;
        uint16_t cid = (uint16_t)(L2CAP_CID_BASE + to);
        used += of_jobs ? l2cap_run_job(run + used, sizeof run - used, to, octets, n) : l2cap_run_frame(run + used, sizeof run - used, link, cid, octets, n);
        if (!by_value) continue;
        if (of_jobs) {
            m->number = whole_send(m->table, table_len, answer, L2CAP_ANSWER_OCTETS, m->out + written, sizeof m->out - written, to, octets, n);
            written += l2cap_answer_written(answer);
        } else {
            m->number = whole_dispatch(m->table, table_len, answer, L2CAP_ANSWER_OCTETS, m->room, room_len, link, cid, octets, n);
        }
        if (m->number == L2CAP_BAD_TABLE || m->number == L2CAP_BAD_ROOM) { /* so of every frame or job, and of the run */
            memcpy(m->answers, was.answers, sizeof m->answers);
            told(m, m->number, 0, 0, 0);
            return;
        }
    }
    if (by_value) told(m, 0, i, used, written);
    else m->number = of_jobs ? l2cap_send_run(LENT(m), IN(m->out), run, used, IN(m->answers)) : l2cap_dispatch_run(LENT(m), m->room, room_len, run, used, IN(m->answers));
}

/* A start (k 6), a portion (7) or a cancel (8) as document 02 has them, on the octets where they stand: n is the octets that are stated or given. */
static void by_its_words(memory *m, unsigned k, uint8_t slot, size_t n) {
    size_t count = m->table[1], mps = number(m, slot, 20), credits = number(m, slot, 24), length = k == 6 ? n : number(m, slot, 39), taken = number(m, slot, 41), filled = number(m, slot, 43), aside = number(m, slot, 45);
    size_t places = (m->table[2] + 1u) * (m->table[3] + 256u * m->table[4] - 6), frames = mps ? (n + 2 + mps - 1) / mps : 0, out = taken + 2 - filled, size, takes, i;
    int full;
    m->number = l2cap_attention(LENT(m));
    for (i = 0; i < count && i < N && !m->number; i++) {
        size_t open = number(m, i, 45);
        if (number(m, i, 24) + open > 65535 || (open && (number(m, i, 41) > number(m, i, 39) || number(m, i, 43) > number(m, i, 20) || number(m, i, 43) > number(m, i, 41) + 2u))) m->number = L2CAP_BAD_TABLE;
    }
    if (m->number) m->number = L2CAP_BAD_TABLE;
    else if (k == 8 && room_len != count * places) m->number = L2CAP_BAD_ROOM;
    else if (slot >= count) m->number = L2CAP_BAD_SLOT;
    else if (m->table[cell(slot, 0)] != 3) m->number = L2CAP_CHANNEL_CLOSED;
    else if (k == 6 && aside) m->number = L2CAP_JOB_OPEN;
    else if (k != 6 && !aside) m->number = L2CAP_NOT_FOUND;
    else if (k == 6 && n > number(m, slot, 22)) m->number = L2CAP_INSUFFICIENT_SPACE;
    else if (k == 6 && mps < 23) m->number = L2CAP_BAD_MPS;
    else if (k == 6 && frames > credits) m->number = L2CAP_BUSY;
    else if (k != 8 && sizeof m->buffer < L2CAP_JOB_BUFFER_OCTETS(mps, length)) m->number = L2CAP_NO_ROOM;
    else if (k == 7 && n > length - taken) m->number = L2CAP_WRONG_LENGTH;
    memset(m->answer, 0, sizeof m->answer);
    m->answer[0] = m->number ? L2CAP_ANSWER_REFUSED : 0, m->answer[1] = (uint8_t)m->number;
    if (m->number == L2CAP_BUSY) put_tally(m, slot, BLOCKED_SENDS, tally(m, slot, BLOCKED_SENDS) + 1);
    if (m->number) return;
    if (k == 6) out = 0, filled = 0, put_tally(m, slot, SENT, tally(m, slot, SENT) + frames);
    size = mps < length + 2 - out ? mps : length + 2 - out;
    takes = k == 7 ? (n < size - filled ? n : size - filled) : 0, full = k == 7 && filled + takes == size;
    if (k == 6 || (k == 7 && !filled && (takes || full))) m->buffer[0] = (uint8_t)size, m->buffer[1] = (uint8_t)(size >> 8), m->buffer[2] = m->table[cell(slot, 18)], m->buffer[3] = m->table[cell(slot, 19)];
    if (k == 6) m->buffer[4] = (uint8_t)n, m->buffer[5] = (uint8_t)(n >> 8);
    memcpy(m->buffer + 4 + filled, sdu, takes);
    if (k == 6) put(m, slot, 24, credits - frames), put(m, slot, 39, n), put(m, slot, 41, 0), put(m, slot, 43, 2), put(m, slot, 45, frames);
    if (k == 7) put(m, slot, 41, taken + takes), put(m, slot, 43, full ? 0 : filled + takes), put(m, slot, 45, aside - (full ? 1 : 0));
    if (k == 8 && !out) put(m, slot, 24, credits + aside);
    if (k == 8 && out) m->table[cell(slot, 0)] = 6, m->table[cell(slot, 1)] = 0, put(m, slot, 26, 0), put(m, slot, 28, 0), memset(m->room + slot * places, 0, places / (m->table[2] + 1u));
    if (k == 8 || (full && (out + size == length + 2 || aside == 1)))
        for (i = 39; i < SENT; i += 2) put(m, slot, (unsigned)i, 0);
    if (k == 8 && out)
        for (i = SENT; i < COLUMNS; i += 8) put_tally(m, slot, (unsigned)i, 0);
    if (k < 8) m->answer[0] = k == 6 ? L2CAP_ANSWER_FRAMES : L2CAP_ANSWER_PORTION, m->answer[6] = m->table[cell(slot, 2)], m->answer[7] = m->table[cell(slot, 3)];
    if (k == 6) m->answer[8] = (uint8_t)frames, m->answer[9] = (uint8_t)(frames >> 8);
    if (k == 7) m->answer[8] = (uint8_t)takes, m->answer[10] = (uint8_t)full, m->answer[2] = (uint8_t)(full ? 4 + size : 0);
}

/* A frame's payload: of one octet, of a whole job, and of a job of LONG octets with its length. Our MPS is 296 in the tables, and 40 where its upper octet is changed: then that one is longer. */
static size_t payload(unsigned form, uint8_t octets[LONG]) {
    size_t n = form == 0 ? sizeof rest : form == 1 ? sizeof job : LONG;
    memset(octets, 3, LONG), octets[0] = LONG - 2, octets[1] = 0;
    if (form < 2) memcpy(octets, form ? job : rest, n);
    return n;
}

/* A signal: one credit, 65,535 of them, a response that accepts the slot's attempt with an MPS of 22, and a request with one. */
static size_t signalled(uint8_t slot, unsigned form, uint8_t octets[14]) {
    const uint8_t credits[] = {0x16, 9, 4, 0, was.table[cell(slot, 18)], was.table[cell(slot, 19)], (uint8_t)(form ? 0xFF : 1), (uint8_t)(form ? 0xFF : 0)};
    const uint8_t response[] = {0x15, was.table[cell(slot, 1)], 10, 0, 0x60, 0, 100, 0, 22, 0, 5, 0, 0, 0}, request[] = {0x14, 9, 10, 0, SPSM, 0, 0x70, 0, 100, 0, 22, 0, 5, 0};
    size_t n = form < 2 ? sizeof credits : sizeof response;
    memcpy(octets, form < 2 ? credits : form == 2 ? response : request, n);
    return n;
}

/* What a job is taken into. The jobs of the tables have 4 octets: none of them, one octet less, all, and what holds every job. */
static size_t taken_into(unsigned form) { return form == 0 ? 0 : form == 1 ? 3 : form == 2 ? 4 : PLACE; }

/* Whether that is shorter than the oldest job of an open or disconnecting slot. */
static int is_short(uint8_t slot, unsigned form) {
    uint8_t state = slot < N ? was.table[cell(slot, 0)] : 0;
    return (state == 3 || state == 5 || state == 6) && was.table[cell(slot, 30)] && taken_into(form) < number(&was, slot, 31);
}

/* Call k for a slot, of this form: where it stands, or by value. */
static void call(memory *m, int by_value, unsigned k, uint8_t slot, unsigned form) {
    uint8_t octets[LONG];
    size_t n = k == 0 ? payload(form, octets) : k == 3 ? signalled(slot, form, octets) : 0;
    uint16_t link = slot < N ? number(&was, slot, 2) : 1, cid = (uint16_t)(L2CAP_CID_BASE + slot);
    switch (k) {
        case 0: m->number = (by_value ? whole_dispatch : l2cap_dispatch)(LENT(m), m->room, room_len, link, cid, octets, n); break;
        case 1: m->number = (by_value ? whole_send : l2cap_send)(LENT(m), IN(m->out), slot, sdu, form ? sizeof sdu : 3); break;
        case 2: m->number = (by_value ? whole_receive : l2cap_receive)(LENT(m), m->room, room_len, IN(m->signal), m->job, taken_into(form), slot); break;
        case 3: m->number = (by_value ? whole_signal : l2cap_signal)(LENT(m), m->room, room_len, IN(m->signal), link, 1, 0, octets, n); break;
        case 4:
        case 5: run_call(m, by_value, k == 5, slot, link); break;
        default:
            if (by_value) by_its_words(m, k, slot, form ? sizeof sdu : 3);
            else if (k == 6) m->number = l2cap_start_job(LENT(m), IN(m->buffer), slot, form ? sizeof sdu : 3);
            else if (k == 7) m->number = l2cap_give_portion(LENT(m), IN(m->buffer), slot, sdu, form ? sizeof sdu : 3);
            else m->number = l2cap_cancel_job(LENT(m), m->room, room_len, slot);
    }
}

/* A fault, planted behind one call of the archive: each is of another kind of memory. */
static void plant(memory *m) {
    uint8_t *const at[] = {m->table + 7, m->table + cell(15, 24), m->answer + 15, m->room + ROOM - 1, m->signal, m->job + PLACE - 1, m->out + 255, m->answers + 79, m->buffer + 39, m->table + cell(9, SENT + 7), m->table + cell(0, BLOCKED_SENDS), m->table + cell(4, RECEIVED + 3), m->table + cell(15, BLOCKED_RECEIVES + 7), m->behind_table, m->behind_answer, m->behind_room, m->behind_signal, m->behind_job, m->behind_out, m->behind_buffer, m->behind_answers, (uint8_t *)&m->number};
    if (fault && fault <= sizeof at / sizeof *at && compared == fault_at) *at[fault - 1] ^= 1;
}

/* The four questions of a slot: what its octets spell; 1 of octets that are no table, 6 past the table. */
static int questions(uint8_t slot, unsigned bad) {
    static uint32_t (*const entries[])(const uint8_t *, size_t, uint8_t *, size_t, uint8_t) = {l2cap_tally_sent, l2cap_tally_blocked_sends, l2cap_tally_received, l2cap_tally_blocked_receives};
    uint8_t answer[L2CAP_ANSWER_OCTETS];
    unsigned k;
    int same = 1;
    for (k = 0; k < 4; k++) {
        uint32_t number = entries[k](was.table, table_len, IN(answer), slot);
        same = same && number == (bad ? L2CAP_BAD_TABLE : slot >= was.table[1] ? L2CAP_BAD_SLOT : 0u) && (number || (l2cap_answer_kind(answer) == L2CAP_ANSWER_NUMBER && l2cap_answer_tally(answer) == tally(&was, slot, SENT + 8 * k)));
    }
    return same;
}

/* Every call on the octets as they are in `was`, for a slot. What a question says of them is who refuses them. */
static void calls(uint8_t slot, const char *what, size_t place) {
    uint8_t answer[L2CAP_ANSWER_OCTETS];
    unsigned k, form, bad = l2cap_attention(was.table, table_len, IN(answer)) == L2CAP_BAD_TABLE;
    refused += bad;
    if (!questions(slot, bad) && differing++ < 3 && !fault) printf("tallies of slot %u: %s %u\n", slot, what, (unsigned)place);
    for (k = 0; k < CALLS; k++)
        for (form = 0; form < forms[k]; form++) {
            int same;
            placed = whole = was;
            call(&placed, 0, k, slot, form);
            plant(&placed);
            call(&whole, 1, k, slot, form);
            same = !memcmp(&placed, &whole, sizeof placed) && (placed.number == L2CAP_BAD_TABLE) == bad;
            if (!bad) {
                placed.number ? turned_down[k]++ : done[k]++;
                above += k == 0 && form == 2 && placed.number == L2CAP_INVALID_VALUE && number(&was, slot, 6) < LONG;
                below += k == 3 && form == 2 && placed.number == L2CAP_INVALID_VALUE;
                counted += slot < N && memcmp(placed.table + cell(0, SENT), was.table + cell(0, SENT), 16 * (COLUMNS - SENT)) != 0;
                wrapped += slot < N && (tally(&placed, slot, SENT) < tally(&was, slot, SENT) || tally(&placed, slot, RECEIVED) < tally(&was, slot, RECEIVED)) && placed.table[cell(slot, 0)] == 3;
            }
            if (k == 2 && !bad) {
                kept += placed.number == L2CAP_INSUFFICIENT_SPACE, exact += form == 2 && placed.number == 0 && l2cap_answer_kind(placed.answer) == L2CAP_ANSWER_JOB && l2cap_answer_job_length(placed.answer) == 4;
                same = same && (is_short(slot, form) && placed.number != L2CAP_BAD_ROOM && placed.number != L2CAP_BAD_SLOT ? placed.number == L2CAP_INSUFFICIENT_SPACE : placed.number != L2CAP_INSUFFICIENT_SPACE);
            }
            if (bad || (k == 2 && placed.number)) { /* nothing but the answer was written */
                memcpy(placed.answer, was.answer, sizeof was.answer), placed.number = was.number;
                same = same && !memcmp(&placed, &was, sizeof placed);
            }
            compared++;
            if (!same && differing++ < 3 && !fault) printf("%s of slot %u, form %u: %s %u\n", names[k], slot, form, what, (unsigned)place);
        }
}

/* ---- the octets changed */

static uint32_t drawn = 17;
static uint32_t draw(uint32_t below) { return drawn = drawn * 1664525 + 1013904223, (drawn >> 8) % below; }

/* Each bit of an octet, one more, one less, none and all, and others by chance. The calls are of the row's slot; of line 0 of every slot, and of the one past the last. */
static void every_octet(const memory *base) {
    size_t place;
    unsigned c;
    for (place = 0; place < L2CAP_TABLE_OCTETS; place++) {
        int x = base->table[place], some = (int)draw(256), to[] = {x ^ 1, x ^ 2, x ^ 4, x ^ 8, x ^ 16, x ^ 32, x ^ 64, x ^ 128, x + 1, x - 1, 0, 255, some, x ^ some, x + some};
        for (c = 0; c < sizeof to / sizeof *to; c++) {
            uint8_t slot = (uint8_t)(place < HEAD ? 0 : place % 16), last = place < HEAD ? N : slot;
            was = *base, was.table[place] = (uint8_t)to[c];
            for (; slot <= last; slot++) calls(slot, "a changed octet", place);
        }
    }
}

/* Two to four octets of one row at once, of columns that lie side by side. */
static void several_octets(const memory *base) {
    unsigned turn, k, slot, column;
    for (turn = 0; turn < MANY; turn++) {
        was = *base, slot = draw(16), column = draw(COLUMNS);
        for (k = 0; k < 2 + turn % 3; k++) was.table[cell(slot, (column + k) % COLUMNS)] = (uint8_t)(draw(2) ? draw(8) : draw(256));
        calls((uint8_t)slot, "several octets, turn", turn);
    }
}

/* Tables and rooms of other lengths. */
static void other_lengths(const memory *base) {
    was = *base;
    for (table_len = 0; table_len <= L2CAP_TABLE_OCTETS + BEHIND; table_len++) calls((uint8_t)(table_len % 16), "a table's length", table_len);
    table_len = L2CAP_TABLE_OCTETS;
    for (room_len = ROOM - PLACE; room_len <= ROOM + BEHIND; room_len++) calls((uint8_t)(room_len % 16), "a room's length", room_len);
    room_len = ROOM;
}

static void check(int holds, const char *what) {
    holds ? passed++ : failed++;
    if (!holds) printf("failed: %s\n", what);
}

int main(void) {
    unsigned k;
    busy(&bases[0]);
    bases[1] = bases[0];
    full(&bases[1]);
    for (k = 0; k < 2; k++) {
        differing = refused = 0, was = bases[k];
        calls(1, "no octet", 0);
        check(!differing && !refused, k ? "a full table" : "a busy table");
        every_octet(&bases[k]);
        check(!differing && refused > 1000, k ? "every octet of a full table" : "every octet of a busy table");
        differing = refused = 0;
        several_octets(&bases[k]);
        other_lengths(&bases[k]);
        check(!differing && refused > 1000, k ? "several octets of a full table, and other lengths" : "several octets of a busy table, and other lengths");
    }
    for (k = 0; k < CALLS; k++) check(done[k] > 1000 && (k == 4 || k == 5 || turned_down[k] > 1000), names[k]);
    check(above > 50 && below > 1000, "frames above our MPS, and responses below the least");
    check(kept > 1000 && exact > 1000, "takes into buffers that are too short, and just long enough");
    check(counted > 1000 && wrapped > 1000, "tallies that change, and that wrap");
    printf("%u calls compared\n", compared);
    for (fault = 1; fault <= 22; fault++) {
        differing = compared = 0, fault_at = 40 + fault;
        was = bases[0];
        for (k = 0; k < 8; k++) calls((uint8_t)k, "a fault", fault);
        check(differing == 1, "a planted fault is found");
    }
    printf("%u passed, %u failed\n", passed, failed);
    return failed != 0;
}
