/* The channel manager's calls, from C and C++. Link with the archive of the proved entries (bindings/proved, or bindings/unproved to try it), which is x86-64 code.
 *
 * Every call is given the table and a buffer for its answer, each as pointer and length, and the memory that it needs. It returns 0 or the number of a refusal
 * (enum l2cap_refusal). No call keeps a pointer, allocates, waits, or reads or writes past a length; the archive has no data of its own. Two tables are two managers. Calls on one
 * table must not run at the same time, unless all of them are questions.
 *
 * The machine. x86-64, the System V ABI, C99 or C++11 at least. The archive needs memcpy and memset, a C library's or yours, and nothing else. It has no divide instruction, and calls no routine for one. It uses SSE2 and its registers xmm0 to xmm15, for no floating-point number, so that a
 * kernel or an interrupt handler that calls it saves them; needs a stack aligned to 16 octets, as the ABI has it, of some 26 KiB; and the 128 octets below the stack pointer (the red zone): what interrupts a call on its own stack leaves them alone.
 * docs/PERFORMANCE.md has the figures, and a command for a firmware without a C library.
 *
 * table   L2CAP_TABLE_OCTETS octets, written by l2cap_make. Octets that spell no table, and another length, are refusal 1 in every call, and stay as they are.
 * answer  L2CAP_ANSWER_OCTETS octets, written by every call, refused or not; a shorter buffer gets as many as it has. The l2cap_answer_ functions below read it.
 *           0       its kind (enum l2cap_answer)
 *           1       the refusal's number, or 0
 *           2..6    how many octets go out: they stand at the start of `signal`, `out` or an open job's `buffer`
 *           6..14   four numbers, by the kind (of a run two, of four octets each; of a question about a slot one, of eight)
 *           14..16  zeros
 *         Numbers have the lower octet first.
 * room    the memory in which jobs arrive and wait: L2CAP_ROOM_OCTETS(n, d, m) octets, zeroed by l2cap_make. Another length is refusal 2. Octets of no live job are zero.
 * signal  what goes out on the signalling channel is written here, with its L2CAP header: at least L2CAP_SIGNAL_OCTETS octets, else refusal 3.
 * job     of l2cap_receive: a job that is taken is copied here, whole. Fewer octets than the job has are refusal 12.
 * buffer  of a job that is handed over in portions: its frame is filled here, L2CAP_JOB_BUFFER_OCTETS(mps, length) octets or more. See Portions.
 * answers  of runs: L2CAP_ANSWER_OCTETS octets for each frame or job, whose answers are written one behind the other.
 *
 * Overlap. No two memories of one call may overlap. That holds of those that are only read too (pdu, payload, sdu, octets, frames, jobs, a const table): l2cap_send with sdu == out scrambles the job.
 * Null. A memory of length 0 may be a null pointer: it is not looked at. (A room or signal of length 0 is refused by its length, as above.)
 * Limits. n 1 to 16 slots, d 1 to 4 waiting jobs a slot, packets of m 29 to 1,024 octets; links 0 to 0x0EFF, a higher one is refusal 4; slots 0 to n - 1, a higher one is refusal 6;
 * a slot's CID is L2CAP_CID_BASE + slot. A flag is 0 for no; every other number is yes.
 * The least MTU and MPS. Core has 23 octets for both, L2CAP_SIZE_LEAST, and a peer is held to it: its connect request with less is refused by result 11 (l2cap_signal, 0x14), and its response with less ends the channel (0x15). So no call
 * leaves an open channel on which nothing can be sent. Our own numbers are not tested: a peer that keeps to Core refuses a request of ours with less, and disconnects a channel that we accept with less. The defaults are never less.
 *
 * Refusals. Each call's comment has them in the order in which they are tested: the first that fits is given; a number stands twice where it is tested twice. Where the comment says no more, a refused call has changed
 * nothing but the answer. docs/REFUSALS.md has what to do next. Two are counted, 10 and 14: see Tallies.
 *
 * Holds. A slot whose channel has ended is used again once nobody holds it. l2cap_next_pending takes a hold on the slot that it gives, l2cap_opened on the channel that it finds open; l2cap_inc_ref takes one more.
 * Whoever got a hold gives it back by l2cap_dec_ref, when it has no more use for the channel, and also after the channel has ended: a peer's disconnect and l2cap_disconnected leave holds as they are. Only l2cap_reject_pending and
 * l2cap_drop_pending give one back by themselves. 16 phones that come and go without l2cap_dec_ref leave no slot for the 17th.
 * A phone that never answers our disconnect request keeps its slot too, while its link is up: see l2cap_disconnect.
 *
 * Credits. The peer gets new credits when a job of its is taken (l2cap_receive), and at no other time. So a job that needs more frames than the peer has credits is never finished, and its channel
 * stands still. A job of mtu octets needs n = (mtu + 2 + mps - 1) / mps frames, if the peer fills them. With L2CAP_EVERY k give at least n + k - 1 credits, with L2CAP_MIN_THRESHOLD t at least n, and a t of at least n. The defaults do:
 * there n is 1. With more credits than d the peer can finish more jobs than can wait, and the next is dropped (21): take after every frame, or give d.
 *
 * Portions. A job of ours needn't stand in memory whole. l2cap_start_job states its length and sets the credits of its frames aside; l2cap_give_portion takes octets in portions of any lengths, and gives out each frame as it fills;
 * the last frame closes the job. The frames are those of one l2cap_send, wherever the portions are cut. The table has the job's numbers alone: its octets stand in `buffer`. The caller keeps one buffer for each open job, from its
 * start to its end, and lends every portion of it the buffer as this job's last call left it; a frame that is given out stands at its start, until the job's next portion writes over it: send it, or copy it, before that. A buffer
 * that two jobs share, or that somebody wrote to, is not found out: its frames carry what stands there. A slot has one job open at a time; while it is, a second start and l2cap_send are refused by 24. Whatever ends the channel
 * closes the job too, and the next portion is refused by 11: the phone has half a job then, and the credits are gone with the channel. Keep your hold on the slot until the job's end or that 11: a slot that was given back can be another
 * phone's, and a portion would go into that phone's job. All other calls are free between two portions.
 *
 * Tallies. Each slot has four numbers for a service screen, of 64 bits, which wrap: frames sent, frames received, sends that were blocked and frames that were. l2cap_tally_sent and the three behind it ask them, and l2cap_answer_tally
 * reads the answer; a slot without a channel has zeros. Sent: a send adds its frames when it isn't refused, a start of a job in portions all of its frames at once; portions add nothing, and a cancel takes nothing back. Received: 1 for each frame
 * that used a credit, also where its job is dropped (21). Blocked: 1 for each send or start that 14 refused, however many frames it has, and 1 for each frame that 10 refused. 14 and 10 change that tally and nothing else; no other refusal counts.
 * They are zeros again at once where our side ends an open channel: l2cap_disconnect, l2cap_disconnect_by_cid, the last l2cap_dec_ref, a frame refused by 9 or 19, credits above 65,535 (9), and a cancel behind a job's first frame; so what broke a
 * channel isn't seen in them. Where the peer disconnects (0x06) they stand: read them before l2cap_next_disconnect, l2cap_opened or l2cap_disconnected frees the slot. Whatever frees a slot leaves zeros: a new channel counts from there. */
#ifndef L2CAP_CHANNELS_H
#define L2CAP_CHANNELS_H

#include <stddef.h>
#include <stdint.h>

#ifdef __cplusplus
extern "C" {
#endif

/* It goes up when an entry's parameters, the table's layout or the answer's change. The archive has it in the name of an entry, l2cap_version_4. */
#define L2CAP_CHANNELS_VERSION 4

#define L2CAP_TABLE_OCTETS 1312
#define L2CAP_ANSWER_OCTETS 16
#define L2CAP_SIGNAL_OCTETS 18
#define L2CAP_CID_BASE 0x40

/* The least MTU and MPS of a peer (Core, Vol 3 Part A, 4.22 and 4.23). */
#define L2CAP_SIZE_LEAST 23

/* The octets of a run: of each frame link, CID and length before the payload; of each job slot and length before its own. */
#define L2CAP_RUN_FRAME_HEAD 6
#define L2CAP_RUN_JOB_HEAD 3

/* The room of n slots, d waiting jobs a slot and packets of m octets: in each slot a place for the job that arrives, and one for each that waits. */
#define L2CAP_ROOM_OCTETS(n, d, m) ((size_t)(n) * ((size_t)(d) + 1) * ((size_t)(m) - 6))

/* The least buffer of a job of so many octets that is handed over in portions, for a peer of this MPS (l2cap_peer_mps): its longest frame. */
#define L2CAP_JOB_BUFFER_OCTETS(mps, length) ((size_t)(mps) < 2 || (size_t)(mps) - 2 < (size_t)(length) ? (size_t)(mps) + 4 : (size_t)(length) + 6)

/* For mtu, mps and credits of l2cap_accept_pending and l2cap_create: the default, m - 6, m - 4 and d. Every number above 65,535 is. */
#define L2CAP_DEFAULT 0x10000u

/* What a call refuses with, and what that leaves where it isn't nothing. */
enum l2cap_refusal {
    L2CAP_BAD_TABLE = 1,             /* sizes outside the limits, or octets that spell no well-formed table */
    L2CAP_BAD_ROOM = 2,              /* the room's length isn't the table's */
    L2CAP_NO_ROOM = 3,               /* a signal buffer under 18 octets, an output too short for the frames, or a buffer too short for an open job's; a run whose answers are full: what was done before stands */
    L2CAP_BAD_HANDLE = 4,            /* a link above 0x0EFF */
    L2CAP_BAD_SPSM = 5,              /* an SPSM outside 1 to 255 */
    L2CAP_BAD_SLOT = 6,              /* the table has no such slot */
    L2CAP_INVALID_CHANNEL_ID = 7,    /* a frame's CID is no slot's */
    L2CAP_NOT_FOUND = 8,             /* no slot fits, or no job is open in it; an unmatched connect response has freed every attempt of its link */
    L2CAP_INVALID_VALUE = 9,         /* a signal longer than its PDU: a reject is written; a response with an MTU or MPS under 23, credits above 65,535, a frame above our MPS, a job above our MTU or a frame past its job's end: the channel is disconnecting */
    L2CAP_OUT_OF_MEMORY = 10,        /* a frame for which the peer had no credit: it is counted (l2cap_tally_blocked_receives) */
    L2CAP_CHANNEL_CLOSED = 11,       /* the channel isn't open */
    L2CAP_INSUFFICIENT_SPACE = 12,   /* our MPS above m - 4 or our MTU above m - 6; a job above the peer's MTU; a buffer shorter than the job that l2cap_receive would take: the job waits on; a create has used an identifier */
    L2CAP_NO_CHANNEL_AVAILABLE = 13, /* no slot is free; the create has used an identifier */
    L2CAP_BUSY = 14,                 /* the job needs more frames than we have credits: it is counted (l2cap_tally_blocked_sends) */
    L2CAP_DECODE = 15,               /* a signal that can't be read: a reject is written where its header can; a result that is no result code; a run that ends in the middle of a frame or a job: what was done before stands */
    L2CAP_NOT_SUPPORTED = 16,        /* an unknown signal: a reject is written */
    L2CAP_CONNECT_ERROR = 17,        /* the peer refused our request, with a result code: l2cap_signal leaves the slot failed, l2cap_opened has freed it */
    L2CAP_DISCONNECTED = 18,         /* the link or the channel is down; where it wasn't before, l2cap_opened has freed the slot */
    L2CAP_SHORT_FRAME = 19,          /* a job's first frame without its two length octets: the channel is disconnecting */
    L2CAP_BAD_MPS = 20,              /* the peer's MPS is under 23: only of a table that no call wrote, or that is kept from an older archive */
    L2CAP_QUEUE_FULL = 21,           /* a job is complete, but d wait already: it is dropped, and its credit used */
    L2CAP_HELD = 22,                 /* the hold count isn't what the step needs, or would pass 0 or 255 */
    L2CAP_TOO_LONG = 23,             /* a job of 65,534 or 65,535 octets */
    L2CAP_JOB_OPEN = 24,             /* a job is open in this slot: it goes first */
    L2CAP_WRONG_LENGTH = 25          /* a portion has more octets than the job still lacks */
};

/* An answer's kind, and its numbers. */
enum l2cap_answer {
    L2CAP_ANSWER_DONE = 0,
    L2CAP_ANSWER_REFUSED = 1,   /* of refusal 17: the result code */
    L2CAP_ANSWER_AT = 2,        /* slot */
    L2CAP_ANSWER_LINK = 3,      /* link */
    L2CAP_ANSWER_OPENED = 4,
    L2CAP_ANSWER_DUE = 5,       /* link, slot */
    L2CAP_ANSWER_FRAMES = 6,    /* link, count: of a start, the frames to come */
    L2CAP_ANSWER_JOB = 7,       /* link, length: the whole job */
    L2CAP_ANSWER_ATTENTION = 8, /* set, count, lowest */
    L2CAP_ANSWER_NUMBER = 9,    /* the number asked for: one of eight octets, of which all but a tally use two */
    L2CAP_ANSWER_EVENT = 10,    /* min, max, latency, timeout */
    L2CAP_ANSWER_RUN = 11,      /* calls made, octets that they took: two numbers of four octets each */
    L2CAP_ANSWER_PORTION = 12   /* link, octets taken, 1 where a frame is full and given out */
};

/* The result of a connect response (Core, Vol 3 Part A, 4.23). */
enum l2cap_result {
    L2CAP_RESULT_SUCCESS = 0,
    L2CAP_RESULT_SPSM_NOT_SUPPORTED = 2,
    L2CAP_RESULT_NO_RESOURCES = 4,
    L2CAP_RESULT_INSUFFICIENT_AUTHENTICATION = 5,
    L2CAP_RESULT_INSUFFICIENT_AUTHORIZATION = 6,
    L2CAP_RESULT_ENCRYPTION_KEY_TOO_SHORT = 7,
    L2CAP_RESULT_INSUFFICIENT_ENCRYPTION = 8,
    L2CAP_RESULT_INVALID_SOURCE_ID = 9,
    L2CAP_RESULT_SCID_ALREADY_ALLOCATED = 10,
    L2CAP_RESULT_UNACCEPTABLE_PARAMETERS = 11
};

/* How the peer gets new credits when a job is taken: the kind of l2cap_accept_pending and l2cap_create, with its value. */
enum l2cap_policy {
    L2CAP_EVERY = 0,        /* once so many frames came since the last grant; 0 is as 1 */
    L2CAP_MIN_THRESHOLD = 1 /* once the peer has fewer credits than that; 0 never grants */
};

/* ---- an answer read. The buffer has all L2CAP_ANSWER_OCTETS octets. */

static inline unsigned l2cap_answer_kind(const uint8_t *answer) { return answer[0]; }

static inline unsigned l2cap_answer_refusal(const uint8_t *answer) { return answer[1]; }

/* How many octets go out: those at the start of `signal`, `out` or `buffer`. A refused signal can have a reply too. */
static inline uint32_t l2cap_answer_written(const uint8_t *answer) {
    return answer[2] | (uint32_t)answer[3] << 8 | (uint32_t)answer[4] << 16 | (uint32_t)answer[5] << 24;
}

/* Number k, 0 to 3. */
static inline uint16_t l2cap_answer_number(const uint8_t *answer, unsigned k) {
    return (uint16_t)(answer[6 + 2 * k] | answer[7 + 2 * k] << 8);
}

/* The slot of At and of Due. */
static inline uint8_t l2cap_answer_slot(const uint8_t *answer) {
    return (uint8_t)l2cap_answer_number(answer, l2cap_answer_kind(answer) == L2CAP_ANSWER_DUE ? 1 : 0);
}

/* The link of Link, Due, Frames, Job and Portion: what was written goes out on it. */
static inline uint16_t l2cap_answer_link(const uint8_t *answer) { return l2cap_answer_number(answer, 0); }

/* The result code of refusal 17 (enum l2cap_result). */
static inline uint16_t l2cap_answer_result(const uint8_t *answer) { return l2cap_answer_number(answer, 0); }

/* What a question asked for: an MTU, an MPS, an SPSM. */
static inline uint16_t l2cap_answer_value(const uint8_t *answer) { return l2cap_answer_number(answer, 0); }

/* What a question about a tally asked for: the four numbers as one of 64 bits, the first the lowest. (On a machine whose numbers have the lower octet first it is the uint64_t at octet 6, which is not aligned.) */
static inline uint64_t l2cap_answer_tally(const uint8_t *answer) {
    return l2cap_answer_number(answer, 0) | (uint64_t)l2cap_answer_number(answer, 1) << 16 | (uint64_t)l2cap_answer_number(answer, 2) << 32 | (uint64_t)l2cap_answer_number(answer, 3) << 48;
}

/* How many frames a job was cut into, or will be: the credits that it took or set aside. */
static inline uint16_t l2cap_answer_frame_count(const uint8_t *answer) { return l2cap_answer_number(answer, 1); }

/* How many octets a job has that was taken: all of them stand at the start of `job`. */
static inline uint16_t l2cap_answer_job_length(const uint8_t *answer) { return l2cap_answer_number(answer, 1); }

/* How many octets of a portion were taken; the caller gives the others again. And whether a frame is full: l2cap_answer_written octets at the buffer's start go out. */
static inline uint16_t l2cap_answer_portion_taken(const uint8_t *answer) { return l2cap_answer_number(answer, 1); }
static inline int l2cap_answer_portion_full(const uint8_t *answer) { return l2cap_answer_number(answer, 2) != 0; }

/* The slots that call: a bit for each, slot 0's the lowest; how many they are; the lowest, n where none calls. */
static inline uint16_t l2cap_answer_attention_set(const uint8_t *answer) { return l2cap_answer_number(answer, 0); }
static inline uint16_t l2cap_answer_attention_count(const uint8_t *answer) { return l2cap_answer_number(answer, 1); }
static inline uint16_t l2cap_answer_attention_lowest(const uint8_t *answer) { return l2cap_answer_number(answer, 2); }

/* The connection parameters that the peer of an Event wishes: intervals in 1.25 ms, events that may be skipped, timeout in 10 ms. */
static inline uint16_t l2cap_answer_interval_min(const uint8_t *answer) { return l2cap_answer_number(answer, 0); }
static inline uint16_t l2cap_answer_interval_max(const uint8_t *answer) { return l2cap_answer_number(answer, 1); }
static inline uint16_t l2cap_answer_latency(const uint8_t *answer) { return l2cap_answer_number(answer, 2); }
static inline uint16_t l2cap_answer_timeout(const uint8_t *answer) { return l2cap_answer_number(answer, 3); }

/* How many calls of a run were made, and how many of its octets they took: the run goes on from there. A number above 4,294,967,295 is told as that. */
static inline uint32_t l2cap_answer_run_count(const uint8_t *answer) { return l2cap_answer_number(answer, 0) | (uint32_t)l2cap_answer_number(answer, 1) << 16; }
static inline uint32_t l2cap_answer_run_used(const uint8_t *answer) { return l2cap_answer_number(answer, 2) | (uint32_t)l2cap_answer_number(answer, 3) << 16; }

/* The answer of call k of a run. */
static inline const uint8_t *l2cap_run_answer(const uint8_t *answers, size_t k) { return answers + L2CAP_ANSWER_OCTETS * k; }

/* ---- a run written: took = l2cap_run_frame(run + at, sizeof run - at, ...), at += took. Where took is 0, hand the run over, and begin the next with that frame: one that is left out is lost. */

/* A number of two octets, and the octets that it counts. */
static inline void l2cap_run_part(uint8_t *run, const uint8_t *octets, uint16_t octets_len) {
    size_t i;
    run[0] = (uint8_t)octets_len, run[1] = (uint8_t)(octets_len >> 8);
    for (i = 0; i < octets_len; i++) run[2 + i] = octets[i];
}

/* Writes a frame at the start of the octets that are left for a run, and gives how many it took: 0, and nothing is written, where they are too few. */
static inline size_t l2cap_run_frame(uint8_t *run, size_t run_len, uint16_t link, uint16_t cid, const uint8_t *payload, uint16_t payload_len) {
    if (run_len < (size_t)L2CAP_RUN_FRAME_HEAD + payload_len) return 0;
    run[0] = (uint8_t)link, run[1] = (uint8_t)(link >> 8), run[2] = (uint8_t)cid, run[3] = (uint8_t)(cid >> 8);
    l2cap_run_part(run + 4, payload, payload_len);
    return (size_t)L2CAP_RUN_FRAME_HEAD + payload_len;
}

/* The same of a job. */
static inline size_t l2cap_run_job(uint8_t *run, size_t run_len, uint8_t slot, const uint8_t *sdu, uint16_t sdu_len) {
    if (run_len < (size_t)L2CAP_RUN_JOB_HEAD + sdu_len) return 0;
    run[0] = slot;
    l2cap_run_part(run + 1, sdu, sdu_len);
    return (size_t)L2CAP_RUN_JOB_HEAD + sdu_len;
}

/* ---- making a table */

/* The archive's version: 4. An archive of another version has another name for it. */
uint32_t l2cap_version_4(void);

/* Makes a table of n slots, d waiting jobs a slot and packets of m octets.
 * Refusals: 1 2. They leave a table of no slots, which every call refuses by 1; the room, and a table of another length than L2CAP_TABLE_OCTETS, stay as they are.
 * Writes: the whole table; the room, all zeros.
 * Answer: Done. */
uint32_t l2cap_make(uint8_t *table, size_t table_len, uint8_t *answer, size_t answer_len, uint8_t *room, size_t room_len, uint16_t n, uint16_t d, uint16_t m);

/* Whoever makes a table calls l2cap_version_4 before it: so no program that makes one links with an archive of another version, and the linker's message names the entry. One that only takes up a table which another program
 * made isn't held to it. It is a function behind the entry's name, and not a pointer that each file would hold, because linkers for firmware drop data that nobody reads. It takes one empty call.
 * It is a macro, and so asks two things: a struct with a member of that name is declared behind this include, and not before it; and a stand-in for the entry, in tests, is defined before the include or behind an #undef, with an
 * l2cap_version_4 beside it. */
static inline uint32_t l2cap_make_of_this_version(uint8_t *table, size_t table_len, uint8_t *answer, size_t answer_len, uint8_t *room, size_t room_len, uint16_t n, uint16_t d, uint16_t m) {
    (void)l2cap_version_4();
    return l2cap_make(table, table_len, answer, answer_len, room, room_len, n, d, m);
}
#define l2cap_make l2cap_make_of_this_version

/* Lets peers connect to an SPSM, on every link. It stays so until the next l2cap_make; twice is once.
 * Refusals: 1 5.
 * Writes: the table.
 * Answer: Done. */
uint32_t l2cap_register_spsm(uint8_t *table, size_t table_len, uint8_t *answer, size_t answer_len, uint16_t spsm);

/* ---- signals */

/* Handles the first signal of a PDU that came on a link's signalling channel, CID 5, without its L2CAP header. Go on with the octets that l2cap_signal_rest tells, until there are none.
 * listening: would somebody accept a channel on this link now? central: are we this link's central?
 * Refusals: 1 2 3 4 15 9 16 15 8 17 9. First every header of the PDU is checked: 15 where fewer than 4 octets are left for one, 9 where a signal is longer than what is left, with a reject as reply; after these two nothing of the
 * PDU is handled. Then by the signal's code, where a body of the wrong length is 15 with a reject as reply:
 *   0x14  connect request: Done. A pending slot, and nothing goes back before l2cap_accept_pending or l2cap_reject_pending; or a refused response as reply: result 2 for an SPSM that isn't registered, 4 where nobody listens,
 *         11 for an MTU or MPS under L2CAP_SIZE_LEAST, 10 where the peer's CID is in use on this link, 4 where no slot is free. With such a response nothing is stored
 *   0x15  connect response: Done, the attempt with this identifier is open; 8 where there is none: every attempt of this link is freed; 17: the attempt has failed (l2cap_opened tells it, and frees the slot); 9 where the peer accepts with an
 *         MTU or MPS under L2CAP_SIZE_LEAST: the slot is disconnecting, with the peer's CID and numbers; room and holds stay as they were, and there is no reply. The peer believes in the channel: l2cap_next_disconnect writes our request, and has to be
 *         asked before l2cap_opened, which would free the slot (18) and leave that request unwritten. A result that is no result code is 15 with a reject
 *   0x16  credits: Done, we have more; 8 where no open channel has this peer CID; 9 where they pass 65,535, with those set aside for an open job: the channel is disconnecting, and the job that arrives is wiped
 *   0x06  disconnect request: Done. A disconnect is due (l2cap_next_disconnect), the job that arrives is wiped, and waiting jobs can be taken until then; or a reject as reply where the CID is no slot's of this link
 *   0x07  disconnect response: Done. The slot that was disconnecting is freed; nothing for a CID of no such slot
 *   0x12  parameter request: Event where we are central and they are valid (answer by l2cap_send_conn_param_update_res); Done with a reject where we are not, before the body is read, and with response 1 where they are not valid
 *   0x01, 0x13  a reject, a parameter response: Done, nothing changes
 *   another  16, with a reject as reply
 * An empty PDU is Done.
 * Writes: table; room; signal, the reply, which goes out on this link whether the signal was refused or not.
 * Answer: Done or Event.
 * Cost: each call checks every header of what it is given, so that a PDU fed so costs time by the square of its signals. Core's least signalling MTU on LE, 23 octets, holds each of its signals, and it has one signal a PDU:
 * drop a longer PDU, or take at most one packet's (docs/PERFORMANCE.md has times). */
uint32_t l2cap_signal(uint8_t *table, size_t table_len, uint8_t *answer, size_t answer_len, uint8_t *room, size_t room_len, uint8_t *signal, size_t signal_len, uint16_t link, uint8_t listening, uint8_t central, const uint8_t *pdu, size_t pdu_len);

/* How many octets of a PDU stand behind its first signal: its last ones, with which l2cap_signal is called next. 0 at its end, where its headers are bad, and for an empty PDU. It hangs on the PDU alone. */
size_t l2cap_signal_rest(const uint8_t *pdu, size_t pdu_len);

/* Writes a request for connection parameters, with the next identifier. The numbers are not tested.
 * Refusals: 1 3 4.
 * Writes: table, an identifier used; signal.
 * Answer: Done; the signal goes out on the link that was given. */
uint32_t l2cap_send_conn_param_update_req(uint8_t *table, size_t table_len, uint8_t *answer, size_t answer_len, uint8_t *signal, size_t signal_len, uint16_t link, uint16_t min, uint16_t max, uint16_t latency, uint16_t timeout);

/* Writes the response to a request for connection parameters, 0 to take them and 1 to refuse them, with the next identifier. The number is not tested.
 * Refusals: 1 3 4.
 * Writes: table, an identifier used; signal.
 * Answer: Done; the signal goes out on the link that was given. */
uint32_t l2cap_send_conn_param_update_res(uint8_t *table, size_t table_len, uint8_t *answer, size_t answer_len, uint8_t *signal, size_t signal_len, uint16_t link, uint16_t result);

/* ---- channels that a peer opens */

/* The lowest slot of a link in which a connect request waits. It is held once from now on: the hold becomes the channel's with l2cap_accept_pending, and is given back by l2cap_reject_pending, l2cap_drop_pending or l2cap_dec_ref.
 * up: is the link up?
 * Refusals: 1 4 18 22. 18 where none waits and the link is down; 22 where that slot is held already, also if a higher one waits unheld.
 * Writes: the table, the hold.
 * Answer: At; Done where none waits and the link is up. */
uint32_t l2cap_next_pending(uint8_t *table, size_t table_len, uint8_t *answer, size_t answer_len, uint16_t link, uint8_t up);

/* Opens the pending channel of a slot, with our numbers. The pending's hold stays: whoever uses the channel releases it by l2cap_dec_ref, which lets the channel disconnect, and also after the channel has ended.
 * mtu, mps, credits: up to 65,535, or L2CAP_DEFAULT. kind, value: enum l2cap_policy; another kind than 0 is L2CAP_MIN_THRESHOLD. A job that needs more frames than the peer has credits is never finished: see Credits above.
 * An mtu or mps under L2CAP_SIZE_LEAST is not refused; a peer that keeps to Core disconnects such a channel. mps is what l2cap_dispatch holds the peer's frames to.
 * Refusals: 1 3 6 12 12 8 22. 12 for mps, then for mtu; 8 where nothing is pending in this slot, 22 where nobody holds it.
 * Writes: table; signal, the response.
 * Answer: Link. */
uint32_t l2cap_accept_pending(uint8_t *table, size_t table_len, uint8_t *answer, size_t answer_len, uint8_t *signal, size_t signal_len, uint8_t slot, uint32_t mtu, uint32_t mps, uint8_t kind, uint16_t value, uint32_t credits);

/* Refuses the pending channel of a slot with a result code (enum l2cap_result), releases one hold and frees the slot. Holds beyond that one stay. Result 0 is not refused: the peer then believes in a channel that isn't there.
 * Refusals: 1 2 3 6 15 8 22. 15 for a number that is no result code, 8 where nothing is pending in this slot, 22 where nobody holds it.
 * Writes: table; room, the slot's part zeroed; signal, the response.
 * Answer: Link. */
uint32_t l2cap_reject_pending(uint8_t *table, size_t table_len, uint8_t *answer, size_t answer_len, uint8_t *room, size_t room_len, uint8_t *signal, size_t signal_len, uint8_t slot, uint16_t result);

/* Refuses the lowest pending channel of a link that nobody holds, with result 4, and frees its slot. Call it until the answer is Done.
 * Refusals: 1 2 3 4.
 * Writes: table; room, the slot's part zeroed; signal, the response, which goes out on the link that was given.
 * Answer: At; Done where none is left, and nothing is written. */
uint32_t l2cap_reject_all_pending(uint8_t *table, size_t table_len, uint8_t *answer, size_t answer_len, uint8_t *room, size_t room_len, uint8_t *signal, size_t signal_len, uint16_t link);

/* Lets go of the pending channel of a slot: releases one hold and frees the slot. Nothing goes to the peer. In an open channel it does nothing, and the hold stays; in every other state it releases the hold alone.
 * Refusals: 1 2 6 22. 22 where nobody holds it.
 * Writes: table; room, the slot's part zeroed where it is freed.
 * Answer: Done. */
uint32_t l2cap_drop_pending(uint8_t *table, size_t table_len, uint8_t *answer, size_t answer_len, uint8_t *room, size_t room_len, uint8_t slot);

/* ---- channels that we open */

/* Takes the lowest free slot and writes a connect request. Nobody holds the slot until l2cap_opened finds the channel open. The SPSM is not tested.
 * mtu, mps, credits, kind, value: as in l2cap_accept_pending. A job that needs more frames than the peer has credits is never finished: see Credits above. A peer that keeps to Core refuses an mtu or mps under L2CAP_SIZE_LEAST, by
 * result 11 (l2cap_signal then gives 17).
 * Refusals: 1 3 4 12 12 13. 12 for mps, then for mtu; 13 where no slot is free. 12 and 13 have used an identifier: the table is written.
 * Writes: table; signal, the request, which goes out on the link that was given.
 * Answer: At. */
uint32_t l2cap_create(uint8_t *table, size_t table_len, uint8_t *answer, size_t answer_len, uint8_t *signal, size_t signal_len, uint16_t link, uint16_t spsm, uint32_t mtu, uint32_t mps, uint8_t kind, uint16_t value, uint32_t credits);

/* Is the channel that we asked for open? Where it is, it is held once from now on: whoever uses it releases the hold by l2cap_dec_ref, which lets the channel disconnect, and also after the channel has ended.
 * up: is the link up?
 * Refusals: 1 2 4 6 18 8 18 17 22. 18 where the slot has no channel, 8 where it is another link's; then 18 where the link is down or the channel is disconnecting, and 17 where the peer refused: these two have freed the slot and
 * zeroed its part of the room, a disconnect that was due is written no more, and holds stay; 22 where it is open and held already. So ask l2cap_next_disconnect until it is Done before this: else a peer that accepted with numbers under
 * L2CAP_SIZE_LEAST (l2cap_signal, 9) is never told, and keeps a channel that isn't there.
 * Writes: the table, the hold.
 * Answer: Opened; Done where the peer hasn't answered yet, and in a pending slot. */
uint32_t l2cap_opened(uint8_t *table, size_t table_len, uint8_t *answer, size_t answer_len, uint8_t *room, size_t room_len, uint8_t slot, uint16_t link, uint8_t up);

/* Gives up an attempt of ours: frees the slot, whether the peer hasn't answered, has refused, or has opened a channel that nobody holds. Nothing goes to the peer.
 * Refusals: 1 2 6 8. 8 in every other state.
 * Writes: table; room, the slot's part zeroed.
 * Answer: Done. */
uint32_t l2cap_give_up(uint8_t *table, size_t table_len, uint8_t *answer, size_t answer_len, uint8_t *room, size_t room_len, uint8_t slot);

/* ---- holds and ends */

/* One hold more, in any state. Each is given back by its own l2cap_dec_ref; a slot without a channel that is held is not used until then.
 * Refusals: 1 6 22. 22 at 255 holds.
 * Writes: the table.
 * Answer: Done. */
uint32_t l2cap_inc_ref(uint8_t *table, size_t table_len, uint8_t *answer, size_t answer_len, uint8_t slot);

/* One hold less: the one that l2cap_next_pending, l2cap_opened or l2cap_inc_ref took. The last one of an open channel lets it disconnect (l2cap_next_disconnect writes the request); the last one of a slot whose
 * channel has ended makes it free for the next.
 * Refusals: 1 2 6 22. 22 where nobody holds it.
 * Writes: table; room, the job that arrives zeroed where the channel disconnects.
 * Answer: Done. */
uint32_t l2cap_dec_ref(uint8_t *table, size_t table_len, uint8_t *answer, size_t answer_len, uint8_t *room, size_t room_len, uint8_t slot);

/* Lets the open channel of a slot disconnect; nothing in another state. l2cap_next_disconnect writes the request. Waiting jobs can be taken until the peer's response; holds stay.
 * The peer's response frees the slot. A peer that never answers keeps it while its link is up: after a timeout of yours l2cap_opened with its slot and link frees it, and says so by 18. The link going down frees it too. Let one
 * link have a few channels and refuse the rest (l2cap_reject_pending), or 16 such channels of one phone leave no slot for another.
 * Refusals: 1 2 6.
 * Writes: table; room, the job that arrives zeroed.
 * Answer: Done. */
uint32_t l2cap_disconnect(uint8_t *table, size_t table_len, uint8_t *answer, size_t answer_len, uint8_t *room, size_t room_len, uint8_t slot);

/* The same by our CID, whatever the link; nothing for a CID of no slot.
 * Refusals: 1 2.
 * Writes and answer: as l2cap_disconnect. */
uint32_t l2cap_disconnect_by_cid(uint8_t *table, size_t table_len, uint8_t *answer, size_t answer_len, uint8_t *room, size_t room_len, uint16_t cid);

/* A link is down: frees all its slots, and zeroes what they held in the room, waiting jobs too. Holds stay: whoever has one releases it by l2cap_dec_ref, or the slot is not used again.
 * Refusals: 1 2 4.
 * Writes: table; room.
 * Answer: Done, also where the link has no slot. */
uint32_t l2cap_disconnected(uint8_t *table, size_t table_len, uint8_t *answer, size_t answer_len, uint8_t *room, size_t room_len, uint16_t link);

/* Writes the next disconnect that is due, the lowest slot's: the response to a peer's request, which frees the slot, or our request, once a slot, with the next identifier; that slot is freed by the peer's response (l2cap_disconnect says what
 * to do without one). Call it until the answer is Done. Jobs that wait in a slot are gone with a response: take them first.
 * Refusals: 1 2 3.
 * Writes: table; room, a freed slot's part zeroed; signal.
 * Answer: Due; Done where none is due, and nothing is written. */
uint32_t l2cap_next_disconnect(uint8_t *table, size_t table_len, uint8_t *answer, size_t answer_len, uint8_t *room, size_t room_len, uint8_t *signal, size_t signal_len);

/* ---- jobs */

/* Takes in a frame that came on a link: its CID, and its payload behind the L2CAP header.
 * Refusals: 1 2 4 7 8 10 9 19 9 9 21. 7 for a CID of no slot; where the channel isn't open the frame is dropped, Done; 8 where it is another link's, 10 where the peer has no credit: that is counted (l2cap_tally_blocked_receives), and nothing else changes. Then a credit is used, and the table written: 9 for
 * a payload above our MPS (l2cap_mps), its two length octets counted, be it a job's first or a later one; 19 for a job's first frame under 2 octets, 9 for a job above our MTU, then for more octets than the job has: these leave the
 * channel disconnecting, and the job that arrives zeroed; waiting jobs stay. 21 where the job is complete and d wait already: it is dropped and zeroed, and the channel stays open.
 * Writes: table; room.
 * Answer: Done, whether a job is complete or not: l2cap_attention tells. */
uint32_t l2cap_dispatch(uint8_t *table, size_t table_len, uint8_t *answer, size_t answer_len, uint8_t *room, size_t room_len, uint16_t link, uint16_t cid, const uint8_t *payload, size_t payload_len);

/* Cuts a job into frames, each with its L2CAP header, one behind the other, and uses a credit for each.
 * Refusals: 1 6 11 24 12 23 20 14 3. 11 where the channel isn't open, 24 where a job is open in this slot (l2cap_start_job), 12 where the job is above the peer's MTU, 23 for 65,534 and 65,535 octets, 20 where the peer's MPS is under L2CAP_SIZE_LEAST, as no call leaves one, 14 where the frames are more than our credits: that is counted (l2cap_tally_blocked_sends), and nothing else changes,
 * 3 where out has fewer octets than the job, its 2 length octets and 4 a frame. Nothing is sent by halves.
 * Writes: table; out.
 * Answer: Frames. */
uint32_t l2cap_send(uint8_t *table, size_t table_len, uint8_t *answer, size_t answer_len, uint8_t *out, size_t out_len, uint8_t slot, const uint8_t *sdu, size_t sdu_len);

/* Opens a job of so many octets, to be handed over in portions, and sets a credit aside for each of its frames: see Portions above.
 * Refusals: 1 6 11 24 12 23 20 14 3. As l2cap_send's, for a job of this length, 14 counted too; 24 where one is open already, 3 where buffer has fewer than L2CAP_JOB_BUFFER_OCTETS octets for the peer's MPS and this length.
 * Writes: table; buffer, the first six octets of the first frame: its header and the job's length. Nothing goes out yet.
 * Answer: Frames, those to come. */
uint32_t l2cap_start_job(uint8_t *table, size_t table_len, uint8_t *answer, size_t answer_len, uint8_t *buffer, size_t buffer_len, uint8_t slot, size_t length);

/* Gives an open job its next octets. It takes them up to where a frame is full, and gives that frame out: l2cap_answer_written octets at the buffer's start, to be sent before this job's next portion. The octets behind are not
 * kept: give them again. The portion with the job's last octet gives out its last frame, and closes it. An empty portion takes nothing and changes nothing; but of a job of 0 octets it gives out the one frame.
 * Refusals: 1 6 11 8 3 25. 11 where the channel isn't open any more, 8 where no job is open, 3 where buffer has fewer octets than the start asked for, 25 where octets are more than the job still lacks: none of them is taken.
 * Writes: table, where octets were taken or a frame is given out; buffer, the octets taken behind those that stand there, and with a frame's first octet its header. What stands behind them stays.
 * Answer: Portion. */
uint32_t l2cap_give_portion(uint8_t *table, size_t table_len, uint8_t *answer, size_t answer_len, uint8_t *buffer, size_t buffer_len, uint8_t slot, const uint8_t *octets, size_t octets_len);

/* Closes an open job before its last frame. Where no frame was given out yet all its credits come back, and the channel stays open. Later the peer holds half a job: the channel disconnects, as by l2cap_disconnect, and no credit comes
 * back. Its buffer is not written: what it held stands there.
 * Refusals: 1 2 6 11 8. 11 where the channel isn't open any more, 8 where no job is open.
 * Writes: table; room, the job that arrives zeroed where the channel disconnects.
 * Answer: Done. */
uint32_t l2cap_cancel_job(uint8_t *table, size_t table_len, uint8_t *answer, size_t answer_len, uint8_t *room, size_t room_len, uint8_t slot);

/* Takes the oldest job that waits in a slot, whole: copies it to the start of `job`, moves later jobs up, and grants the peer new credits where they are due. A job finished before can be taken while the channel disconnects; it grants
 * nothing then.
 * Refusals: 1 2 3 6 11 12. 11 where no channel is open or disconnecting in this slot. 12 where the job is longer than `job`, also while the channel disconnects: nothing changes and nothing is written, neither room, job nor signal. No
 * credits go back, no identifier is used, the job is still the oldest, later ones wait behind it, and l2cap_attention goes on naming the slot. Take again with a longer buffer: one of l2cap_mtu octets, asked of this slot while its channel is
 * open or disconnecting, is never too short, nor is one of m - 6. (A freed slot has no job, and an mtu of 0: that take is 11.)
 * Mind loops that take until Done, or while the slot calls: a 12 has to end them, since the same buffer is refused again, for ever. And l2cap_next_disconnect wipes what waits where the peer disconnects: take it before.
 * Writes: table; room; job; signal, the grant, which uses an identifier. l2cap_answer_written is 0 where none is due.
 * Answer: Job; Done where no job waits, whatever the buffer's length, and nothing is written. A job of 0 octets is a job, and needs none: `job` may be a null pointer of length 0. */
uint32_t l2cap_receive(uint8_t *table, size_t table_len, uint8_t *answer, size_t answer_len, uint8_t *room, size_t room_len, uint8_t *signal, size_t signal_len, uint8_t *job, size_t job_len, uint8_t slot);

/* ---- runs: many frames or jobs at once, each as if by a call of its own. The table is tested once for all of them. */

/* Takes in frames that came, of any links, one behind the other in `frames`: link, CID and the payload's length, two octets each with the lower first, then the payload. Each is l2cap_dispatch, on what the ones before it left,
 * and its answer is written to the next L2CAP_ANSWER_OCTETS octets of `answers`. A frame that is refused doesn't end the run: the next is taken in. No job is taken between two frames of a run: let it bring each slot at
 * most as many jobs as can still wait there, or the rest is dropped (21). A run has the frames up to the next packet of signals (CID 5): what came behind that packet came behind what it says.
 * To go on after 3: call again with frames + l2cap_answer_run_used(answer), as long as l2cap_answer_run_count(answer) isn't 0. After 15 add what is missing of the frame first. 1 and 2 don't go away by calling again.
 * Refusals: 1 2 15 3. 1 and 2: nothing was done. 15 where what is left is no whole frame, 3 where it is one and answers has fewer than L2CAP_ANSWER_OCTETS octets left: that frame and what follows it were not taken in, and what was
 * done before stands. The answer says how far the run came, so that the next goes on from there. What a frame was refused by stands in its own answer alone.
 * Writes: table; room; answers.
 * Answer: Run, whatever is returned. An empty run is 0, with counts of 0. */
uint32_t l2cap_dispatch_run(uint8_t *table, size_t table_len, uint8_t *answer, size_t answer_len, uint8_t *room, size_t room_len, const uint8_t *frames, size_t frames_len, uint8_t *answers, size_t answers_len);

/* Cuts jobs into frames, one behind the other in `jobs`: slot, one octet; the job's length, two octets with the lower first; the job. Each is l2cap_send, on what the ones before it left: its frames stand in `out` behind those of
 * the jobs before it, l2cap_answer_written of its own answer is how many octets they have, and its link is there too. A job that is refused doesn't end the run, and writes nothing to out: the next is tried. So of two jobs for one slot the first
 * can be refused, by 14 or 3, and the second, which is shorter, goes out. Where the jobs of a slot must keep their order, a run has one of them.
 * The run's octets are where a refused job still stands: keep them until each answer was looked at.
 * Refusals: 1 15 3. As l2cap_dispatch_run has them.
 * Writes: table; out; answers. l2cap_answer_written is how many octets of frames the whole run wrote.
 * Answer: Run, whatever is returned. An empty run is 0, with counts of 0. */
uint32_t l2cap_send_run(uint8_t *table, size_t table_len, uint8_t *answer, size_t answer_len, uint8_t *out, size_t out_len, const uint8_t *jobs, size_t jobs_len, uint8_t *answers, size_t answers_len);

/* ---- questions: the table is only read */

/* The slots that call: a job waits (take it), a disconnect is due (l2cap_next_disconnect), or an attempt of ours has failed (l2cap_opened). A pending does not call.
 * Refusals: 1.
 * Answer: Attention. */
uint32_t l2cap_attention(const uint8_t *table, size_t table_len, uint8_t *answer, size_t answer_len);

/* The SPSM of a slot's channel; 0 where it has none.
 * Refusals: 1 6.
 * Answer: Number. */
uint32_t l2cap_spsm(const uint8_t *table, size_t table_len, uint8_t *answer, size_t answer_len, uint8_t slot);

/* The longest job that we take in a slot: a buffer of so many octets holds every job that waits there (l2cap_receive, 12). 0 where it has no channel, or a pending one.
 * Refusals: 1 6.
 * Answer: Number. */
uint32_t l2cap_mtu(const uint8_t *table, size_t table_len, uint8_t *answer, size_t answer_len, uint8_t slot);

/* The longest frame payload that we take in a slot; a longer one ends the channel (l2cap_dispatch, 9). 0 where it has no channel, or a pending one.
 * Refusals: 1 6.
 * Answer: Number. */
uint32_t l2cap_mps(const uint8_t *table, size_t table_len, uint8_t *answer, size_t answer_len, uint8_t slot);

/* The longest job that a slot's peer takes; 0 where it has no channel, or the peer hasn't accepted our attempt.
 * Refusals: 1 6.
 * Answer: Number. */
uint32_t l2cap_peer_mtu(const uint8_t *table, size_t table_len, uint8_t *answer, size_t answer_len, uint8_t slot);

/* The longest frame payload that a slot's peer takes; 0 where it has no channel, or the peer hasn't accepted our attempt.
 * Refusals: 1 6.
 * Answer: Number. */
uint32_t l2cap_peer_mps(const uint8_t *table, size_t table_len, uint8_t *answer, size_t answer_len, uint8_t slot);

/* The frames that a slot's channel has sent: those of every l2cap_send, and of every l2cap_start_job from its start on, that wasn't refused. l2cap_answer_tally reads it and the next three; see Tallies above for when they begin anew. 0 where it has no channel.
 * Refusals: 1 6.
 * Answer: Number. */
uint32_t l2cap_tally_sent(const uint8_t *table, size_t table_len, uint8_t *answer, size_t answer_len, uint8_t slot);

/* The frames that came for a slot's channel and used a credit of its peer's, those whose job was dropped (21) too. 0 where it has no channel.
 * Refusals: 1 6.
 * Answer: Number. */
uint32_t l2cap_tally_received(const uint8_t *table, size_t table_len, uint8_t *answer, size_t answer_len, uint8_t slot);

/* The sends and starts that 14 refused on a slot's channel, each once. 0 where it has no channel.
 * Refusals: 1 6.
 * Answer: Number. */
uint32_t l2cap_tally_blocked_sends(const uint8_t *table, size_t table_len, uint8_t *answer, size_t answer_len, uint8_t slot);

/* The frames that 10 refused on a slot's channel. 0 where it has no channel.
 * Refusals: 1 6.
 * Answer: Number. */
uint32_t l2cap_tally_blocked_receives(const uint8_t *table, size_t table_len, uint8_t *answer, size_t answer_len, uint8_t slot);

#ifdef __cplusplus
}
#endif

#endif
