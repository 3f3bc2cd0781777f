/* Drives reference and pomerassol over one random history and compares every answer: drive [SEED [CALLS]] */
#define _DEFAULT_SOURCE
#include "calls.h"

#include <inttypes.h>
#include <stdbool.h>
#include <stdio.h>
#include <stdlib.h>
#include <string.h>
#if SIZE_MAX > 0xFFFFFFFF
#include <sys/mman.h>
#endif

enum { LARGEST = 65535, GUARD = 64, SPACE = GUARD + LARGEST + 1 + GUARD, NOISE = 1 << 18 };
enum { REFUSED = REFERENCE_REFUSED, COMMAND_CAP = 256, FRAME_CAP = 300, DATA_CAP = 241, CELLS = 256, CELL = 32 };
enum { DATAGRAMS = REFERENCE_DATAGRAMS, R1 = 1, R2 = 2, R6 = 6, R10 = 10, R11 = 11, R12 = 12, REFUSALS = 13 };
enum { TIMERS = REFERENCE_TIMERS, TIMER_NUMBERS = 16, EACH_TIMER = 6 }; /* a timer's numbers in the library's ledger */

/* ---- The two sides ---- */

/* A record of each side, with the same history behind it. */
typedef struct {
    reference_record reference;
    pomerassol_record pomerassol;
} records;

static records run, copies;
static uint8_t reference_space[SPACE], pomerassol_space[SPACE], lent[LARGEST + 1];
static uint8_t noise[NOISE];
static uint64_t seed, calls, made, made_on_copies;
static bool on_copies;
static reference_gathered gathered_before; /* what was gathered before the call at hand */

/* ---- Random numbers ---- */

static uint64_t random_state;

/* The next 64 random bits (splitmix). */
static uint64_t next_random(void)
{
    uint64_t z = random_state += 0x9E3779B97F4A7C15u;
    z = (z ^ z >> 30) * 0xBF58476D1CE4E5B9u;
    z = (z ^ z >> 27) * 0x94D049BB133111EBu;
    return z ^ z >> 31;
}

/* A random number below n. */
static uint32_t below(uint32_t n)
{
    return (uint32_t)(((next_random() >> 32) * n) >> 32);
}

/* True so many times in a hundred. */
static bool chance(uint32_t percent)
{
    return below(100) < percent;
}

/* A random byte. */
static uint8_t random_byte(void)
{
    return (uint8_t)below(256);
}

/* Random bytes, at most LARGEST and the guards. */
static const uint8_t *random_bytes(void)
{
    return noise + below(NOISE - SPACE);
}

/* Fills the store that random bytes are read from. */
static void fill_noise(void)
{
    for (size_t i = 0; i < NOISE; i += 8) {
        uint64_t bits = next_random();
        memcpy(noise + i, &bits, 8);
    }
}

/* ---- What is counted ---- */

enum { ROWS = 10, COLUMNS = 14, OTHER_TYPE = 8, ZERO_DETAILS = 9 };

static const char *const row_names[ROWS] = {
    "02 MORE TIME", "05 EVENT LIST", "27 TIMER", "40 OPEN", "41 CLOSE", "42 RECEIVE", "43 SEND", "44 STATUS", "other type",
    "zero details",
};
static const char *const column_names[COLUMNS] = {
    "00", "01", "02", "07", "24", "30", "31", "32", "36", "3A 01", "3A 02", "3A 03", "3A 04", "3A 06",
};

/* The answers that the paper knows, row by row. */
static const char *const known[ROWS] = {
    "xx...x.xx.....", "xx...x.xx.....", "xx..xx.xx.....", "xx.x.x.xxx..xx", "xx...x.xx..x..",
    "xxx..x.xx..x..", "xx...x.xx.xxx.", "xx...x.xx.....", "......xx......", "......xxx.....",
};

static uint64_t answers[ROWS][COLUMNS];
static uint64_t refusals[DETAILS][REFUSALS]; /* by the kind of call */

/* Things that a history should come by. */
typedef enum {
    SHORT_PROFILE,
    LONG_PROFILE,
    EVENT_TOLD,
    EVENT_UNLISTED,
    EVENT_SILENT,
    NO_BYTE_CAME,
    FILLED_BY_ARRIVAL,
    ONE_BYTE_OVER,
    SIXTEENTH_CAME,
    NO_BYTE_AT_16,
    NO_ROOM_AT_16,
    NO_PLACE_IN_PART,
    TAKEN_ALL,
    TAKEN_1500,
    TAKEN_IN_PART,
    TAKEN_NONE,
    NOT_READY_BEHIND,
    TAKEN_WHOLE,
    TAKEN_EXACTLY,
    UNFINISHED_BEHIND,
    UNFINISHED_ALONE,
    ONE_BYTE_SHORT,
    DROP_TOLD,
    DROP_UNLISTED,
    DROPPED_HOLDING,
    SEVEN_OPEN,
    ALL_PROMISED,
    GRANT_FROM_CELLS,
    NUMBER_USED_AGAIN,
    DATAGRAMS_OPENED,
    OTHER_KIND,
    CLOSED_HOLDING,
    CLOSED_DROPPED,
    RECEIVED_237,
    RECEIVED_NONE,
    RECEIVED_DROPPED,
    LEFT_255,
    LEFT_256,
    READ_IN_PART,
    READ_TO_END,
    READ_SHORT,
    FILLED_BY_SEND,
    ONE_BYTE_OVER_SEND,
    SENT_NONE,
    ESTABLISHED_BY_SEND,
    SIXTEENTH_BEGUN,
    JOINED,
    JOINED_AT_16,
    ENDED_WITHOUT_BYTES,
    ENDED_NOTHING,
    NO_PLACE_TO_SEND,
    TIMER_STARTED,
    STARTED_RUNNING,
    STARTED_WAITING,
    STARTED_LONGEST,
    TIMER_STOPPED,
    STOPPED_WAITING,
    ASKED_RUNNING,
    ASKED_WAITING,
    VALUE_3,
    TIME_IGNORED,
    TIME_FLAGGED,
    NO_TIMER_RUNS,
    EIGHT_RUN,
    MINUTE_BORROWED,
    HOUR_BORROWED,
    CAME_TO_ZERO,
    TWO_TO_ZERO,
    ZERO_BESIDE_WAITING,
    WHOLE_DAY,
    LOWEST_OF_SEVERAL,
    EXACTLY_14,
    ONE_UNDER_14,
    LONG_TAG_DONE,
    LONG_TAG_REFUSED,
    LONGEST_COMMAND,
    LONGEST_RESPONSE,
    FETCH_ANEW,
    MORE_OF_NONE,
    MORE_AT_255,
    AT_ONCE,
    BY_LATER_BURST,
    BY_SINGLE_BYTE,
    BY_LAST_BYTE,
    BYTES_LEFT,
    FRAME_LEFT,
    ACROSS_START,
    ACROSS_COMMAND,
    ACROSS_RADIO,
    ACROSS_CLOCK,
    FETCHED_255,
    FETCHED_256,
    WRONG_FIRST,
    WRONG_SECOND,
    WRONG_THIRD,
    TOO_LONG_LEFT,
    TOO_LONG_AT_END,
    TOO_LONG_LATER,
    UNTAKEN_NONE,
    UNTAKEN_GATHERED,
    UNTAKEN_UNFINISHED,
    UNTAKEN_WHOLE,
    LEFT_CAPPED,
    DIVIDED,
    PLACES
} place;

static const char *const place_names[PLACES] = {
    [SHORT_PROFILE] = "start: profile under 13 bytes",
    [LONG_PROFILE] = "start: profile over 13 bytes",
    [EVENT_TOLD] = "arrival: event written",
    [EVENT_UNLISTED] = "arrival: stored, event not listed",
    [EVENT_SILENT] = "arrival: listed, bytes were held",
    [NO_BYTE_CAME] = "arrival: of no bytes",
    [FILLED_BY_ARRIVAL] = "arrival: grant filled to the byte",
    [ONE_BYTE_OVER] = "arrival: R6 by one byte",
    [SIXTEENTH_CAME] = "arrival: the sixteenth datagram",
    [NO_BYTE_AT_16] = "arrival: of no bytes, 16 held",
    [NO_ROOM_AT_16] = "arrival: R6, 16 held",
    [NO_PLACE_IN_PART] = "arrival: R11, one read in part",
    [TAKEN_1500] = "take: 1500 bytes",
    [TAKEN_ALL] = "take: all that was ready",
    [TAKEN_IN_PART] = "take: as many as fit",
    [TAKEN_NONE] = "take: none",
    [NOT_READY_BEHIND] = "take: bytes not ready stay behind",
    [TAKEN_WHOLE] = "take: a datagram, the next stays",
    [TAKEN_EXACTLY] = "take: a datagram fills the buffer",
    [UNFINISHED_BEHIND] = "take: a datagram, one unfinished stays",
    [UNFINISHED_ALONE] = "take: none, one unfinished",
    [ONE_BYTE_SHORT] = "take: R12 by one byte",
    [DROP_TOLD] = "drop: event written",
    [DROP_UNLISTED] = "drop: event not listed",
    [DROPPED_HOLDING] = "drop: bytes held both ways",
    [SEVEN_OPEN] = "OPEN: the seventh channel",
    [ALL_PROMISED] = "OPEN: the last cells",
    [GRANT_FROM_CELLS] = "OPEN: grant cut by the pool",
    [NUMBER_USED_AGAIN] = "OPEN: a number below an open one",
    [DATAGRAMS_OPENED] = "OPEN: a datagram channel",
    [OTHER_KIND] = "OPEN: a number that had the other kind",
    [CLOSED_HOLDING] = "CLOSE: bytes held both ways",
    [CLOSED_DROPPED] = "CLOSE: after a drop",
    [RECEIVED_237] = "RECEIVE: 237 bytes",
    [RECEIVED_NONE] = "RECEIVE: no bytes",
    [RECEIVED_DROPPED] = "RECEIVE: bytes after a drop",
    [LEFT_255] = "RECEIVE: 255 left",
    [LEFT_256] = "RECEIVE: 256 left",
    [READ_IN_PART] = "RECEIVE: a datagram in part",
    [READ_TO_END] = "RECEIVE: a datagram to its end",
    [READ_SHORT] = "RECEIVE: 02 at its end, more held",
    [FILLED_BY_SEND] = "SEND: grant filled to the byte",
    [ONE_BYTE_OVER_SEND] = "SEND: 3A 04 by one byte",
    [SENT_NONE] = "SEND: no bytes",
    [ESTABLISHED_BY_SEND] = "SEND: link established",
    [SIXTEENTH_BEGUN] = "SEND: the sixteenth datagram begun",
    [JOINED] = "SEND: bytes join a datagram",
    [JOINED_AT_16] = "SEND: bytes join the sixteenth",
    [ENDED_WITHOUT_BYTES] = "SEND: no bytes end a datagram",
    [ENDED_NOTHING] = "SEND: no bytes end nothing, 16 held",
    [NO_PLACE_TO_SEND] = "SEND: 3A 04 for a seventeenth",
    [TIMER_STARTED] = "TIMER: start",
    [STARTED_RUNNING] = "TIMER: start of a running one",
    [STARTED_WAITING] = "TIMER: start of a waiting one",
    [STARTED_LONGEST] = "TIMER: start with 23:59:59",
    [TIMER_STOPPED] = "TIMER: stop",
    [STOPPED_WAITING] = "TIMER: stop of a waiting one, 24",
    [ASKED_RUNNING] = "TIMER: ask",
    [ASKED_WAITING] = "TIMER: ask of a waiting one, 24",
    [VALUE_3] = "TIMER: value 3, 32",
    [TIME_IGNORED] = "TIMER: 25 ignored",
    [TIME_FLAGGED] = "TIMER: 25 unexpected and flagged, 32",
    [NO_TIMER_RUNS] = "second: no timer runs",
    [EIGHT_RUN] = "second: eight timers run",
    [MINUTE_BORROWED] = "second: a minute ends",
    [HOUR_BORROWED] = "second: an hour ends",
    [CAME_TO_ZERO] = "second: a timer comes to zero",
    [TWO_TO_ZERO] = "second: several timers come to zero",
    [ZERO_BESIDE_WAITING] = "second: to zero, another one waits",
    [WHOLE_DAY] = "second: 23:59:59 has passed",
    [LOWEST_OF_SEVERAL] = "envelope: the lowest of several",
    [EXACTLY_14] = "envelope: into 14 bytes",
    [ONE_UNDER_14] = "envelope: R1 at 13 bytes, one waits",
    [LONG_TAG_DONE] = "command with a tag of three bytes, done",
    [LONG_TAG_REFUSED] = "command with a tag of three bytes, 32",
    [LONGEST_COMMAND] = "command of 256 bytes",
    [LONGEST_RESPONSE] = "response of 255 bytes",
    [FETCH_ANEW] = "start of the fetch: something gathered",
    [MORE_OF_NONE] = "fetch: more to come of no bytes",
    [MORE_AT_255] = "fetch: more to come, 255 gathered",
    [AT_ONCE] = "fetch: completed in one burst",
    [BY_LATER_BURST] = "fetch: completed by a later burst",
    [BY_SINGLE_BYTE] = "fetch: completed by a burst of a byte",
    [BY_LAST_BYTE] = "fetch: completed by a burst's last byte",
    [BYTES_LEFT] = "fetch: bytes left",
    [FRAME_LEFT] = "fetch: a whole frame left",
    [ACROSS_START] = "fetch: completed across a start",
    [ACROSS_COMMAND] = "fetch: completed across a command",
    [ACROSS_RADIO] = "fetch: completed across a radio's call",
    [ACROSS_CLOCK] = "fetch: completed across a clock's call",
    [FETCHED_255] = "fetch: 255 bytes",
    [FETCHED_256] = "fetch: 256 bytes",
    [WRONG_FIRST] = "fetch: wrong first byte",
    [WRONG_SECOND] = "fetch: wrong second byte",
    [WRONG_THIRD] = "fetch: wrong third byte",
    [TOO_LONG_LEFT] = "fetch: R2 with bytes left",
    [TOO_LONG_AT_END] = "fetch: R2 at a burst's last byte",
    [TOO_LONG_LATER] = "fetch: R2 by a later burst",
    [UNTAKEN_NONE] = "fetch: R1 of no bytes",
    [UNTAKEN_GATHERED] = "fetch: R1, something gathered",
    [UNTAKEN_UNFINISHED] = "fetch: R1, nothing to complete",
    [UNTAKEN_WHOLE] = "fetch: R1, something to complete",
    [LEFT_CAPPED] = "fetch: FFFFFFFF left",
    [DIVIDED] = "fetch: the same bytes divided otherwise",
};

static uint64_t places[PLACES];

/* Counts a place if it was come by. */
static void count(place p, bool reached)
{
    places[p] += reached;
}

/* ---- The first difference ---- */

static const char *const kind_names[] = {
    "nothing", "start", "start of the fetch", "command", "arrival", "take", "drop", "second", "envelope", "fetch",
};

/* Prints bytes in hexadecimal, the first thousand of them. */
static void print_bytes(const uint8_t *bytes, size_t n)
{
    for (size_t i = 0; i < n && i < 1000; i++)
        printf("%02X", bytes[i]);
    printf(n > 1000 ? "... (%zu bytes)\n" : "\n", n);
}

/* Prints what one side returned and wrote. */
static void print_answer(const char *who, uint64_t number, const uint8_t *out, size_t size)
{
    uint32_t returned = POMERASSOL_ENDED(number), left = POMERASSOL_LEFT(number);
    printf("%s returned %06" PRIX32, who, returned);
    if (left != 0)
        printf(", %" PRIu32 " left", left);
    if (returned >= REFUSED) {
        printf(", R%" PRIu32 "\n", returned - REFUSED);
        return;
    }
    printf(": ");
    print_bytes(out, returned < size ? returned : size);
}

/* Reports the first difference and ends. */
static void differ(const char *what, const call *c, uint64_t from_reference, uint64_t from_pomerassol)
{
    printf("DIFFERENCE: %s\nseed %" PRIu64 ", call %" PRIu64 "%s\n", what, seed, made,
           on_copies ? ", in the comparison of copies after it" : "");
    printf("%s, channel %u, buffer of %zu, %zu bytes in: ", kind_names[c->kind], c->channel, c->size, c->n);
    print_bytes(c->bytes, c->n);
    if (c->kind == FETCH) {
        printf("gathered before: ");
        print_bytes(gathered_before.bytes, gathered_before.count);
    }
    print_answer("reference", from_reference, reference_space + GUARD, c->size);
    print_answer("pomerassol", from_pomerassol, pomerassol_space + GUARD, c->size);
    exit(1);
}

/* ---- What a record's bytes are ---- */

static uint32_t record_sum; /* over every byte of the library's record, after each call of the history */

/* Adds bytes to the sum, four at a time, the last ones alone. */
static void add_to_sum(const void *from, size_t n)
{
    const uint8_t *bytes = from;
    for (; n >= 4; n -= 4, bytes += 4) {
        uint32_t word;
        memcpy(&word, bytes, 4);
        record_sum = (record_sum ^ word) * 16777619u;
    }
    for (; n > 0; n--)
        record_sum = (record_sum ^ *bytes++) * 16777619u;
}

/* Whether a part of the library's pool has what a queue holds, from its front on, and 0 behind that. */
static bool part_holds(const uint8_t *part, uint32_t size, const reference_queue *q)
{
    for (uint32_t i = 0; i < size; i++)
        if (part[i] != (i < q->held ? q->bytes[(q->first + i) % REFERENCE_RING] : 0))
            return false;
    return true;
}

/* Whether the pool is as the header says: the parts of the open channels in order, and 0 behind them. */
static bool pool_kept(const records *r)
{
    static const reference_queue none;
    const uint8_t *part = r->pomerassol.session.pool, *end = part + sizeof r->pomerassol.session.pool;
    for (uint32_t channel = 1; channel <= POMERASSOL_CHANNELS; channel++) {
        const reference_channel *c = &r->reference.session.channel[channel - 1];
        uint32_t size = POMERASSOL_PART((uint32_t)r->pomerassol.session.ledger[POMERASSOL_GRANT(channel)]);
        if (size == 0)
            continue;
        if (!part_holds(part, size, &c->receive) || !part_holds(part + size, size, &c->send))
            return false;
        part += 2 * size;
    }
    return part_holds(part, (uint32_t)(end - part), &none);
}

/* ---- One call on both sides ---- */

/* Whether a number is that of a refusal of these calls. */
static bool is_refusal(uint32_t number)
{
    return (number >= 1 && number <= R6) || (number >= R10 && number <= R12);
}

/* Holds one side to its own answer: a number that can be, and nothing touched but what it reports. */
static bool honest(const call *c, uint64_t number, const uint8_t *space, const uint8_t *before)
{
    uint32_t returned = POMERASSOL_ENDED(number);
    size_t written = returned < REFUSED ? returned : 0;
    size_t all = GUARD + c->size + GUARD;
    if (written > c->size || (returned >= REFUSED && !is_refusal(returned - REFUSED)))
        return false;
    if (POMERASSOL_LEFT(number) > c->n || memcmp(space, before, GUARD) != 0)
        return false;
    return memcmp(space + GUARD + written, before + GUARD + written, all - GUARD - written) == 0;
}

/* Compares what both sides say is at hand, with each other and with the details in the answer. */
static void compare_details(const call *c, uint32_t returned)
{
    uint32_t a = reference_details(c->bytes, c->n), b = pomerassol_details(c->bytes, c->n);
    const uint8_t *out = reference_space + GUARD;
    if (a != b)
        differ("the details at hand", c, a, b);
    if (returned < REFUSED && b != (uint32_t)(out[2] << 16 | out[3] << 8 | out[4]))
        differ("the details at hand and those of the answer", c, returned, b);
    if (returned == REFUSED + R2 && b != returned)
        differ("R2 of the details at hand", c, returned, b);
}

/* Whether the library keeps a timer as it should: hours, minutes and seconds, those left and those it was started with. */
static bool timer_kept(const records *r, uint32_t number)
{
    const reference_timer *t = &r->reference.session.timer[number - 1];
    const uint16_t *kept = &r->pomerassol.session.ledger[TIMER_NUMBERS + EACH_TIMER * (number - 1)];
    const uint32_t asked[EACH_TIMER] = {
        t->left / 3600, t->left / 60 % 60, t->left % 60, t->started / 3600, t->started / 60 % 60, t->started % 60,
    };
    for (int i = 0; i < EACH_TIMER; i++)
        if (kept[i] != asked[i])
            return false;
    return true;
}

/* Compares what the library keeps: the unpromised cells, the timers, and the gathered bytes with 0 in each place behind
 * them. */
static void compare_kept(const records *r, const call *c, uint64_t number)
{
    const reference_gathered *g = &r->reference.gathered;
    pomerassol_gathered asked = {.count = (uint8_t)g->count};
    memcpy(asked.bytes, g->bytes, g->count);
    if (r->pomerassol.session.ledger[POMERASSOL_FREE_CELLS] != CELLS - r->reference.session.promised)
        differ("the kept number of unpromised cells", c, number, number);
    for (uint32_t timer = 1; timer <= TIMERS; timer++)
        if (!timer_kept(r, timer))
            differ("the kept numbers of a timer", c, number, number);
    if (memcmp(&r->pomerassol.gathered, &asked, sizeof asked) != 0)
        differ("the gathered bytes", c, number, number);
}

/* The bytes of a call as they are lent: a copy, or themselves where they are too many and cannot be written. */
static const uint8_t *lend(const call *c)
{
    return c->n <= sizeof lent ? memcpy(lent, c->bytes, c->n) : c->bytes;
}

/* Makes the call on both records and compares numbers, buffers, what was lent and what is kept. */
static uint64_t perform(records *r, const call *c)
{
    const uint8_t *before = random_bytes();
    size_t all = GUARD + c->size + GUARD;
    call with_copy = *c;
    memcpy(reference_space, before, all);
    memcpy(pomerassol_space, before, all);
    with_copy.bytes = lend(c);
    gathered_before = r->reference.gathered;
    uint64_t a = reference_run(&r->reference, &with_copy, reference_space + GUARD);
    uint64_t b = pomerassol_run(&r->pomerassol, &with_copy, pomerassol_space + GUARD);
    if (a != b)
        differ("the returned numbers", c, a, b);
    if (memcmp(reference_space, pomerassol_space, all) != 0)
        differ("the buffers", c, a, b);
    if (with_copy.bytes == lent && memcmp(lent, c->bytes, c->n) != 0)
        differ("bytes lent to be read were changed", c, a, b);
    if (!honest(c, a, reference_space, before))
        differ("both touch bytes that they do not report", c, a, b);
    if (c->kind == COMMAND)
        compare_details(c, POMERASSOL_ENDED(a));
    compare_kept(r, c, a);
    return a;
}

/* ---- The state, through calls on copies ---- */

/* Makes a command on the copies; `object` is what follows the devices. */
static void ask_copies(uint8_t type, uint8_t qualifier, uint8_t destination, const uint8_t *object, uint8_t n)
{
    uint8_t frame[64] = {0xD0, (uint8_t)(9 + n), 0x81, 3, 1, type, qualifier, 0x82, 2, 0x81, destination};
    if (n != 0)
        memcpy(frame + 11, object, n);
    call c = {COMMAND, 0, frame, 11u + n, 255};
    perform(&copies, &c);
    made_on_copies++;
}

/* Makes an arrival, a take, a drop, a second or an envelope on the copies. */
static void call_copies(call_kind kind, uint8_t channel, size_t n, size_t size)
{
    call c = {kind, channel, noise, n, size};
    made_on_copies++;
    perform(&copies, &c);
}

/* Takes all that is ready, each datagram apart, and once more. */
static void take_from_copies(uint8_t channel)
{
    for (uint32_t left = copies.reference.session.channel[channel - 1].send.datagrams + 1; left > 0; left--)
        call_copies(TAKE, channel, 0, 1500);
}

/* Receives all that is held, each datagram apart, and once more: 237 bytes of it at a time. */
static void receive_from_copies(uint8_t channel)
{
    static const uint8_t request[3] = {0xB7, 1, 0xFF};
    for (uint32_t left = copies.reference.session.channel[channel - 1].receive.datagrams + 7; left > 0; left--)
        ask_copies(0x42, 0, 0x20 + channel, request, 3);
}

/* Compares one channel: room, ready bytes, bytes held both ways and their ends, grant, link. */
static void compare_channel(uint8_t channel)
{
    static const uint8_t no_data[2] = {0xB6, 0};
    const reference_channel *c = &copies.reference.session.channel[channel - 1];
    uint8_t identity = 0x20 + channel;
    ask_copies(0x43, 0, identity, no_data, 2);
    take_from_copies(channel);
    receive_from_copies(channel);
    ask_copies(0x43, 1, identity, no_data, 2);
    take_from_copies(channel);
    call_copies(ARRIVAL, channel, c->link == REFERENCE_UNOPENED ? 0 : c->grant, 16);
    call_copies(ARRIVAL, channel, 1, 16);
    call_copies(DROP, channel, 0, 16);
}

/* Compares the timers: what is told of each, those that wait, and those that come to zero with a second. */
static void compare_timers(void)
{
    for (uint8_t timer = 0; timer <= TIMERS + 1; timer++) {
        const uint8_t object[3] = {0xA4, 1, timer};
        ask_copies(0x27, 2, 0x82, object, 3);
    }
    for (int i = 0; i <= TIMERS; i++)
        call_copies(ENVELOPE, 0, 0, 14);
    call_copies(SECOND, 0, 0, 0);
    for (int i = 0; i <= TIMERS; i++)
        call_copies(ENVELOPE, 0, 0, 14);
    for (uint8_t timer = 1; timer <= TIMERS; timer++) {
        const uint8_t object[3] = {0xA4, 1, timer};
        ask_copies(0x27, 1, 0x82, object, 3);
    }
}

/* Compares the state behind both records on copies of them. */
static void compare_state(void)
{
    static const uint8_t opening[7] = {0xB5, 1, 3, 0xB9, 2, 0x05, 0xDC};
    static const call none = {NOTHING, 0, noise, 0, 0};
    if (!pool_kept(&run))
        differ("the places of held bytes in the pool", &none, 0, 0);
    copies = run;
    on_copies = true;
    compare_timers();
    ask_copies(0x44, 0, 0x82, NULL, 0);
    for (uint8_t channel = 1; channel <= 7; channel++)
        compare_channel(channel);
    for (int i = 0; i < 4; i++)
        ask_copies(0x40, 1, 0x82, opening, 7);
    ask_copies(0x44, 0, 0x82, NULL, 0);
    for (uint8_t channel = 1; channel <= 7; channel++)
        ask_copies(0x41, 0, 0x20 + channel, NULL, 0);
    for (int i = 0; i < 8; i++)
        ask_copies(0x40, 0, 0x82, opening, 7);
    on_copies = false;
}

/* Compares a day of all eight timers on copies, each second of it. */
static void compare_day(void)
{
    static const uint8_t profile[8] = {0, 0, 0, 0, 0, 0, 0, 3};
    call start = {START, 0, profile, sizeof profile, 0};
    copies = run;
    on_copies = true;
    perform(&copies, &start);
    for (uint8_t timer = 1; timer <= TIMERS; timer++) {
        const uint8_t objects[8] = {0xA4, 1, timer, 0xA5, 3, 0x32, 0x95, 0x95};
        ask_copies(0x27, 0, 0x82, objects, 8);
    }
    for (uint32_t left = 24 * 3600 - 1; left > 0; left--)
        call_copies(SECOND, 0, 0, 0);
    count(WHOLE_DAY, copies.reference.session.timer[0].left == 0);
    for (int i = 0; i <= TIMERS; i++)
        call_copies(ENVELOPE, 0, 0, 14);
    on_copies = false;
}

/* ---- What the reference knows, to steer by ---- */

/* A channel of the running session; numbers 1 to 7. */
static const reference_channel *at(uint8_t channel)
{
    return &run.reference.session.channel[channel - 1];
}

/* Whether a number names an open channel. */
static bool is_open(uint8_t channel)
{
    return channel >= 1 && channel <= 7 && at(channel)->link != REFERENCE_UNOPENED;
}

/* Whether a channel is open and its link established. */
static bool is_established(uint8_t channel)
{
    return is_open(channel) && at(channel)->link == REFERENCE_ESTABLISHED;
}

/* Whether a channel is open and its link dropped. */
static bool is_dropped(uint8_t channel)
{
    return is_open(channel) && at(channel)->link == REFERENCE_DROPPED;
}

/* Whether a channel holds bytes for the card. */
static bool is_holding(uint8_t channel)
{
    return is_open(channel) && at(channel)->receive.held != 0;
}

/* Whether a take would hand out bytes of a channel. */
static bool is_ready(uint8_t channel)
{
    return is_established(channel) && at(channel)->ready != 0;
}

/* Whether a channel is open and carries datagrams. */
static bool is_datagram(uint8_t channel)
{
    return is_open(channel) && at(channel)->kind == REFERENCE_DATAGRAM;
}

/* What is left of the first datagram of a queue, or 0. */
static uint32_t first_datagram(const reference_queue *q)
{
    return q->datagrams == 0 ? 0 : q->length[q->oldest % DATAGRAMS];
}

static uint8_t focus; /* the channel that SEND DATA and arrivals mostly go to */

/* Whether a channel is the open one in focus. */
static bool is_focus(uint8_t channel)
{
    return is_open(channel) && channel == focus;
}

typedef bool property(uint8_t channel);

/* How many channels have a property. */
static uint32_t count_channels(property *has)
{
    uint32_t n = 0;
    for (uint8_t channel = 1; channel <= 7; channel++)
        n += has(channel);
    return n;
}

/* A channel that has a property if there is one, else any number from 0 to 9. */
static uint8_t channel_with(property *has)
{
    uint32_t skip = count_channels(has);
    if (skip == 0)
        return (uint8_t)below(10);
    skip = below(skip);
    for (uint8_t channel = 1; channel <= 7; channel++)
        if (has(channel) && skip-- == 0)
            return channel;
    return 0;
}

/* A channel for the next call: mostly one that has a property, else an open one, else any. */
static uint8_t pick_channel(property *has)
{
    if (chance(60))
        return channel_with(has);
    if (chance(80))
        return channel_with(is_open);
    if (chance(90))
        return (uint8_t)below(10);
    return random_byte();
}

/* Bytes that still fit on the way to the card. */
static uint32_t receive_room(uint8_t channel)
{
    return is_open(channel) ? at(channel)->grant - at(channel)->receive.held : 0;
}

/* Bytes that still fit on the way to the network. */
static uint32_t send_room(uint8_t channel)
{
    return is_open(channel) ? at(channel)->grant - at(channel)->send.held : 0;
}

/* Whether a timer of the running session runs. */
static bool runs(uint32_t timer)
{
    return run.reference.session.timer[timer - 1].left != 0;
}

/* Whether a timer of the running session waits. */
static bool waits(uint32_t timer)
{
    return !runs(timer) && run.reference.session.timer[timer - 1].started != 0;
}

/* Whether a timer of the running session neither runs nor waits. */
static bool rests(uint32_t timer)
{
    return !runs(timer) && !waits(timer);
}

typedef bool doing(uint32_t timer);

/* How many timers do something. */
static uint32_t count_timers(doing *so)
{
    uint32_t n = 0;
    for (uint32_t timer = 1; timer <= TIMERS; timer++)
        n += so(timer);
    return n;
}

/* A timer that does something if there is one, else any number from 0 to 9. */
static uint8_t timer_that(doing *so)
{
    uint32_t first = below(TIMERS);
    for (uint32_t i = 0; i < TIMERS; i++)
        if (so(1 + (first + i) % TIMERS))
            return (uint8_t)(1 + (first + i) % TIMERS);
    return (uint8_t)below(10);
}

/* A timer for the next command: mostly one that does something, else one that waits, else any. */
static uint8_t pick_timer(doing *so)
{
    if (chance(60))
        return timer_that(so);
    if (chance(30))
        return timer_that(waits);
    if (chance(85))
        return (uint8_t)(1 + below(TIMERS));
    return chance(80) ? (uint8_t)below(10) : random_byte();
}

/* ---- Sizes ---- */

/* A size at the edges. */
static uint32_t edge(void)
{
    static const uint32_t edges[] = {0, 1, 31, 32, 33, 63, 64, 65, 255, 256, 1087, 1088, 1499, 1500, 1501, 65535};
    return edges[below(sizeof edges / sizeof edges[0])];
}

/* A size about a middle: one under, the middle itself, one over. */
static uint32_t about(uint32_t middle)
{
    uint32_t size = middle + below(3);
    return size == 0 ? 0 : size - 1;
}

/* A size for OPEN: edges, small, about what is unpromised, or any. */
static uint32_t open_size(void)
{
    uint32_t unpromised = CELLS - run.reference.session.promised;
    switch (below(8)) {
    case 0:
        return edge();
    case 1:
    case 2:
        return 1 + below(100);
    case 3:
        return about(CELL * (unpromised / 2));
    case 4:
        return below(65536);
    case 5:
        return 1 + below(1500);
    default:
        return below(400);
    }
}

/* A size for an arrival; datagrams are mostly small, so that their places fill before the grant does. */
static uint32_t arrival_size(uint8_t channel)
{
    uint32_t room = receive_room(channel);
    if (is_datagram(channel) && chance(70))
        return below(6);
    switch (below(10)) {
    case 0:
        return edge();
    case 1:
    case 2:
        return about(room);
    case 3:
        return 0;
    case 4:
        return below(1600);
    case 5:
    case 6:
        return below(room + 1);
    default:
        return 1 + below(300);
    }
}

/* A size for the buffer of a take. */
static uint32_t take_size(uint8_t channel)
{
    uint32_t ready = is_open(channel) ? at(channel)->ready : 0;
    if (is_datagram(channel) && chance(60))
        return about(first_datagram(&at(channel)->send));
    switch (below(8)) {
    case 0:
        return edge();
    case 1:
    case 2:
        return about(ready);
    case 3:
        return 1500;
    case 4:
        return below(ready + 1);
    default:
        return below(300);
    }
}

/* A count of bytes for SEND DATA. */
static uint32_t send_size(uint8_t channel)
{
    uint32_t room = send_room(channel);
    uint32_t size = below(DATA_CAP + 1);
    if (is_datagram(channel) && chance(70))
        return below(6);
    if (chance(30))
        size = about(room);
    if (chance(5))
        size = 0;
    if (chance(10))
        size = 1 + below(40);
    if (chance(10))
        size = about(127);
    return size <= DATA_CAP + 1 ? size : DATA_CAP;
}

/* A request for RECEIVE DATA. */
static uint8_t request_size(uint8_t channel)
{
    uint32_t held = is_open(channel) ? at(channel)->receive.held : 0;
    if (is_datagram(channel) && first_datagram(&at(channel)->receive) < 255 && chance(50))
        return (uint8_t)about(first_datagram(&at(channel)->receive));
    if (held >= 255 && held < 255 + 237 + 2 && chance(50))
        return (uint8_t)about(held - 256 + 1);
    if (held < 255 && chance(30))
        return (uint8_t)about(held);
    if (chance(20))
        return (uint8_t)about(237);
    if (chance(10))
        return (uint8_t)about(127);
    if (chance(5))
        return 0;
    return random_byte();
}

/* The size of a buffer, where `least` is just enough. */
static uint32_t buffer_size(uint32_t least)
{
    if (chance(60))
        return least;
    if (chance(90))
        return least + below(200);
    if (chance(40))
        return least - 1;
    if (chance(60))
        return below(least);
    return edge();
}

/* ---- Commands ---- */

enum { OBJECTS = 20 };

/* An object of a command in the making. */
typedef struct {
    uint8_t tag;
    bool long_tag;      /* whether its tag is in three bytes */
    uint16_t behind_7f; /* and which stand behind the first */
    uint8_t n;
    uint8_t value[256];
} object;

static object plan[OBJECTS];
static uint32_t planned;
static uint8_t frame[4 * FRAME_CAP];
static size_t frame_size;
static bool rough; /* whether most commands are disturbed */

/* Plans an object; the flag of its tag is set so many times in a hundred. */
static object *add(uint8_t number, uint32_t flagged, const uint8_t *value, uint32_t n)
{
    object *o = &plan[planned < OBJECTS ? planned++ : OBJECTS - 1];
    o->tag = number | (chance(flagged) ? 0x80 : 0);
    o->long_tag = chance(rough ? 12 : 3);
    o->behind_7f = (uint16_t)((o->tag & 0x80) << 8 | number);
    o->n = (uint8_t)n;
    memcpy(o->value, value, o->n);
    return o;
}

/* Plans an object of n random bytes. */
static object *add_random(uint8_t number, uint32_t flagged, uint32_t n)
{
    return add(number, flagged, random_bytes(), n);
}

/* Plans objects 01 and 02. */
static void begin(uint8_t type, uint8_t destination)
{
    uint8_t details[3] = {1, type, chance(65)};
    uint8_t devices[2] = {0x81, destination};
    if (chance(20))
        details[0] = random_byte();
    if (chance(10))
        details[2] = random_byte();
    if (chance(2))
        details[0] = details[2] = 0;
    planned = 0;
    add(0x01, 90, details, 3);
    add(0x02, 90, devices, 2);
}

/* Plans objects that may also stand with a channel's command. */
static void add_shown(void)
{
    if (chance(8))
        add_random(0x05, 50, below(20));
    if (chance(8))
        add(0x1E, 50, random_bytes(), 2);
}

/* The identity of a channel to name. */
static uint8_t identity(uint8_t channel)
{
    return (uint8_t)(0x20 + channel);
}

/* MORE TIME. */
static void plan_more_time(void)
{
    begin(0x02, 0x82);
}

/* SET UP EVENT LIST: mostly of the two events. */
static void plan_event_list(void)
{
    uint8_t events[4];
    begin(0x05, 0x82);
    for (int i = 0; i < 4; i++)
        events[i] = chance(97) ? 0x09 + (uint8_t)below(2) : random_byte();
    add(0x19, 90, events, below(5));
}

/* Plans object 35: bearer 03, bearer 02, or another. */
static void add_bearer(void)
{
    uint8_t bearer[8];
    memcpy(bearer, random_bytes(), 8);
    if (chance(70)) {
        bearer[0] = 0x03;
        add(0x35, 90, bearer, 1);
    } else if (chance(85)) {
        bearer[0] = 0x02;
        add(0x35, 90, bearer, 7);
    } else {
        add(0x35, 90, bearer, below(8));
    }
}

/* Plans object 3C: datagrams, a stream, or seldom another. */
static void add_transport(void)
{
    uint8_t transport[3] = {chance(70) ? 0x01 : 0x02};
    memcpy(transport + 1, random_bytes(), 2);
    if (chance(8))
        transport[0] = (uint8_t)below(8);
    add(0x3C, 50, transport, 3);
}

/* OPEN CHANNEL, with objects that may also stand, some of them once too often. */
static void plan_open(void)
{
    uint32_t size = open_size();
    uint8_t buffer[2] = {(uint8_t)(size >> 8), (uint8_t)size};
    begin(0x40, 0x82);
    add_bearer();
    add(0x39, 90, buffer, 2);
    if (chance(60))
        add_transport();
    add_shown();
    if (chance(8))
        add_random(0x47, 50, below(30));
    for (uint32_t i = below(4); i > 0 && chance(20); i--)
        add(0x04, 50, random_bytes(), 2);
    for (uint32_t i = below(4); i > 0 && chance(20); i--)
        add_random(0x0D, 50, below(20));
    for (uint32_t i = below(4); i > 0 && chance(20); i--)
        add_random(0x3E, 50, below(9));
}

/* CLOSE CHANNEL: mostly of a channel whose link was dropped, so that few such stay. */
static void plan_close(void)
{
    begin(0x41, identity(pick_channel(is_dropped)));
    add_shown();
}

/* RECEIVE DATA: mostly from a channel that holds bytes. */
static void plan_receive(void)
{
    uint8_t channel = pick_channel(is_holding);
    uint8_t request = request_size(channel);
    begin(0x42, identity(channel));
    add(0x37, 90, &request, 1);
    add_shown();
}

/* SEND DATA: mostly to the channel in focus, so that it fills. */
static void plan_send(void)
{
    uint8_t channel = pick_channel(is_focus);
    begin(0x43, identity(channel));
    add_random(0x36, 90, send_size(channel));
    add_shown();
}

/* GET CHANNEL STATUS. */
static void plan_status(void)
{
    begin(0x44, 0x82);
}

/* A number's two decimal digits, the last one first. */
static uint8_t swapped(uint32_t number)
{
    return (uint8_t)(number / 10 | number % 10 << 4);
}

/* Writes a time of day. */
static void write_time(uint8_t *to, uint32_t hours, uint32_t minutes, uint32_t seconds)
{
    to[0] = swapped(hours);
    to[1] = swapped(minutes);
    to[2] = swapped(seconds);
}

/* Writes a time: mostly of few seconds; shortly before the end of a minute or an hour; any; at the bounds; any bytes. */
static void write_some_time(uint8_t *to)
{
    static const uint8_t bounds[][3] = {
        {0x32, 0x95, 0x95}, {0x42, 0, 0}, {0, 0x06, 0}, {0, 0, 0x06}, {0, 0, 0}, {0xA0, 0, 0x10}, {0x0A, 0, 0x10},
        {0, 0xA0, 0x10}, {0, 0, 0x0A}, {0, 0, 0x10}, {0, 0x10, 0}, {0x10, 0, 0}, {0x32, 0, 0}, {0, 0x95, 0x95},
    };
    uint32_t hours = below(24), minutes = below(60), seconds = below(60);
    switch (below(12)) {
    case 0:
        memcpy(to, bounds[below(sizeof bounds / sizeof bounds[0])], 3);
        break;
    case 1:
        memcpy(to, random_bytes(), 3);
        break;
    case 2:
        write_time(to, hours, minutes, seconds);
        break;
    case 3:
        write_time(to, 0, 1 + minutes % 59, seconds % 3);
        break;
    case 4:
        write_time(to, 1 + hours % 23, 0, seconds % 3);
        break;
    default:
        write_time(to, 0, 0, 1 + seconds % 20);
    }
}

/* TIMER MANAGEMENT: starts, stops, asks, seldom value 3; 25 where it is required and sometimes where it is not. */
static void plan_timer(void)
{
    static const uint8_t actions[] = {0, 0, 0, 0, 0, 1, 2, 2, 2, 3};
    uint8_t action = actions[below(sizeof actions)], timer = pick_timer(action == 0 ? rests : runs), time[3];
    begin(0x27, 0x82);
    plan[0].value[2] = action;
    if (chance(15))
        plan[0].value[2] |= random_byte() & 0xFC;
    add(0x24, 90, &timer, 1);
    write_some_time(time);
    if (action == 0 ? chance(97) : chance(12))
        add(0x25, action == 0 ? 90 : 40, time, action == 0 || chance(70) ? 3 : below(4));
}

/* A type that is not of the eight. */
static void plan_other(void)
{
    static const uint8_t types[] = {0x00, 0x01, 0x03, 0x04, 0x06, 0x26, 0x28, 0x3F, 0x45, 0x7F, 0x82, 0xC0, 0xC2, 0xFF};
    uint8_t type = chance(70) ? types[below(sizeof types)] : random_byte();
    begin(type, chance(50) ? 0x82 : 0x21);
    if (chance(30))
        plan[0].value[0] = plan[0].value[2] = 0;
}

/* Exchanges planned objects at random, the first one seldom. */
static void shuffle(void)
{
    uint32_t first = chance(95) ? 1 : 0;
    for (uint32_t i = planned; i > first + 1; i--) {
        uint32_t j = first + below(i - first);
        object o = plan[j];
        plan[j] = plan[i - 1];
        plan[i - 1] = o;
    }
}

/* Takes one planned object away. */
static void remove_one(void)
{
    uint32_t i = below(planned);
    planned--;
    memmove(&plan[i], &plan[i + 1], (planned - i) * sizeof plan[0]);
}

/* Plans an object that is not expected, mostly a known one. */
static void add_unexpected(void)
{
    static const uint8_t tags[] = {0x01, 0x02, 0x04, 0x05, 0x0D, 0x19, 0x1E, 0x24, 0x25, 0x35, 0x36, 0x37, 0x38, 0x39, 0x3C,
                                   0x3E, 0x47};
    uint8_t number = chance(60) ? tags[below(sizeof tags)] : (uint8_t)(1 + below(126));
    object *o = add_random(number, 30, chance(90) ? below(9) : below(140));
    if (chance(80))
        return;
    o->tag = 0x7E;
    o->long_tag = true;
    o->behind_7f = (uint16_t)(random_byte() << 8);
    o->behind_7f |= chance(60) ? number : random_byte();
}

/* Plans a second of an object that stands already. */
static void repeat_one(void)
{
    const object *o = &plan[below(planned)];
    add(o->tag & 0x7F, 40, chance(70) ? o->value : random_bytes(), o->n);
}

/* Gives one object another length. */
static void resize_one(void)
{
    object *o = &plan[below(planned)];
    uint32_t n = chance(60) ? about(o->n) : below(12);
    for (uint32_t i = o->n; i < n; i++)
        o->value[i] = random_byte();
    o->n = (uint8_t)n;
}

/* Changes source or destination, mostly to a near value. */
static void change_device(void)
{
    static const uint8_t devices[] = {0x00, 0x01, 0x20, 0x21, 0x27, 0x28, 0x80, 0x81, 0x82, 0x83, 0xA1};
    uint32_t end = below(2);
    for (uint32_t i = 0; i < planned; i++)
        if ((plan[i].tag & 0x7F) == 0x02) {
            plan[i].value[end] = chance(80) ? devices[below(sizeof devices)] : random_byte();
            return;
        }
}

/* Gives one object a tag of a number that is a fault. */
static void spoil_tag(void)
{
    static const uint8_t faults[] = {0x00, 0x80, 0x7F, 0xFF};
    object *o = &plan[below(planned)];
    o->tag = faults[below(4)];
    o->long_tag = chance(30);
    o->behind_7f = chance(50) ? 0x8000 : 0;
}

/* The bytes that the planned objects take. */
static uint32_t planned_size(void)
{
    uint32_t n = 0;
    for (uint32_t i = 0; i < planned; i++)
        n += (plan[i].n < 0x80 ? 2u : 3u) + (plan[i].long_tag ? 2u : 0u) + plan[i].n;
    return n;
}

/* Plans an object 05 that brings all objects to a size. */
static void pad_to(uint32_t size)
{
    uint32_t n = planned_size();
    if (n + 2 > size)
        return;
    uint32_t rest = size - n - 2;
    add(0x05, 20, random_bytes(), rest < 0x80 ? rest : rest - 1)->long_tag = false;
}

/* Plans an object 05 that brings all objects to an edge of the lengths. */
static void pad(void)
{
    static const uint8_t edges[] = {126, 127, 128, 129, 252, 253, 254, 255};
    pad_to(edges[below(sizeof edges)]);
}

/* Disturbs what is planned, in one of many ways. */
static void disturb(void)
{
    switch (below(9)) {
    case 0:
        remove_one();
        break;
    case 1:
        repeat_one();
        break;
    case 2:
        resize_one();
        break;
    case 3:
        change_device();
        break;
    case 4:
        if (chance(30))
            spoil_tag();
        break;
    case 5:
        pad();
        break;
    default:
        add_unexpected();
    }
    if (planned == 0)
        plan_status();
}

/* Writes a length in its shortest form, or seldom in one that is not read. */
static size_t write_length(uint8_t *to, size_t n, bool wrong)
{
    size_t size = 0;
    if (wrong && chance(40))
        to[size++] = (uint8_t)(0x80 + below(4));
    else if (n >= 0x80 || wrong)
        to[size++] = 0x81;
    to[size++] = (uint8_t)n;
    return size;
}

/* Writes the tag of an object, in one byte or three. */
static size_t write_tag(uint8_t *to, const object *o)
{
    if (!o->long_tag) {
        to[0] = o->tag;
        return 1;
    }
    to[0] = 0x7F;
    to[1] = (uint8_t)(o->behind_7f >> 8);
    to[2] = (uint8_t)o->behind_7f;
    return 3;
}

/* Writes the planned objects; returns their size, at most FRAME_CAP. */
static size_t write_objects(uint8_t *to)
{
    size_t size = 0;
    for (uint32_t i = 0; i < planned && size + 5 + plan[i].n <= FRAME_CAP; i++) {
        size += write_tag(to + size, &plan[i]);
        size += write_length(to + size, plan[i].n, rough && chance(plan[i].n == 127 ? 20 : 1));
        memcpy(to + size, plan[i].value, plan[i].n);
        size += plan[i].n;
    }
    return size;
}

/* Frames the planned objects; seldom they are cut or lengthened inside a frame that is right. */
static void write_frame(void)
{
    uint8_t objects[FRAME_CAP + 8];
    size_t n = write_objects(objects);
    if (rough && n > 0 && chance(6))
        n = below((uint32_t)n + 1);
    if (rough && n < FRAME_CAP && chance(3))
        objects[n++] = random_byte();
    frame[0] = 0xD0;
    frame_size = 1 + write_length(frame + 1, n, rough && chance(n == 127 ? 20 : 2));
    memcpy(frame + frame_size, objects, n);
    frame_size += n;
}

/* Changes the written frame: cut, longer, another byte, another bit. */
static void damage(void)
{
    uint32_t n = (uint32_t)frame_size;
    switch (below(5)) {
    case 0:
        frame_size = below(n + 1);
        break;
    case 1:
        frame_size = n + 1 + below(4);
        memcpy(frame + n, random_bytes(), 4);
        break;
    case 2:
        n = below(n);
        frame[n] = random_byte();
        break;
    default:
        n = below(n < 16 ? n : 16);
        frame[n] ^= (uint8_t)(1u << below(8));
    }
}

/* Random bytes as a command, seldom with a frame that is right. */
static void write_random(void)
{
    planned = 0;
    frame_size = chance(70) ? below(FRAME_CAP + 1) : 255 + below(4);
    memcpy(frame, random_bytes(), frame_size);
    if (frame_size < 2 || chance(40))
        return;
    frame[0] = 0xD0;
    frame[1] = (uint8_t)(frame_size - 2);
    if (frame_size < 12 || frame[1] >= 0x80 || chance(40))
        return;
    memcpy(frame + 2, "\x81\x03\x01\x44\x00\x82\x02\x81\x82", 9);
}

typedef void planner(void);

/* Plans, disturbs, writes and damages a command. */
static void write_command(planner *planned_by)
{
    planned_by();
    if (chance(rough ? 60 : 5))
        disturb();
    if (chance(rough ? 20 : 1))
        disturb();
    if (chance(20))
        shuffle();
    write_frame();
    if (chance(rough ? 12 : 1))
        damage();
}

/* ---- Bytes on the line ---- */

enum { LINE_CAP = 1024 };

static uint8_t line[LINE_CAP]; /* bytes of the card that no burst has brought yet */
static size_t on_line;
static bool by_bytes; /* whether most bursts are of a single byte */

/* Puts the written command behind what is on the line, if it fits. */
static void put_on_line(void)
{
    if (on_line + frame_size > LINE_CAP)
        return;
    memcpy(line + on_line, frame, frame_size);
    on_line += frame_size;
}

/* Takes the first n bytes off the line. */
static void take_off_line(size_t n)
{
    on_line -= n;
    memmove(line, line + n, on_line);
}

/* How many of these bytes are taken, behind those gathered, until a fetch ends; 0 where more is to come. */
static uint32_t taken_of(const reference_gathered *gathered, const uint8_t *bytes, size_t n)
{
    static reference_session aside;
    static uint8_t unread[255];
    reference_gathered copy = *gathered;
    uint64_t number = reference_fetch(&aside, &copy, bytes, n, unread, sizeof unread);
    return POMERASSOL_ENDED(number) == 0 ? 0 : (uint32_t)n - POMERASSOL_LEFT(number);
}

/* The bytes on the line up to the end of the command at hand, or all where it does not end there. */
static uint32_t to_end(void)
{
    uint32_t taken = taken_of(&run.reference.gathered, line, on_line);
    return taken != 0 ? taken : (uint32_t)on_line;
}

/* A size for a burst: none, few bytes, to the end of the command at hand, about that, any, or all. */
static uint32_t any_burst_size(void)
{
    switch (below(10)) {
    case 0:
        return 0;
    case 1:
        return 1;
    case 2:
        return below(5);
    case 3:
    case 4:
        return to_end();
    case 5:
    case 6:
        return about(to_end());
    case 7:
        return below((uint32_t)on_line + 1);
    default:
        return (uint32_t)on_line;
    }
}

/* The size of the next burst, at most what is on the line. */
static size_t burst_size(void)
{
    size_t size = by_bytes && chance(90) ? 1 : any_burst_size();
    return size < on_line ? size : on_line;
}

/* A head that is wrong at its first, second or third byte, or calls for 257 or 258 bytes, and some bytes behind it. */
static void write_wrong_head(void)
{
    memcpy(frame, random_bytes(), 8);
    memcpy(frame, "\xD0\x81", 2);
    frame_size = 3 + below(6);
    switch (below(5)) {
    case 0:
        frame[0] ^= (uint8_t)(1u << below(8));
        break;
    case 1:
        frame[1] = (uint8_t)(chance(30) ? 0x80 : 0x82 + below(0x7E));
        break;
    case 2:
        frame[2] = (uint8_t)(chance(30) ? 0x7F : below(0x80));
        break;
    default:
        frame[2] = (uint8_t)(0xFE + below(2));
    }
}

/* A command of 255 or 256 bytes. */
static void write_longest(void)
{
    planner *planned_by = chance(50) ? plan_more_time : plan_open;
    planned_by();
    pad_to(252 + below(2));
    write_frame();
}

/* ---- The same bytes, divided otherwise ---- */

/* What comes of bytes on the line: each answer and refusal in turn, and what the library has then. */
typedef struct {
    size_t n;
    uint8_t answers[LINE_CAP * (4 + 255)]; /* each takes a byte of the line at least */
    pomerassol_record record;
} outcome;

/* Adds to an outcome what a burst ended with on the library's side: the number, and the bytes written. */
static void add_answer(outcome *o, uint32_t returned)
{
    size_t written = returned < REFUSED ? returned : 0;
    memcpy(o->answers + o->n, &returned, sizeof returned);
    memcpy(o->answers + o->n + sizeof returned, pomerassol_space + GUARD, written);
    o->n += sizeof returned + written;
}

/* Makes a burst on the copies; returns how many bytes it took. */
static size_t burst_copies(outcome *o, const uint8_t *bytes, size_t n, size_t size)
{
    call c = {FETCH, 0, bytes, n, size};
    uint64_t number = perform(&copies, &c);
    uint32_t returned = POMERASSOL_ENDED(number);
    made_on_copies++;
    if (returned != 0 && returned != REFUSED + R1)
        add_answer(o, returned);
    return n - POMERASSOL_LEFT(number);
}

/* Plays what is on the line on copies, in one piece or divided at random; what is left is handed in again. */
static void play_line(outcome *o, bool divided)
{
    copies = run;
    o->n = 0;
    for (size_t from = 0; from < on_line;) {
        uint32_t rest = (uint32_t)(on_line - from);
        uint32_t part = below(chance(50) || rest < 4 ? rest + 1 : 4);
        from += burst_copies(o, line + from, divided ? part : rest, divided && chance(5) ? 254 : 255);
    }
    o->record = copies.pomerassol;
}

/* Compares what comes of the bytes on the line in one piece with what comes of them in another division. */
static void compare_divisions(void)
{
    static outcome whole, parts;
    call c = {FETCH, 0, line, on_line, 255};
    on_copies = true;
    play_line(&whole, false);
    play_line(&parts, true);
    gathered_before = run.reference.gathered;
    if (whole.n != parts.n || memcmp(whole.answers, parts.answers, whole.n) != 0)
        differ("the answers to bytes in one piece and divided", &c, 0, 0);
    if (memcmp(&whole.record.session, &parts.record.session, sizeof(pomerassol_session)) != 0)
        differ("the session behind bytes in one piece and divided", &c, 0, 0);
    if (memcmp(&whole.record.gathered, &parts.record.gathered, sizeof(pomerassol_gathered)) != 0)
        differ("the gathered bytes of one piece and divided", &c, 0, 0);
    count(DIVIDED, whole.n != 0);
    on_copies = false;
}

/* Makes a burst of n bytes on the copies, with R1 and without. */
static void burst_long(const uint8_t *bytes, size_t n)
{
    for (size_t size = 254; size <= 255; size++) {
        call c = {FETCH, 0, bytes, n, size};
        count(LEFT_CAPPED, POMERASSOL_LEFT(perform(&copies, &c)) == 0xFFFFFFFF);
        made_on_copies++;
    }
}

#if SIZE_MAX > 0xFFFFFFFF
/* Compares bursts of about FFFFFFFF bytes of 0 on copies. */
static void compare_long_bursts(void)
{
    const size_t least = 0xFFFFFFFE, most = least + 3;
    uint8_t *zeros = mmap(NULL, most, PROT_READ, MAP_PRIVATE | MAP_ANONYMOUS | MAP_NORESERVE, -1, 0);
    if (zeros == MAP_FAILED) {
        fprintf(stderr, "drive: no place for a burst of 4 GB\n");
        exit(2);
    }
    copies = run;
    on_copies = true;
    for (size_t n = least; n <= most; n++)
        burst_long(zeros, n);
    on_copies = false;
    munmap(zeros, most);
}
#else
/* Where size_t has 32 bits no such burst can be lent; a short one is made in its place. */
static void compare_long_bursts(void)
{
    copies = run;
    on_copies = true;
    burst_long(noise, sizeof noise);
    on_copies = false;
}
#endif

/* ---- Counting an answer ---- */

/* The row of a command's answer: by its type, or zero details. */
static int row_of(const uint8_t *out)
{
    if (out[2] == 0 && out[3] == 0 && out[4] == 0)
        return ZERO_DETAILS;
    if (out[3] == 0x02)
        return 0;
    if (out[3] == 0x05)
        return 1;
    if (out[3] == 0x27)
        return 2;
    if (out[3] >= 0x40 && out[3] <= 0x44)
        return out[3] - 0x40 + 3;
    return OTHER_TYPE;
}

/* The column of a command's answer: by its result and cause. */
static int column_of(const uint8_t *out)
{
    char name[8];
    snprintf(name, sizeof name, out[11] == 0x3A ? "%02X %02X" : "%02X", out[11], out[12]);
    for (int i = 0; i < COLUMNS; i++)
        if (strcmp(name, column_names[i]) == 0)
            return i;
    return -1;
}

/* A channel without its bytes, as it was before a command. */
static reference_channel before_command[8];

/* Keeps what is counted by from each channel. */
static void keep_channels(void)
{
    for (uint8_t channel = 1; channel <= 7; channel++) {
        const reference_channel *c = at(channel);
        reference_channel *kept = &before_command[channel];
        kept->link = c->link;
        kept->kind = c->kind;
        kept->grant = c->grant;
        kept->ready = c->ready;
        kept->receive.held = c->receive.held;
        kept->receive.datagrams = c->receive.datagrams;
        kept->send.held = c->send.held;
        kept->send.datagrams = c->send.datagrams;
    }
}

/* Counts what a start came by. */
static void count_start(const call *c)
{
    count(SHORT_PROFILE, c->n < 13);
    count(LONG_PROFILE, c->n > 13);
}

static bool in_part[8]; /* whether the first datagram held of a channel was read in part */

/* Follows which first datagrams were read in part, over a command that came either way. */
static void follow_reads(void)
{
    for (uint8_t channel = 1; channel <= 7; channel++) {
        const reference_queue *before = &before_command[channel].receive, *after = &at(channel)->receive;
        bool stays = is_datagram(channel) && before_command[channel].link != REFERENCE_UNOPENED;
        if (!stays || after->datagrams < before->datagrams)
            in_part[channel] = false;
        else if (after->held < before->held)
            in_part[channel] = true;
    }
}

/* Counts what an arrival on an established datagram channel came by. */
static void count_datagram(const call *c, uint32_t returned)
{
    bool all_places = at(c->channel)->receive.datagrams == DATAGRAMS;
    count(SIXTEENTH_CAME, returned < REFUSED && c->n != 0 && all_places);
    count(NO_BYTE_AT_16, returned == 0 && c->n == 0 && all_places);
    count(NO_ROOM_AT_16, returned == REFUSED + R6 && all_places);
    count(NO_PLACE_IN_PART, returned == REFUSED + R11 && in_part[c->channel]);
}

/* Counts what an arrival came by. */
static void count_arrival(const call *c, uint32_t returned)
{
    if (is_datagram(c->channel))
        count_datagram(c, returned);
    if (returned == REFUSED + R6)
        count(ONE_BYTE_OVER, c->n == receive_room(c->channel) + 1);
    if (returned >= REFUSED)
        return;
    count(EVENT_TOLD, returned != 0);
    bool listed = (run.reference.session.listed & 1) != 0;
    count(EVENT_UNLISTED, c->n != 0 && !listed);
    count(EVENT_SILENT, c->n != 0 && listed && returned == 0);
    count(NO_BYTE_CAME, c->n == 0);
    count(FILLED_BY_ARRIVAL, c->n != 0 && receive_room(c->channel) == 0);
}

/* Counts what a take from a datagram channel came by. */
static void count_whole(const call *c, uint32_t returned)
{
    const reference_channel *channel = at(c->channel);
    bool unfinished = channel->ready < channel->send.held;
    if (returned == REFUSED + R12)
        count(ONE_BYTE_SHORT, c->size + 1 == first_datagram(&channel->send));
    if (returned >= REFUSED)
        return;
    count(TAKEN_WHOLE, returned != 0 && channel->ready != 0);
    count(TAKEN_EXACTLY, returned != 0 && returned == c->size);
    count(UNFINISHED_BEHIND, returned != 0 && channel->ready == 0 && unfinished);
    count(UNFINISHED_ALONE, returned == 0 && unfinished);
}

/* Counts what a take came by. */
static void count_take(const call *c, uint32_t returned)
{
    if (is_datagram(c->channel)) {
        count_whole(c, returned);
        return;
    }
    if (returned >= REFUSED)
        return;
    const reference_channel *channel = at(c->channel);
    count(TAKEN_NONE, returned == 0);
    count(TAKEN_1500, returned == 1500);
    count(TAKEN_ALL, returned != 0 && channel->ready == 0);
    count(TAKEN_IN_PART, returned != 0 && channel->ready != 0);
    count(NOT_READY_BEHIND, returned != 0 && channel->ready == 0 && channel->send.held != 0);
}

/* Counts what a drop came by. */
static void count_drop(const call *c, uint32_t returned)
{
    if (returned >= REFUSED)
        return;
    const reference_channel *channel = at(c->channel);
    count(DROP_TOLD, returned != 0);
    count(DROP_UNLISTED, returned == 0);
    count(DROPPED_HOLDING, channel->receive.held != 0 && channel->send.held != 0);
}

/* The size that object 39 of an OPEN asked for. */
static uint32_t size_asked(void)
{
    for (uint32_t i = 0; i < planned; i++)
        if ((plan[i].tag & 0x7F) == 0x39)
            return (uint32_t)(plan[i].value[0] << 8 | plan[i].value[1]);
    return 0;
}

/* Counts what an OPEN that opened came by. */
static void count_opened(const uint8_t *out)
{
    uint8_t channel = out[14] & 0x7F;
    uint32_t asked = size_asked();
    uint32_t grant = at(channel)->grant;
    count(SEVEN_OPEN, count_channels(is_open) == 7);
    count(ALL_PROMISED, run.reference.session.promised == CELLS);
    count(GRANT_FROM_CELLS, grant < asked && grant != 1500);
    count(DATAGRAMS_OPENED, is_datagram(channel));
    count(OTHER_KIND, at(channel)->kind != before_command[channel].kind);
    for (uint8_t above = channel + 1; above <= 7; above++)
        if (is_open(above)) {
            count(NUMBER_USED_AGAIN, true);
            return;
        }
}

/* Counts what a CLOSE that closed came by; `before` is the channel as it was. */
static void count_closed(const reference_channel *before)
{
    count(CLOSED_HOLDING, before->receive.held != 0 && before->send.held != 0);
    count(CLOSED_DROPPED, before->link == REFERENCE_DROPPED);
}

/* Counts what a RECEIVE of a datagram channel came by that handed out bytes. */
static void count_read(uint8_t channel, uint8_t result)
{
    bool to_end = at(channel)->receive.datagrams < before_command[channel].receive.datagrams;
    count(READ_IN_PART, !to_end);
    count(READ_TO_END, to_end);
    count(READ_SHORT, to_end && result == 0x02 && at(channel)->receive.held != 0);
}

/* Counts what a RECEIVE that was answered came by. */
static void count_received(const reference_channel *before, const reference_channel *after)
{
    uint32_t n = before->receive.held - after->receive.held;
    count(RECEIVED_237, n == 237);
    count(RECEIVED_NONE, n == 0);
    count(RECEIVED_DROPPED, n != 0 && before->link == REFERENCE_DROPPED);
    count(LEFT_255, after->receive.held == 255);
    count(LEFT_256, after->receive.held == 256);
}

/* Counts what a SEND of n bytes on a datagram channel came by; `immediate` is bit 1 of its qualifier. */
static void count_built(uint32_t n, bool immediate, const reference_channel *before, const reference_channel *after)
{
    bool unfinished = before->ready < before->send.held;
    count(SIXTEENTH_BEGUN, n != 0 && !unfinished && after->send.datagrams == DATAGRAMS);
    count(JOINED, n != 0 && unfinished);
    count(JOINED_AT_16, n != 0 && unfinished && after->send.datagrams == DATAGRAMS);
    count(ENDED_WITHOUT_BYTES, n == 0 && unfinished && immediate);
    count(ENDED_NOTHING, n == 0 && !unfinished && immediate && after->send.datagrams == DATAGRAMS);
}

/* Counts what a SEND that was answered came by. */
static void count_sent(bool immediate, const reference_channel *before, const reference_channel *after)
{
    uint32_t n = after->send.held - before->send.held;
    if (after->kind == REFERENCE_DATAGRAM)
        count_built(n, immediate, before, after);
    count(SENT_NONE, n == 0);
    count(FILLED_BY_SEND, n != 0 && after->send.held == after->grant);
    count(ESTABLISHED_BY_SEND, before->link == REFERENCE_NOT_YET && after->link == REFERENCE_ESTABLISHED);
}

/* The channel that a command of the plan names, or 0. */
static uint8_t channel_named(void)
{
    for (uint32_t i = 0; i < planned; i++)
        if ((plan[i].tag & 0x7F) == 0x02 && plan[i].value[1] >= 0x21 && plan[i].value[1] <= 0x27)
            return plan[i].value[1] - 0x20;
    return 0;
}

/* Counts what a refused SEND came by. */
static void count_unsent(const reference_channel *before)
{
    for (uint32_t i = 0; i < planned; i++)
        if ((plan[i].tag & 0x7F) == 0x36) {
            uint32_t room = before->grant - before->send.held;
            count(ONE_BYTE_OVER_SEND, plan[i].n == room + 1);
            count(NO_PLACE_TO_SEND, plan[i].n <= room);
            return;
        }
}

static reference_timer timers_before[TIMERS]; /* the timers before the call at hand */

/* The object of the plan that has a number, or NULL. */
static const object *planned_object(uint8_t number)
{
    for (uint32_t i = 0; i < planned; i++)
        if ((plan[i].tag & 0x7F) == number)
            return &plan[i];
    return NULL;
}

/* Counts what a start of a timer came by; `t` is the timer before. */
static void count_started(const reference_timer *t, uint8_t number)
{
    count(TIMER_STARTED, true);
    count(STARTED_RUNNING, t->left != 0);
    count(STARTED_WAITING, t->left == 0 && t->started != 0);
    count(STARTED_LONGEST, run.reference.session.timer[number - 1].left == 24 * 3600 - 1);
}

/* Counts what a stop or an ask that was answered came by; `t` is the timer before. */
static void count_told(const reference_timer *t, bool stop, uint8_t result)
{
    bool waited = t->left == 0 && t->started != 0;
    count(TIMER_STOPPED, stop && result <= 0x01);
    count(STOPPED_WAITING, stop && result == 0x24 && waited);
    count(ASKED_RUNNING, !stop && result <= 0x01);
    count(ASKED_WAITING, !stop && result == 0x24 && waited);
    count(TIME_IGNORED, result == 0x01 && planned_object(0x25) != NULL);
}

/* Counts what a timer command that was answered came by. */
static void count_timer(const uint8_t *out)
{
    const object *timer = planned_object(0x24), *time = planned_object(0x25);
    uint8_t action = out[4] & 3, result = out[11];
    count(VALUE_3, action == 3 && result == 0x32);
    count(TIME_FLAGGED, action != 0 && result == 0x32 && time != NULL && time->tag >= 0x80);
    if (timer == NULL || timer->n != 1 || timer->value[0] < 1 || timer->value[0] > TIMERS)
        return;
    uint8_t number = timer->value[0];
    if (action == 0 && result <= 0x01)
        count_started(&timers_before[number - 1], number);
    if ((action == 1 || action == 2) && (result <= 0x01 || result == 0x24))
        count_told(&timers_before[number - 1], action == 1, result);
}

/* Counts what a second came by. */
static void count_second(void)
{
    uint32_t ran = 0, ended = 0, waited = 0;
    for (uint32_t timer = 1; timer <= TIMERS; timer++) {
        const reference_timer *t = &timers_before[timer - 1];
        ran += t->left != 0;
        ended += t->left == 1;
        waited += t->left == 0 && t->started != 0;
        count(MINUTE_BORROWED, t->left != 0 && t->left % 60 == 0);
        count(HOUR_BORROWED, t->left != 0 && t->left % 3600 == 0);
    }
    count(NO_TIMER_RUNS, ran == 0);
    count(EIGHT_RUN, ran == TIMERS);
    count(CAME_TO_ZERO, ended != 0);
    count(TWO_TO_ZERO, ended > 1);
    count(ZERO_BESIDE_WAITING, ended != 0 && waited != 0);
}

/* Counts what an envelope came by. */
static void count_envelope(const call *c, uint32_t returned)
{
    count(LOWEST_OF_SEVERAL, returned < REFUSED && count_timers(waits) != 0);
    count(EXACTLY_14, returned < REFUSED && c->size == 14);
    count(ONE_UNDER_14, returned == REFUSED + R1 && c->size == 13 && count_timers(waits) != 0);
}

/* Counts what an answered command came by. */
static void count_places(const uint8_t *out)
{
    uint8_t type = out[3], result = out[11], channel = channel_named();
    const reference_channel *before = &before_command[channel];
    bool good = result <= 0x07;
    if (type == 0x27)
        count_timer(out);
    if (type == 0x40 && good)
        count_opened(out);
    if (channel == 0)
        return;
    if (type == 0x41 && good)
        count_closed(before);
    if (type == 0x42 && good)
        count_received(before, at(channel));
    if (type == 0x42 && good && is_datagram(channel) && at(channel)->receive.held < before->receive.held)
        count_read(channel, result);
    if (type == 0x43 && good)
        count_sent(out[4] & 1, before, at(channel));
    if (type == 0x43 && result == 0x3A && out[12] == 0x04)
        count_unsent(before);
}

/* Whether an object that was planned has a tag of three bytes. */
static bool has_long_tag(void)
{
    for (uint32_t i = 0; i < planned; i++)
        if (plan[i].long_tag)
            return true;
    return false;
}

/* Counts the answer to a command that came either way; one that the paper does not know ends the run. */
static void count_answer(const call *c, uint32_t returned)
{
    const uint8_t *out = reference_space + GUARD;
    int row = row_of(out), column = column_of(out);
    if (returned < 12 || column < 0 || known[row][column] != 'x')
        differ("both give an answer that the paper does not know", c, returned, returned);
    answers[row][column]++;
}

/* Counts what a command came by. */
static void count_command(const call *c, uint32_t returned)
{
    const uint8_t *out = reference_space + GUARD;
    if (returned >= REFUSED)
        return;
    count_answer(c, returned);
    count(LONG_TAG_DONE, has_long_tag() && out[11] <= 0x07);
    count(LONG_TAG_REFUSED, has_long_tag() && out[11] == 0x32);
    count(LONGEST_COMMAND, c->n == COMMAND_CAP);
    count(LONGEST_RESPONSE, returned == 255);
    count_places(out);
}

static bool between[DETAILS]; /* which kinds of calls were made since something is gathered */

/* Follows which calls are made between bursts. */
static void follow_between(call_kind kind)
{
    between[kind] = true;
    if (run.reference.gathered.count == 0)
        memset(between, 0, sizeof between);
}

/* Counts what a burst came by that was not taken. */
static void count_untaken(const call *c)
{
    bool whole = taken_of(&gathered_before, c->bytes, c->n) != 0;
    count(UNTAKEN_NONE, c->n == 0);
    count(UNTAKEN_GATHERED, gathered_before.count != 0);
    count(UNTAKEN_UNFINISHED, c->n != 0 && !whole);
    count(UNTAKEN_WHOLE, whole);
}

/* Counts what a burst came by that called for too much. */
static void count_too_long(uint32_t left)
{
    count(TOO_LONG_LEFT, left != 0);
    count(TOO_LONG_AT_END, left == 0);
    count(TOO_LONG_LATER, gathered_before.count != 0);
}

/* A byte of the command at hand: gathered before, or of the burst. */
static uint8_t byte_at(const call *c, uint32_t i)
{
    uint32_t before = gathered_before.count;
    return i < before ? gathered_before.bytes[i] : c->bytes[i - before];
}

/* Counts a head of n bytes that can never be right by the last of them; false where the n bytes are a whole frame. */
static bool count_wrong_head(const call *c, uint32_t n)
{
    bool second = n == 2 && byte_at(c, 1) >= 0x80, third = n == 3 && byte_at(c, 1) == 0x81;
    count(WRONG_FIRST, n == 1);
    count(WRONG_SECOND, second);
    count(WRONG_THIRD, third);
    return n == 1 || second || third;
}

/* Counts what a burst came by that completed a frame of n bytes; a head that is wrong or too long takes three at most. */
static void count_completed(const call *c, uint32_t n, uint32_t left)
{
    static const reference_gathered none;
    count(AT_ONCE, gathered_before.count == 0);
    count(BY_LATER_BURST, gathered_before.count != 0);
    count(BY_SINGLE_BYTE, c->n == 1);
    count(BY_LAST_BYTE, left == 0);
    count(BYTES_LEFT, left != 0);
    count(FRAME_LEFT, left != 0 && taken_of(&none, c->bytes + c->n - left, left) > 3);
    count(ACROSS_START, between[START]);
    count(ACROSS_COMMAND, between[COMMAND]);
    count(ACROSS_RADIO, between[ARRIVAL] || between[TAKE] || between[DROP]);
    count(ACROSS_CLOCK, between[SECOND] || between[ENVELOPE]);
    count(FETCHED_255, n == COMMAND_CAP - 1);
    count(FETCHED_256, n == COMMAND_CAP);
}

/* Counts what a fetch came by. */
static void count_fetch(const call *c, uint64_t number)
{
    uint32_t returned = POMERASSOL_ENDED(number), left = POMERASSOL_LEFT(number);
    uint32_t n = gathered_before.count + (uint32_t)c->n - left;
    if (returned == REFUSED + R1) {
        count_untaken(c);
    } else if (returned == REFUSED + R2) {
        count_too_long(left);
    } else if (returned == 0) {
        count(MORE_OF_NONE, c->n == 0);
        count(MORE_AT_255, n == COMMAND_CAP - 1);
    } else {
        count_answer(c, returned);
        if (!count_wrong_head(c, n))
            count_completed(c, n, left);
    }
}

/* Makes a call of the history, and counts its answer. */
static uint64_t make(const call *c)
{
    bool from_card = c->kind == COMMAND || c->kind == FETCH;
    made++;
    if (from_card)
        keep_channels();
    memcpy(timers_before, run.reference.session.timer, sizeof timers_before);
    uint64_t number = perform(&run, c);
    uint32_t returned = POMERASSOL_ENDED(number);
    add_to_sum(&run.pomerassol.session, sizeof run.pomerassol.session);
    add_to_sum(&run.pomerassol.gathered, sizeof run.pomerassol.gathered);
    if (returned >= REFUSED)
        refusals[c->kind][returned - REFUSED]++;
    if (from_card)
        follow_reads();
    if (c->kind == START)
        count_start(c);
    if (c->kind == COMMAND)
        count_command(c, returned);
    if (c->kind == ARRIVAL)
        count_arrival(c, returned);
    if (c->kind == TAKE)
        count_take(c, returned);
    if (c->kind == DROP)
        count_drop(c, returned);
    if (c->kind == SECOND)
        count_second();
    if (c->kind == ENVELOPE)
        count_envelope(c, returned);
    if (c->kind == FETCH)
        count_fetch(c, number);
    follow_between(c->kind);
    return number;
}

/* ---- Histories ---- */

/* A profile that allows most: bearer 02, the events, the timers, and single bits are seldom changed. */
static void sensible_profile(uint8_t *profile)
{
    memcpy(profile, "\x00\x00\x08\x00\x01\x0C\x00\x03\x00\x00\x00\x1F\x02", 13);
    profile[12] |= (uint8_t)((chance(60) ? 7 : below(8)) << 5);
    if (chance(10))
        profile[12] ^= 0x02;
    if (chance(10))
        profile[5] ^= (uint8_t)(0x04 << below(2));
    if (chance(10))
        profile[7] ^= (uint8_t)(0x01 << below(2));
    for (uint32_t i = below(20); i < 4; i++) {
        uint32_t place_of_bit = below(13);
        profile[place_of_bit] ^= (uint8_t)(1u << below(8));
    }
}

/* A start: the profile sensible, cut, lengthened, or random. */
static void make_start(void)
{
    uint8_t profile[FRAME_CAP];
    size_t n = 13;
    memcpy(profile, random_bytes(), FRAME_CAP);
    if (chance(92))
        sensible_profile(profile);
    if (chance(25))
        n = 13 + below(FRAME_CAP - 12);
    else if (chance(8))
        n = below(14);
    call c = {START, 0, profile, n, below(64)};
    make(&c);
}

/* A start of the fetch, in memory that holds anything; what is on the line stays or is lost. */
static void make_fetch_start(void)
{
    count(FETCH_ANEW, run.reference.gathered.count != 0);
    memcpy(&run.reference.gathered, random_bytes(), sizeof run.reference.gathered);
    memcpy(&run.pomerassol.gathered, random_bytes(), sizeof run.pomerassol.gathered);
    if (chance(50))
        take_off_line(on_line);
    call c = {FETCH_START, 0, noise, 0, below(64)};
    make(&c);
}

/* A burst off the line. What is left is handed in again or dropped; all that is on the line too, mostly at wrong heads. */
static void make_burst(void)
{
    size_t n = burst_size();
    call c = {FETCH, 0, line, n, buffer_size(255)};
    uint64_t number = make(&c);
    bool no_details = POMERASSOL_ENDED(number) == 12 && row_of(reference_space + GUARD) == ZERO_DETAILS;
    take_off_line(chance(10) ? c.n : c.n - POMERASSOL_LEFT(number));
    if (chance(no_details ? 25 : 2))
        take_off_line(on_line);
}

/* The written command, by the command call. */
static void make_command(void)
{
    call c = {COMMAND, 0, frame, frame_size, buffer_size(255)};
    make(&c);
}

/* An arrival: mostly where the link is established, often on the channel in focus, so that its places fill. */
static void make_arrival(void)
{
    uint8_t channel = pick_channel(chance(70) ? is_focus : is_established);
    const uint8_t *bytes = random_bytes();
    uint32_t n = arrival_size(channel);
    call c = {ARRIVAL, channel, bytes, n, buffer_size(16)};
    make(&c);
}

/* A take: mostly where bytes are ready. */
static void make_take(void)
{
    uint8_t channel = pick_channel(is_ready);
    call c = {TAKE, channel, noise, 0, take_size(channel)};
    make(&c);
}

/* A drop: mostly where the link is established. */
static void make_drop(void)
{
    uint8_t channel = pick_channel(is_established);
    call c = {DROP, channel, noise, 0, buffer_size(16)};
    make(&c);
}

/* A second. */
static void make_second(void)
{
    call c = {SECOND, 0, noise, 0, below(64)};
    make(&c);
}

/* An envelope. */
static void make_envelope(void)
{
    call c = {ENVELOPE, 0, noise, 0, buffer_size(14)};
    make(&c);
}

static planner *const planners[] = {
    plan_open, plan_close, plan_receive, plan_send, plan_status, plan_more_time, plan_event_list, plan_timer, plan_other,
};

enum { PLANNERS = 9, KINDS = 15, MOODS = 8 };

/* How often each kind of call comes in each mood: the planners, random bytes, arrival, take, drop, second, envelope. */
static const uint8_t moods[MOODS][KINDS] = {
    {10, 3, 14, 18, 3, 2, 3, 6, 1, 1, 26, 12, 1, 6, 3},   /* mixed */
    {40, 16, 5, 6, 5, 2, 6, 2, 1, 1, 10, 5, 1, 2, 1},     /* opening */
    {6, 1, 4, 40, 1, 1, 2, 1, 1, 0, 40, 4, 0, 2, 0},      /* filling */
    {1, 0, 6, 46, 0, 0, 1, 1, 0, 0, 46, 4, 0, 1, 0},      /* crowding */
    {3, 1, 36, 14, 1, 1, 1, 1, 0, 0, 16, 26, 0, 2, 1},    /* emptying */
    {20, 20, 10, 8, 8, 2, 4, 3, 1, 1, 12, 8, 6, 3, 2},    /* closing */
    {1, 1, 1, 1, 1, 1, 1, 45, 1, 0, 2, 1, 0, 32, 12},     /* timing */
    {20, 6, 15, 15, 6, 8, 10, 14, 6, 6, 6, 4, 2, 6, 4},   /* rough */
};

/* A kind of call, by the weights of a mood. */
static uint32_t pick_kind(const uint8_t *weights)
{
    uint32_t all = 0, kind = 0;
    for (uint32_t i = 0; i < KINDS; i++)
        all += weights[i];
    uint32_t at_weight = below(all);
    while (at_weight >= weights[kind])
        at_weight -= weights[kind++];
    return kind;
}

/* Writes a command of a kind: planned, or random bytes. */
static void write_kind(uint32_t kind)
{
    if (kind < PLANNERS)
        write_command(planners[kind]);
    else
        write_random();
}

/* Writes what is put on the line in place of a command of a kind: mostly that one. */
static void write_for_line(uint32_t kind)
{
    if (chance(10))
        write_wrong_head();
    else if (chance(5))
        write_longest();
    else
        write_kind(kind);
}

/* A command of a kind: by the command call, or on the line, off which a burst comes. */
static void make_kind(uint32_t kind)
{
    if (chance(70)) {
        write_kind(kind);
        make_command();
        return;
    }
    write_for_line(kind);
    put_on_line();
    if (chance(4))
        compare_divisions();
    make_burst();
}

/* One call in a mood. */
static void step(uint32_t mood)
{
    uint32_t kind = pick_kind(moods[mood]);
    rough = mood == MOODS - 1;
    if (kind <= PLANNERS)
        make_kind(kind);
    else if (kind == PLANNERS + 1)
        make_arrival();
    else if (kind == PLANNERS + 2)
        make_take();
    else if (kind == PLANNERS + 3)
        make_drop();
    else if (kind == PLANNERS + 4)
        make_second();
    else
        make_envelope();
}

/* The whole history: starts anew now and then, and changes its mood. */
static void history(void)
{
    uint32_t mood = 1, rest = 20;
    make_start();
    make_fetch_start();
    while (made < calls) {
        if (rest-- == 0) {
            mood = below(MOODS);
            rest = 10 + below(120);
            focus = channel_with(chance(60) ? is_datagram : is_open);
            by_bytes = chance(15);
        }
        if (below(400) == 0) {
            compare_state();
            make_start();
            mood = 1;
            rest = 20;
        } else if (below(400) == 0) {
            make_fetch_start();
        } else if (chance(on_line == 0 ? 2 : 30)) {
            make_burst();
        } else {
            step(mood);
        }
        if (made % 200 == 0)
            compare_state();
    }
    compare_state();
    compare_day();
    compare_long_bursts();
}

/* ---- The counts ---- */

/* Prints how often each answer to a command came. */
static void print_answers(void)
{
    printf("\n%-14s", "answers");
    for (int j = 0; j < COLUMNS; j++)
        printf("%8s", column_names[j]);
    for (int i = 0; i < ROWS; i++) {
        printf("\n%-14s", row_names[i]);
        for (int j = 0; j < COLUMNS; j++)
            if (known[i][j] == 'x')
                printf("%8" PRIu64, answers[i][j]);
            else
                printf("%8s", "-");
    }
    printf("\n");
}

/* Prints how often each refusal came. */
static void print_refusals(void)
{
    static const char *const given[] = {
        [COMMAND] = ".xx..........", [ARRIVAL] = ".x.xxxx....x.", [TAKE] = "...xxx......x",
        [DROP] = ".x.xxx.......", [SECOND] = ".............", [ENVELOPE] = ".x........x..", [FETCH] = ".xx..........",
    };
    printf("\n%-14s", "refusals");
    for (uint32_t j = 1; j < REFUSALS; j++)
        if (is_refusal(j))
            printf("%*sR%" PRIu32, j < 10 ? 6 : 5, "", j);
    for (int i = COMMAND; i <= FETCH; i++) {
        printf("\n%-14s", kind_names[i]);
        for (uint32_t j = 1; j < REFUSALS; j++)
            if (given[i][j] == 'x')
                printf("%8" PRIu64, refusals[i][j]);
            else if (is_refusal(j))
                printf("%8s", "-");
    }
    printf("\n");
}

/* Prints how often the history came by each place. */
static void print_places(void)
{
    printf("\nplaces\n");
    for (int i = 0; i < PLACES; i++)
        printf("%-38s%8" PRIu64 "\n", place_names[i], places[i]);
}

/* Runs one history and prints what it came by. */
int main(int argc, char **argv)
{
    seed = argc > 1 ? strtoull(argv[1], NULL, 0) : 1;
    calls = argc > 2 ? strtoull(argv[2], NULL, 0) : 1000000;
    random_state = seed;
    fill_noise();
    history();
    printf("seed %" PRIu64 ": %" PRIu64 " calls, %" PRIu64 " more on copies, no difference\n", seed, made, made_on_copies);
    printf("sum over the record's bytes after each call: %08" PRIX32 "\n", record_sum);
    print_answers();
    print_refusals();
    print_places();
    return 0;
}
